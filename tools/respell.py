#!/usr/bin/env python3
"""Brings the repository's own antt names to today's spelling, once, after the kit's port.py.

usage: tools/respell.py        at the top of the repository; files are rewritten in place

A word or a lemma is in snake case (isFact, copy-next: is_fact, copy_next), a prime is an apostrophe. Types, modules, names of Rust's
source and names that the toolchain generates keep their spelling. Where a lemma would get the name of a word, it ends in _lem. What
fell together otherwise is printed."""
import collections
import os
import re
import sys

WORD = re.compile(r"[A-Za-z0-9_'′Δ∂Σ₀-₉+−<-]*[A-Za-z0-9_'′Δ∂Σ₀-₉]")
DEFINES = re.compile(r"^(\s*)((?:abbrev |unfoldable )?(?:pub )?)([^\s(){}.;,:]+(?: [a-z][^\s(){}.;,:]*)*) : (.*)$")
IMPORT = re.compile(r"^\s*(?:pub )?(?:ghost )?use ([^\s;{]+?)(?:\.\{([^}]*)\})?;?$")


def files(root, *ends):
    for folder, dirs, names in os.walk(root):
        dirs[:] = sorted(d for d in dirs if d not in (".git", "out", "target"))
        for name in sorted(names):
            if name.endswith(ends):
                yield os.path.join(folder, name)


def text(path):
    with open(path, encoding="utf-8") as f:
        return f.read()


def snake(name):
    name = name.replace("′", "'")
    name = re.sub(r"(?<=[a-z0-9])([A-Z])", lambda m: "_" + m.group(1).lower(), name)
    return re.sub(r"(?<=[A-Za-z0-9_'Δ∂])-(?=[A-Za-z0-9Δ∂])", "_", name)


def ours(module, crates):
    return module.startswith("Rattle.") and module.split(".")[1] in crates


def edit(old):
    """An edit's text, which port.py doesn't turn: its paths, projections and operators too."""
    new = re.sub(r"Rattle·(\w+)·(specs|proofs)\.(?:specs|proofs)\b", r"Rattle.\1.\2", old)
    new = re.sub(r"Rattle·(\w+)\b", r"Rattle.\1", new)
    new = re.sub(r"(?<![\w◌])_([a-z]+|[-+*/%<≤≡∷∙]|\+\+)_(?!\w)", r"◌\1◌", new)
    new = re.sub(r"(\w+ c i|\w+ \.[a-z]\w* \w) (\.[a-z]\w*)", lambda m: "(" + m.group(1) + ")" + m.group(2), new)
    new = re.sub(r"(?<=[\w)']) \.(?=[a-z0-9])", ".", new)
    if ".antt\n" in new.split("old:")[0]:
        new = re.sub(r"(?<=[\s(])\((\w+(?:\.[a-z]\w*)+)\)", r"\1", new)
        new = re.sub(r"\((\(\w+(?:\.\w+)? [\w ]+\)\.\w+)\)", r"\1", new)
    return re.sub(r"(?<![\w-])[a-z]+(?:[A-Z][a-z]*)+(?![\w-])", lambda m: snake(m.group(0)), new)


def main():
    crates = set(os.listdir("crates"))
    defined, imported, generated = collections.Counter(), set(), set()
    for path in files("crates", ".antt", ".rt"):
        for line in text(path).split("\n"):
            m = IMPORT.match(line)
            if m:
                if not ours(m.group(1), crates) or m.group(1).split(".")[2:3] not in (["specs"], ["proofs"]):
                    imported.update(w.split(" as ")[0].strip() for w in (m.group(2) or "").split(","))
                continue
            if line.lstrip().startswith("--") or not path.endswith(".antt"):
                continue
            m = DEFINES.match(line)
            if not m:
                continue
            for name in m.group(3).split(" "):
                if m.group(4).startswith("tie.") or name.endswith("-spec"):
                    generated.add(name)
                else:
                    defined[name] += 1
    want = {n: snake(n) for n in defined if n[0].islower() and snake(n) != n and n not in imported and n not in generated}
    taken = (set(defined) | imported) - set(want)
    turned = {}
    for name in sorted(want, key=lambda n: ("-" in n, n)):
        to = want[name]
        if to in taken and "-" not in name and to in defined:
            print(f"{to}: a lemma, and {name} the word")
            turned[to] = to + "_lem"
            taken.add(to + "_lem")
            taken.discard(to)
        if to in taken:
            print(f"{name}: {to} is taken")
            to += "_lem"
        if to in taken:
            sys.exit(f"{name}: {to} is taken too")
        taken.add(to)
        turned[name] = to
    for path in files("crates", ".antt", ".rt", ".edit"):
        old = text(path)
        new = WORD.sub(lambda m: turned.get(m.group(0), m.group(0)), old)
        if path.endswith(".edit"):
            new = edit(new)
        if new != old:
            with open(path, "w", encoding="utf-8") as f:
                f.write(new)
    for path in files(".", ".md", ".h", ".py", ".c", ".rs"):
        if path.startswith("./tools/respell") or path.startswith("./crates"):
            continue
        old = text(path)
        new = WORD.sub(lambda m: turned.get(m.group(0), m.group(0)) if re.search(r"[a-z][A-Z]", m.group(0)) or path.endswith(".md") else m.group(0), old)
        if new != old:
            with open(path, "w", encoding="utf-8") as f:
                f.write(new)
    print(f"{len(turned)} names turned")


main()
