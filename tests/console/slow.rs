//! A slow engine, written from document 01 and from S-1 to S-3 and S-5 to S-9 of document 02, sentence by sentence. The quoted lines are
//! the documents' own. What is held is a `Vec<bool>` indexed by the number of a line, and every inference rule is a direct quantification
//! over rules and antecedents.

use std::sync::atomic::{AtomicU32, Ordering::Relaxed};

/// The deliberate fault that is switched on (`--mutant K`, the test's own test); 0 for none. See `compare.rs` for the list.
pub static MUTANT: AtomicU32 = AtomicU32::new(0);

pub fn mutant(k: u32) -> bool {
    MUTANT.load(Relaxed) == k
}

/// The answer in the five numbers of flyrules.h. A refusal has its number alone: the other four are 0.
#[repr(C)]
#[derive(Clone, Copy, PartialEq, Eq, Debug, Default)]
pub struct Answer {
    pub refused: u32,
    pub finished: u32,
    pub lines: u32,
    pub worked: u32,
    pub spent: u32,
}

/// The readings in the numbers of flyrules.h.
pub const PLAIN: u32 = 0;
pub const WELL_FOUNDED: u32 = 1;

/// What a run is told beside its table.
#[derive(Clone, Copy, Debug)]
pub struct Terms {
    pub reading: u32,
    pub budget: u32,
}

pub fn plain(budget: u32) -> Terms {
    Terms { reading: PLAIN, budget }
}

pub fn well_founded(budget: u32) -> Terms {
    Terms { reading: WELL_FOUNDED, budget }
}

/// A search that was made: for −∂ or for −Δ, what was spent before it, and how many lines it added.
#[derive(Clone, Copy)]
pub struct Search {
    pub partial: bool,
    pub before: u32,
    pub added: usize,
}

/// An answer, the lines in the order of the log, and the searches that were made.
pub struct Run {
    pub answer: Answer,
    pub lines: Vec<u16>,
    pub searches: Vec<Search>,
}

/// How a rule stands, in the two numbers of flyrules.h. With a refusal the second is 0.
#[repr(C)]
#[derive(Clone, Copy, PartialEq, Eq, Debug)]
pub struct Standing {
    pub refused: u32,
    pub standing: u32,
}

/// What a call answers that writes a table, in the two numbers of flyrules.h. With a refusal the second is 0.
#[repr(C)]
#[derive(Clone, Copy, PartialEq, Eq, Debug)]
pub struct Written {
    pub refused: u32,
    pub bytes: u32,
}

/// The editions in the numbers of flyrules.h: the old layout, and edition two.
pub const OLD: u32 = 1;
pub const TWO: u32 = 2;

pub const FIRING: u32 = 0;
pub const OUT: u32 = 1;
pub const WAITING: u32 = 2;

pub const SCRATCH: usize = 32_768;

// "Tags: 0 +Δ (definitely proved), 1 −Δ (definitely refuted), 2 +∂ (defeasibly proved), 3 −∂ (defeasibly refuted)."
const PLUS_DELTA: usize = 0;
const MINUS_DELTA: usize = 1;
const PLUS_PARTIAL: usize = 2;
const MINUS_PARTIAL: usize = 3;

/// "A line about literal q is the number 4q + tag."
fn line(q: usize, tag: usize) -> usize {
    4 * q + tag
}

/// "The complement of a literal flips its lowest bit."
fn complement(q: usize) -> usize {
    q ^ 1
}

/// The i-th "16-bit little-endian" word of the file.
fn word(bytes: &[u8], i: usize) -> usize {
    bytes[2 * i] as usize + 256 * bytes[2 * i + 1] as usize
}

/// "A rule has a kind (0 strict, 1 defeasible, 2 defeater), one head, and a set of antecedents, all literals." Document 02, S-5: "Rules
/// gain an origin: 0 none, 1 house, 2 tour, 3 console."
struct Rule {
    kind: usize,
    origin: usize,
    head: usize,
    body: Vec<usize>,
}

/// The four sections, in file order, as (left, right); of the rules the antecedents are still missing.
struct Sections {
    a: usize,
    facts: Vec<(usize, usize)>,
    rules: Vec<Rule>,
    entries: Vec<(usize, usize)>,
    pairs: Vec<(usize, usize)>,
}

/// The edition as a deliberate fault takes it; without one, as it is told.
fn mistaken(edition: u32) -> u32 {
    if mutant(54) && edition != TWO {
        OLD
    } else if mutant(55) {
        edition % 256
    } else if mutant(56) {
        edition % 65_536
    } else {
        edition
    }
}

/// Document 02, S-5: "the first byte of the file is an added 2, followed by the old layout." "A first byte other than 2, or no byte, is
/// 1." So is an edition that there is not (docs/DECISIONS.md).
fn layout(bytes: &[u8], edition: u32) -> Result<&[u8], u32> {
    match (edition, bytes) {
        (OLD, _) => Ok(bytes),
        (TWO, [2, layout @ ..]) => Ok(layout),
        (TWO, [_, layout @ ..]) if mutant(52) => Ok(layout),
        _ => Err(1),
    }
}

/// A rule, its antecedents still missing. "left the kind, right the head"; document 02, S-5: "In edition two a rule's left word is
/// kind + 4 × origin", "with kind read as the remainder by 4".
fn rule(left: usize, head: usize, edition: u32) -> Rule {
    let (kind, origin) = if edition == TWO && !mutant(47) {
        (left % 4, left / 4)
    } else if edition == OLD && mutant(51) {
        (left % 4, 0)
    } else {
        (left, 0)
    };
    Rule { kind, origin, head, body: vec![] }
}

/// "Sizes come first: five 16-bit little-endian words A, F, N, B, P .. Let T = F+N+B+P. Then come two parallel arrays, left and
/// right, each of T such words." Refusals 1 to 3 are met here, since nothing can be read of such a file.
fn sections(bytes: &[u8], edition: u32) -> Result<Sections, u32> {
    let edition = mistaken(edition);
    let bytes = layout(bytes, edition)?;
    // "1 stub: fewer than 10 bytes"; document 02, S-5: "1 to 7 judged on the bytes after the first"
    if bytes.len() < 10 {
        return Err(if mutant(53) && edition == TWO && bytes.len() == 9 { 3 } else { 1 });
    }
    let [a, f, n, b, p] = [0, 1, 2, 3, 4].map(|i| word(bytes, i));
    // "2 oversize: one of the five sizes above its limit"; "At most A 512, F 1,024, N 1,024, B 4,096, P 2,048."
    if a > 512 || f > 1_024 || n > 1_024 || b > 4_096 || p > 2_048 {
        return Err(2);
    }
    // "3 length: byte count not 10 + 4·T"
    let t = f + n + b + p;
    if bytes.len() != 10 + 4 * t {
        return Err(3);
    }
    // "Entries, in this order": facts, rules, entries, pairs
    let part = |from: usize, count: usize| -> Vec<(usize, usize)> {
        (from..from + count).map(|i| (word(bytes, 5 + i), word(bytes, 5 + t + i))).collect()
    };
    let rules = part(f, n).into_iter().map(|(left, right)| rule(left, right, edition)).collect();
    Ok(Sections { a, facts: part(0, f), rules, entries: part(f + n, b), pairs: part(f + n + b, p) })
}

/// "What the console turns away", 1 to 7; 0 for a table that is not. "The lowest number that applies anywhere in the table is given."
pub fn judge(bytes: &[u8], edition: u32) -> u32 {
    let s = match sections(bytes, edition) {
        Ok(s) => s,
        Err(number) => return number,
    };
    let n = s.rules.len();
    let strange = |q: usize| q >= 2 * s.a;
    if mutant(12) && s.facts.iter().any(|&(_, q)| strange(q)) {
        return 5;
    }
    // "4 kind: a fact's left not 0, or a rule's left above 2"; document 02, S-5: "An origin above 3 is 4."
    let bad_fact = |left: usize| left != 0 && !(mutant(50) && edition == TWO && left % 4 == 0);
    let bad_rule = |r: &Rule| {
        let bad_kind = r.kind > 2 && !(mutant(49) && edition == TWO && r.kind + 4 * r.origin <= 14);
        bad_kind || r.origin > 3 && !(mutant(46) && r.origin == 4)
    };
    if s.facts.iter().any(|&(left, _)| bad_fact(left)) || s.rules.iter().any(bad_rule) {
        return 4;
    }
    // "5 stranger: a literal not below 2A, or a rule number not below N"
    if s.facts.iter().any(|&(_, q)| strange(q))
        || s.rules.iter().any(|r| strange(r.head))
        || s.entries.iter().any(|&(r, q)| r >= n || strange(q))
        || s.pairs.iter().any(|&(t, w)| t >= n || w >= n)
    {
        return 5;
    }
    // "6 disorder: facts, entries or pairs not strictly rising"; "Right rises strictly" (facts, whose left is 0 by now); "They rise
    // strictly by left, then right" (entries, pairs)
    let rises = |section: &[(usize, usize)]| section.windows(2).all(|w| w[0] < w[1] || mutant(20) && w[0] == w[1]);
    if !rises(&s.facts) || !rises(&s.entries) || !rises(&s.pairs) {
        return 6;
    }
    // "7 circle: the pairs, followed stronger to weaker, lead from some rule back to itself"
    if (0..n).any(|r| leads_back(&s.pairs, n, r)) {
        return 7;
    }
    0
}

/// Do one or more pairs lead from r to r? Rules are reached one after another, each from one that was reached before.
fn leads_back(pairs: &[(usize, usize)], n: usize, r: usize) -> bool {
    let mut reached = vec![false; n];
    let mut ahead = vec![r];
    while let Some(t) = ahead.pop() {
        // the pairs rise by left here, so those of t stand together
        let first = pairs.partition_point(|&(left, _)| left < t);
        for &(_, weaker) in pairs[first..].iter().take_while(|&&(left, _)| left == t) {
            if weaker == r && !(mutant(13) && t == r) {
                return true;
            }
            if !reached[weaker] {
                reached[weaker] = true;
                ahead.push(weaker);
            }
        }
    }
    false
}

/// A table that was accepted.
struct Theory {
    a: usize,
    size: usize,
    bound: usize,
    fact: Vec<bool>,
    rules: Vec<Rule>,
    pairs: Vec<(usize, usize)>,
    /// the pairs again, as a square: `over[t * N + s]`
    over: Vec<bool>,
    /// the numbers of the rules with each head, for speed only
    with_head: Vec<Vec<usize>>,
}

fn theory(bytes: &[u8], edition: u32) -> Theory {
    let s = sections(bytes, edition).ok().unwrap();
    let (a, f, n, b, p) = (s.a, s.facts.len(), s.rules.len(), s.entries.len(), s.pairs.len());
    let mut fact = vec![false; 2 * a];
    for &(_, q) in &s.facts {
        fact[q] = true;
    }
    let mut rules = s.rules;
    if mutant(48) {
        rules.iter_mut().for_each(|r| r.kind += 4 * r.origin);
    }
    for &(r, q) in &s.entries {
        rules[r].body.push(q);
    }
    // "A pair 't over s' says that rule t is stronger than rule s." "Pairs count as listed; no closure is taken."
    let mut over = vec![false; n * n];
    for &(t, w) in &s.pairs {
        over[t * n + w] = true;
    }
    if mutant(4) {
        for k in 0..n {
            for t in 0..n {
                for w in 0..n {
                    over[t * n + w] |= over[t * n + k] && over[k * n + w];
                }
            }
        }
    }
    let mut with_head = vec![vec![]; 2 * a];
    for r in 0..n {
        with_head[rules[r].head].push(r);
    }
    // "Size is A+F+N+B+P."; the bound "5A+F+N+3B+3P"
    let (size, bound) = (a + f + n + b + p, 5 * a + f + n + 3 * b + 3 * p);
    Theory { a, size, bound, fact, rules, pairs: s.pairs, over, with_head }
}

impl Theory {
    fn rules_for(&self, q: usize) -> impl Iterator<Item = usize> + '_ {
        self.with_head[q].iter().copied()
    }

    fn strict_rules(&self, q: usize) -> impl Iterator<Item = usize> + '_ {
        self.rules_for(q).filter(|&r| self.rules[r].kind == 0)
    }

    /// "A supporter of q is a strict or defeasible rule with head q."
    fn supporters(&self, q: usize) -> impl Iterator<Item = usize> + '_ {
        self.rules_for(q).filter(|&r| self.rules[r].kind != 2 || mutant(1))
    }

    /// "An attacker of q is any rule, defeaters included, whose head is the complement of q."
    fn attackers(&self, q: usize) -> impl Iterator<Item = usize> + '_ {
        self.rules_for(complement(q)).filter(|&r| self.rules[r].kind != 2 || !mutant(6))
    }

    fn stronger(&self, t: usize, s: usize) -> bool {
        self.over[t * self.rules.len() + s] || mutant(58) && self.rules[t].origin == 1 && self.rules[s].origin == 2
    }

    /// all antecedents of r have the tag
    fn all(&self, held: &[bool], r: usize, tag: usize) -> bool {
        self.rules[r].body.iter().all(|&x| held[line(x, tag)])
    }

    /// some antecedent of r has the tag
    fn some(&self, held: &[bool], r: usize, tag: usize) -> bool {
        self.rules[r].body.iter().any(|&x| held[line(x, tag)])
    }

    /// "When a conclusion follows .. From lines already held"
    fn follows(&self, held: &[bool], q: usize, tag: usize) -> bool {
        let not_q = complement(q);
        match tag {
            // "+Δq: q is a fact, or some strict rule for q has +Δ held for all antecedents."
            PLUS_DELTA => self.fact[q] || self.strict_rules(q).any(|r| self.all(held, r, PLUS_DELTA)),
            // "−Δq: q is no fact, and each strict rule for q has an antecedent with −Δ held."
            MINUS_DELTA => !self.fact[q] && self.strict_rules(q).all(|r| self.some(held, r, MINUS_DELTA)),
            // "+∂q: +Δq is held; or all of: some supporter has +∂ held for every antecedent; −Δ of the complement is held; each
            // attacker either has an antecedent with −∂ held, or is weaker by a listed pair than a supporter of q whose antecedents
            // all have +∂ held."
            PLUS_PARTIAL => {
                let fires = |t: usize| self.all(held, t, PLUS_PARTIAL);
                let out = |s: usize| self.some(held, s, MINUS_PARTIAL);
                if mutant(5) {
                    // one supporter is asked to beat all attackers
                    let alone = |t: usize| self.attackers(q).all(|s| out(s) || self.stronger(t, s));
                    return held[line(q, PLUS_DELTA)]
                        || held[line(not_q, MINUS_DELTA)] && self.supporters(q).any(|t| fires(t) && alone(t));
                }
                held[line(q, PLUS_DELTA)]
                    || self.supporters(q).any(fires)
                        && held[line(not_q, MINUS_DELTA)]
                        && self.attackers(q).all(|s| out(s) || self.supporters(q).any(|t| self.stronger(t, s) && fires(t)))
            }
            // "−∂q: −Δq is held, and one of: each supporter has an antecedent with −∂ held; +Δ of the complement is held; some
            // attacker has +∂ held for all antecedents, and each supporter either has an antecedent with −∂ held or is not stronger
            // than that attacker."
            MINUS_PARTIAL => {
                let fires = |s: usize| self.all(held, s, PLUS_PARTIAL);
                let out = |t: usize| self.some(held, t, MINUS_PARTIAL);
                (held[line(q, MINUS_DELTA)] || mutant(7))
                    && (self.supporters(q).all(out)
                        || held[line(not_q, PLUS_DELTA)]
                        || self
                            .attackers(q)
                            .any(|s| fires(s) && self.supporters(q).all(|t| out(t) || !self.stronger(t, s))))
            }
            _ => unreachable!(),
        }
    }

    /// "A rule with antecedents is settled by the first worked line after which all its antecedents have +∂ or one has −∂ among
    /// worked lines." A rule without antecedents never is.
    fn settled(&self, worked: &[bool], r: usize) -> bool {
        !self.rules[r].body.is_empty() && (self.all(worked, r, PLUS_PARTIAL) || self.some(worked, r, MINUS_PARTIAL))
    }

    /// "the number of pairs naming that rule", on either side, whatever the heads
    fn pairs_naming(&self, r: usize) -> usize {
        if mutant(44) && r >= 1_023 {
            return 0;
        }
        self.pairs
            .iter()
            .filter(|&&(t, s)| t == r && !mutant(43) || s == r && !mutant(9) || mutant(45))
            .filter(|&&(t, s)| !mutant(8) || self.rules[t].head == complement(self.rules[s].head))
            .count()
    }

    /// "A Δ line visits the strict rules with p as antecedent, a ∂ line all rules with p as antecedent.", "by rule number"
    fn visited(&self, p: usize, tag: usize) -> Vec<usize> {
        let is_delta = tag == PLUS_DELTA || tag == MINUS_DELTA;
        (0..self.rules.len())
            .filter(|&r| self.rules[r].body.contains(&p) && (!is_delta || self.rules[r].kind == 0))
            .collect()
    }

    /// "A line costs 1, plus 1 for each visited rule, plus, for a ∂ line, for each rule that it settles, the number of pairs naming
    /// that rule." `before` and `after` are the worked lines without and with this one.
    fn price(&self, tag: usize, visited: &[usize], before: &[bool], after: &[bool]) -> usize {
        let mut price = 1 + visited.len();
        if tag == PLUS_PARTIAL || tag == MINUS_PARTIAL {
            if mutant(2) {
                return price + visited.iter().map(|&r| self.pairs_naming(r)).sum::<usize>();
            }
            for r in 0..self.rules.len() {
                if self.settled(after, r) && !self.settled(before, r) {
                    price += self.pairs_naming(r);
                }
            }
        }
        price
    }

    /// The largest set of literals in which each fits: all literals, and those that do not fit taken out, over and over. Whatever fits in a
    /// set fits in a larger one, so no member of any such set is ever taken out.
    fn largest(&self, fits: impl Fn(usize, &[bool]) -> bool) -> Vec<bool> {
        let mut set = vec![true; 2 * self.a];
        loop {
            let misfits: Vec<usize> = (0..2 * self.a).filter(|&q| set[q] && !fits(q, &set)).collect();
            if misfits.is_empty() {
                return set;
            }
            misfits.iter().for_each(|&q| set[q] = false);
        }
    }

    /// Does q fit in this set of the search for a tag, by the lines held?
    fn fits(&self, held: &[bool], q: usize, tag: usize, set: &[bool]) -> bool {
        let within = |r: usize| self.rules[r].body.iter().any(|&x| set[x]);
        let unfounded = |r: usize| self.some(held, r, tag) || within(r);
        if tag == MINUS_DELTA {
            // Document 02, S-9: "the largest set of literals in which none is a fact and each strict rule for a member has an antecedent
            // with −Δ or in the set"
            let rules: Vec<usize> = if mutant(135) { self.supporters(q).collect() } else { self.strict_rules(q).collect() };
            return (!self.fact[q] || mutant(134)) && rules.into_iter().all(unfounded);
        }
        // "the largest set whose members have −Δ and where, for each, the complement has +Δ, or a firing attacker is such that each
        // supporter is out or not stronger, or each supporter has an antecedent with −∂ or in the set"
        let fires = |s: usize| self.all(held, s, PLUS_PARTIAL);
        let out = |t: usize| self.some(held, t, MINUS_PARTIAL) || mutant(131) && within(t);
        let mut supporters = if mutant(136) { self.rules_for(q).collect() } else { self.supporters(q).collect::<Vec<_>>() };
        if mutant(137) {
            supporters.truncate(1);
        }
        (held[line(q, MINUS_DELTA)] || mutant(124))
            && (held[line(complement(q), PLUS_DELTA)]
                || self.attackers(q).any(|s| fires(s) && self.supporters(q).all(|t| out(t) || !self.stronger(t, s)))
                || supporters.into_iter().all(unfounded))
    }

    /// The set of the search for a tag, by the lines held.
    fn searched(&self, held: &[bool], tag: usize) -> Vec<bool> {
        if mutant(127) {
            // a set of one literal beside those with the tag
            let with = |q: usize| (0..2 * self.a).map(|x| x == q || held[line(x, tag)]).collect::<Vec<_>>();
            return (0..2 * self.a).map(|q| self.fits(held, q, tag, &with(q))).collect();
        }
        self.largest(|q, set| self.fits(held, q, tag, set))
    }

    /// "The rule of working, and its price", in a reading.
    fn work(&self, terms: Terms) -> Run {
        let mut run = Working::new(self, terms.budget);
        // "If Size exceeds it, the answer is stopped with 0 lines, 0 worked, 0 spent."
        let finished = self.size <= run.budget && {
            run.open();
            match terms.reading {
                WELL_FOUNDED if !mutant(130) => run.well_founded(),
                _ => run.all_worked(),
            }
        };
        // "The answer gives lines, worked, spent: how many lines were written, how many of them were worked, and, once the opening is
        // paid, Size plus the price of each line worked." Document 02, S-9: "Each search costs Size, which spent then includes".
        let answer = Answer {
            refused: 0,
            finished: finished as u32,
            lines: run.log.len() as u32,
            worked: run.worked as u32,
            spent: run.spent as u32,
        };
        Run { answer, lines: run.log.into_iter().map(|l| l as u16).collect(), searches: run.searches }
    }
}

/// A run, as far as it has come.
struct Working<'a> {
    theory: &'a Theory,
    budget: usize,
    held: Vec<bool>,    // the worked lines
    written: Vec<bool>, // the lines in the log
    log: Vec<usize>,
    worked: usize,
    spent: usize,
    searches: Vec<Search>,
}

impl<'a> Working<'a> {
    fn new(theory: &'a Theory, budget: u32) -> Self {
        let (held, written) = (vec![false; 8 * theory.a], vec![false; 8 * theory.a]);
        Working { theory, budget: budget as usize, held, written, log: vec![], worked: 0, spent: 0, searches: vec![] }
    }

    fn write(&mut self, l: usize) {
        self.written[l] = true;
        self.log.push(l);
    }

    /// "Opening costs Size and writes every line that follows from nothing, by literal, then tag."
    fn open(&mut self) {
        let theory = self.theory;
        self.spent = theory.size;
        if mutant(11) {
            let bodiless = (0..theory.rules.len()).filter(|&r| theory.rules[r].body.is_empty());
            self.spent += bodiless.map(|r| theory.pairs_naming(r)).sum::<usize>();
        }
        for q in 0..2 * theory.a {
            for tag in 0..4 {
                if theory.follows(&self.held, q, tag) {
                    self.write(line(q, tag));
                }
            }
        }
    }

    /// "Lines are worked in log order." Whether all are, in the end: "a line is worked if its price fits what is left; the first that
    /// doesn't stops the run. All worked: finished."
    fn all_worked(&mut self) -> bool {
        while self.worked < self.log.len() {
            if !self.next_worked() {
                return false;
            }
        }
        true
    }

    fn next_worked(&mut self) -> bool {
        let (theory, l) = (self.theory, self.log[self.worked]);
        let (p, tag) = (l / 4, l % 4);
        let visited = theory.visited(p, tag);
        let mut after = self.held.clone();
        after[l] = true;
        let price = theory.price(tag, &visited, &self.held, &after);
        if self.spent + price > self.budget {
            return false;
        }
        self.spent += price;
        self.worked += 1;
        self.held = after;
        // "Working a line about p takes as candidates p, its complement, then, by rule number, the head and head's complement of
        // each visited rule."
        let mut candidates = vec![p, complement(p)];
        for &r in &visited {
            candidates.extend([theory.rules[r].head, complement(theory.rules[r].head)]);
        }
        if mutant(3) {
            candidates[2..].reverse();
        }
        // "For each candidate, tags 0 to 3 in order, a line is written if it follows from the worked lines, this one included,
        // and isn't in the log yet." The worked lines stay the same meanwhile: a candidate met again gives nothing new.
        let mut tried = vec![false; 2 * theory.a];
        for q in candidates {
            if tried[q] {
                continue;
            }
            tried[q] = true;
            for tag in 0..4 {
                let new = line(q, tag);
                let from: &[bool] = if mutant(10) { &self.written } else { &self.held };
                if !self.written[new] && theory.follows(from, q, tag) {
                    self.write(new);
                }
            }
        }
        true
    }

    /// Document 02, S-9: "When no line is left to work, search [for −Δ]. If that adds nothing, search [for −∂]. New lines go by literal and
    /// are worked as usual." Whether it finishes: "exactly if the budget covered the opening, each line written was worked, and both searches
    /// were then made and added nothing".
    fn well_founded(&mut self) -> bool {
        let tags = if mutant(122) { [MINUS_PARTIAL, MINUS_DELTA] } else { [MINUS_DELTA, MINUS_PARTIAL] };
        loop {
            if !self.all_worked() {
                return false;
            }
            // "Each search .. is begun only if that fits; else the run stops."
            let Some(mut added) = self.search(tags[0]) else { return mutant(128) };
            if added == 0 || mutant(139) {
                if mutant(125) && added == 0 {
                    return true;
                }
                let Some(more) = self.search(tags[1]) else { return mutant(128) };
                added += more;
            }
            if added == 0 {
                return true;
            }
        }
    }

    /// The search for a tag, if Size fits what is left: "write [the tag] for members lacking it". How many lines it adds.
    fn search(&mut self, tag: usize) -> Option<usize> {
        if mutant(129) && tag == MINUS_DELTA && !self.searches.is_empty() {
            return Some(0);
        }
        let (theory, before) = (self.theory, self.spent);
        let price = match () {
            _ if mutant(123) => 0,
            _ if mutant(140) && tag == MINUS_PARTIAL => 0,
            _ => theory.size,
        };
        let left = self.budget.saturating_sub(before);
        if price > left && !mutant(126) || mutant(138) && price == left && price != 0 {
            return None;
        }
        self.spent += price.min(left);
        let set = theory.searched(&self.held, tag);
        let members = (0..2 * theory.a).filter(|&q| set[q]);
        let mut new: Vec<usize> = members.map(|q| line(q, tag)).filter(|&l| !self.written[l]).collect();
        if mutant(132) {
            new.reverse();
        }
        new.iter().for_each(|&l| self.write(l));
        self.searches.push(Search { partial: tag == MINUS_PARTIAL, before: before as u32, added: new.len() });
        Some(new.len())
    }
}

fn refusal(number: u32) -> Answer {
    Answer { refused: number, ..Answer::default() }
}

/// What a run is refused by before anything is lent: a number that is no reading by 1, whatever the table (docs/DECISIONS.md), and then the
/// table's refusal. 0 for none.
fn judge_run(bytes: &[u8], edition: u32, reading: u32) -> u32 {
    let (no_reading, judged) = (if reading > WELL_FOUNDED { 1 } else { 0 }, judge(bytes, edition));
    first(&if mutant(145) { [judged, no_reading] } else { [no_reading, judged] })
}

/// The reading as a deliberate fault takes it; without one, as it is told.
fn mistaken_reading(reading: u32) -> u32 {
    match () {
        _ if mutant(141) && reading > WELL_FOUNDED => PLAIN,
        _ if mutant(142) && reading > WELL_FOUNDED => WELL_FOUNDED,
        _ if mutant(143) => reading % 256,
        _ if mutant(144) => reading % 65_536,
        _ => reading,
    }
}

/// The run, whatever is lent: refusals 1 to 7, then the work. "A refusal returns its number alone".
pub fn run(bytes: &[u8], edition: u32, terms: Terms) -> Run {
    let terms = Terms { reading: mistaken_reading(terms.reading), ..terms };
    match judge_run(bytes, edition, terms.reading) {
        0 => theory(bytes, edition).work(terms),
        number => Run { answer: refusal(number), lines: vec![], searches: vec![] },
    }
}

/// The answer of a call whose run is this one: 8 and 9 come after 1 to 7.
pub fn call(bytes: &[u8], edition: u32, terms: Terms, of: &Run, log_len: usize, scratch_len: usize) -> Answer {
    let answer = of.answer;
    if answer.refused != 0 {
        return answer;
    }
    // Document 02, S-2: "A log shorter than 4A words is accepted if it holds all lines written by the end of the run under the given
    // budget. Otherwise 9 is given as before". One of 4A words holds every line that there can be.
    let needed = if mutant(21) {
        4 * theory(bytes, edition).a
    } else if mutant(22) {
        answer.worked as usize
    } else if mutant(23) {
        run(bytes, edition, Terms { budget: u32::MAX, ..terms }).lines.len()
    } else if mutant(133) {
        run(bytes, edition, plain(terms.budget)).lines.len()
    } else {
        of.lines.len()
    };
    let too_short = log_len < needed;
    // "8 scratch: lent scratch below 32,768 16-bit words"
    if scratch_len < SCRATCH && !(mutant(14) && too_short) {
        return refusal(8);
    }
    if too_short {
        return refusal(9);
    }
    answer
}

/// "The sheet": "reads standard input (at most 32,779 bytes, a longer input judged on those), runs with budget 5A+F+N+3B+3P, and
/// prints." Every line ends in a line feed (docs/DECISIONS.md, The sheet). Document 02, S-5: "`sheet` reads the old layout."
pub fn sheet(bytes: &[u8]) -> String {
    let bytes = &bytes[..bytes.len().min(32_779)];
    // "A refused table prints `refused` and its number, one line, as `refused 7`."
    let number = judge(bytes, OLD);
    if number != 0 {
        return format!("refused {number}\n");
    }
    let theory = theory(bytes, OLD);
    let bound = theory.bound as u32;
    let Run { answer, lines, .. } = theory.work(if mutant(146) { well_founded(u32::MAX) } else { plain(bound) });
    let has = |q: usize, tag: usize| lines.contains(&(line(q, tag) as u16));
    // Document 02, S-6: "every supporter .. has an antecedent with −∂"
    let silent = |q: usize| {
        let rules: Vec<usize> = if mutant(72) { theory.rules_for(q).collect() } else { theory.supporters(q).collect() };
        let any = |r: usize, tag: usize| theory.rules[r].body.iter().any(|&x| has(x, tag));
        let fires = |r: usize| theory.rules[r].body.iter().all(|&x| has(x, PLUS_PARTIAL));
        rules.into_iter().all(|r| if mutant(73) { !fires(r) } else { any(r, if mutant(75) { MINUS_DELTA } else { MINUS_PARTIAL }) })
    };
    // "first the atom count, then atom and verdict, then spent and bound"
    let mut text = format!("atoms {}\n", theory.a);
    for a in 0..theory.a {
        let (yes, no) = (2 * a, 2 * a + 1);
        // "Verdict of atom a, first that fits: go (+∂ of 2a), hold (+∂ of 2a+1), split (−∂ of both), open." Document 02, S-1: "an atom
        // whose two literals both have +∂ reads clash, tested before go." S-6: "idle: −∂ of both literals, and every supporter of either
        // has an antecedent with −∂. The order is clash, go, hold, idle, split, open."
        let refuted = has(yes, MINUS_PARTIAL) && has(no, MINUS_PARTIAL);
        let ruled = theory.supporters(yes).chain(theory.supporters(no)).next().is_some() || !mutant(74);
        let idle = refuted && ruled && (silent(yes) || mutant(70)) && (silent(no) || mutant(69)) && !mutant(71);
        let verdict = if has(yes, PLUS_PARTIAL) && has(no, PLUS_PARTIAL) && !mutant(18) {
            "clash"
        } else if has(yes, PLUS_PARTIAL) {
            "go"
        } else if has(no, PLUS_PARTIAL) {
            "hold"
        } else if idle {
            "idle"
        } else if refuted {
            "split"
        } else {
            "open"
        };
        text += &format!("{a} {verdict}\n");
    }
    text + &format!("spent {} of {}\n", answer.spent, theory.bound)
}

/// The antecedents of a rule by the entries, "left a rule, right an antecedent"; none for a number that no entry has, or for a table that
/// cannot be read.
pub fn antecedents(bytes: &[u8], edition: u32, rule: u32) -> Vec<usize> {
    let entries = sections(bytes, edition).map_or(vec![], |s| s.entries);
    entries.into_iter().filter(|&(r, _)| r == rule as usize).map(|(_, q)| q).collect()
}

/// Document 02, S-3: "three answers, the first that fits: firing (all have +∂), out (one has −∂), waiting (neither)", of a rule with these
/// antecedents by the words of a log, whatever they are.
fn standing(body: &[usize], log: &[u16]) -> u32 {
    let has = |q: usize, tag: usize| log.contains(&(line(q, tag) as u16));
    let has_plus = |q: usize| has(q, if mutant(31) { PLUS_DELTA } else { PLUS_PARTIAL });
    let has_minus = |q: usize| has(q, if mutant(30) { MINUS_DELTA } else { MINUS_PARTIAL });
    let words_with_plus = || log.iter().filter(|&&w| body.iter().any(|&q| w as usize == line(q, PLUS_PARTIAL))).count();
    let fires = body.iter().all(|&q| has_plus(q)) && !(mutant(29) && body.is_empty())
        || mutant(32) && body.iter().any(|&q| has_plus(q))
        || mutant(40) && words_with_plus() >= body.len();
    let out = body.iter().any(|&q| has_minus(q) || mutant(41) && has(complement(q), PLUS_PARTIAL));
    if fires && !(mutant(28) && out) {
        FIRING
    } else if out {
        OUT
    } else {
        WAITING
    }
}

/// The log as a deliberate fault reads it; without one, as it is.
fn misread(a: usize, log: &[u16]) -> Vec<u16> {
    let end = if mutant(36) {
        log.len().min(4 * a)
    } else if mutant(37) {
        log.len() % 65_536
    } else if mutant(38) {
        log.iter().take_while(|&&w| (w as usize) < 8 * a).count()
    } else {
        log.len()
    };
    log[..end].iter().map(|&w| if mutant(39) { w % 4_096 } else { w }).collect()
}

/// How a rule stands in a table that `judge` gives this number. Refusals 1 to 7 are the table's; then comes "5 stranger: .. a rule number
/// not below N".
pub fn stands(bytes: &[u8], edition: u32, judged: u32, rule: u32, log: &[u16]) -> Standing {
    let (edition, judged) = if mutant(57) { (OLD, judge(bytes, OLD)) } else { (edition, judged) };
    let refusal = |number: u32| Standing { refused: number, standing: if mutant(42) { WAITING } else { 0 } };
    let rule = if mutant(34) { rule % 65_536 } else { rule };
    let read = sections(bytes, edition);
    let strange = read.as_ref().is_ok_and(|s| rule as usize >= s.rules.len());
    if judged != 0 && !(mutant(35) && strange) {
        return refusal(judged);
    }
    if strange && !mutant(33) {
        return refusal(5);
    }
    let a = read.map_or(0, |s| s.a);
    Standing { refused: 0, standing: standing(&antecedents(bytes, edition, rule), &misread(a, log)) }
}

/// The file of an edition with these sections: facts, rules, entries and pairs, as (left, right).
fn file(a: usize, sections: &[Vec<(usize, usize)>; 4], edition: u32) -> Vec<u8> {
    // "Sizes come first .. Then come two parallel arrays, left and right"
    let (sizes, places) = (sections.iter().map(Vec::len), sections.concat());
    let (left, right) = (places.iter().map(|e| e.0), places.iter().map(|e| e.1));
    let words = [a].into_iter().chain(sizes).chain(left).chain(right);
    // "the first byte of the file is an added 2"
    let first = (edition == TWO).then_some(2);
    first.into_iter().chain(words.flat_map(|w| (w as u16).to_le_bytes())).collect()
}

/// The file of an edition that says what an accepted table says, its rules with origin 0.
fn without_origins(theory: &Theory, edition: u32) -> Vec<u8> {
    let (a, rules) = (theory.a, &theory.rules);
    // "facts: left 0, right a literal. Right rises strictly."
    let facts = (0..2 * a).filter(|&q| theory.fact[q]).map(|q| (0, q)).collect();
    // "rules, numbered from 0: left the kind, right the head"; in edition two kind + 4 × 0, which is the same
    let heads = rules.iter().map(|r| (r.kind + 4 * mutant(63) as usize, r.head)).collect();
    // "entries: left a rule, right an antecedent", "pairs: left the stronger rule, right the weaker", both in the table's own order, since
    // they "rise strictly by left, then right" in no other
    let entries = (0..rules.len()).flat_map(|r| rules[r].body.iter().map(move |&q| (r, q))).collect();
    file(a, &[facts, heads, entries, theory.pairs.clone()], edition)
}

/// Document 02, S-5: "A converter goes from old layout to edition two with origin 0, and back, each way giving the unique file with the
/// same A, facts, kinds, heads, antecedents and pairs." The answer ("one that writes a table answers with its byte count") and the file,
/// no bytes with a refusal.
pub fn convert(bytes: &[u8], edition: u32, out_len: usize) -> (Written, Vec<u8>) {
    let refusal = |number: u32| (Written { refused: number, bytes: 0 }, vec![]);
    let judged = judge(bytes, edition);
    if mutant(60) && out_len < 10 {
        return refusal(9);
    }
    if judged != 0 && !(mutant(64) && judged == 7) {
        return refusal(judged);
    }
    let theory = theory(bytes, edition);
    let file = without_origins(&theory, if edition == OLD { TWO } else { OLD });
    // "A converter's output shorter than the new file is 9, after 1 to 7 and before 10"
    let short = out_len < if mutant(61) { bytes.len() } else { file.len() };
    // "10, a non-zero origin on the way back"
    let has_origin = theory.rules.iter().any(|r| r.origin != 0);
    if short && !(mutant(59) && has_origin) {
        return (Written { refused: 9, bytes: if mutant(66) { file.len() as u32 } else { 0 } }, vec![]);
    }
    if has_origin && !mutant(62) {
        return refusal(10);
    }
    (Written { refused: 0, bytes: if mutant(65) { bytes.len() } else { file.len() } as u32 }, file)
}

/// A join, whatever output is lent: what house and tour are refused by, or 0; of two that are not, whether their atom counts differ,
/// and the joined sizes F, N, B and P with the byte count that they ask for; and the joined file, if only 12 could still refuse it.
#[derive(Default)]
pub struct Join {
    pub house: u32,
    pub tour: u32,
    pub apart: bool,
    pub sizes: [usize; 4],
    pub len: usize,
    pub file: Vec<u8>,
}

impl Join {
    /// "2 oversize: one of the five sizes above its limit", of the joined ones.
    pub fn too_large(&self) -> bool {
        let [f, n, b, p] = self.sizes;
        let p = if mutant(83) { p % 65_536 } else { p };
        f > 1_024 || n > 1_024 || b > 4_096 || p > 2_048
    }

    /// The answer with an output of this length. "Order: 1 to 7 on the house, the same on the tour, 11, 2 on the joined sizes, 12."
    pub fn answer(&self, out_len: usize) -> Written {
        let if_so = |number: u32, so: bool| if so { number } else { 0 };
        // "11, atom counts differ; 12, output shorter than the joined table"
        let needed = if mutant(92) { self.len + 10 } else { self.len };
        let (apart, large, short) = (if_so(11, self.apart), if_so(2, self.too_large()), if_so(12, out_len < needed));
        let mut order = [self.house, self.tour, apart, large, short];
        match () {
            _ if mutant(79) => order.swap(3, 4),
            _ if mutant(80) => order.swap(2, 3),
            _ if mutant(81) => order.swap(0, 1),
            _ if mutant(88) => order.sort(),
            _ => (),
        }
        let refused = order.into_iter().find(|&number| number != 0).unwrap_or(0);
        let bytes = if refused == 0 || mutant(91) && refused == 12 { self.len } else { 0 };
        Written { refused, bytes: bytes as u32 }
    }
}

/// Document 02, S-7: "The result has the union of the facts, the house's rules under their own numbers, the tour's numbered after them,
/// all entries and pairs of both, and one added pair, house rule over tour rule, for each such two with complementary heads. Kinds and
/// origins are kept."
fn joined(house: &Sections, tour: &Sections, edition: u32) -> [Vec<(usize, usize)>; 4] {
    let (n, m) = (house.rules.len(), tour.rules.len());
    // each once, since "Right rises strictly"
    let mut facts = [&house.facts[..], &tour.facts].concat();
    facts.sort();
    if !mutant(77) {
        facts.dedup();
    }
    let left = |r: &Rule, whose: usize| r.kind + 4 * if mutant(78) && edition == TWO { whose } else { r.origin };
    let (own, guests) = (house.rules.iter().map(|r| (left(r, 1), r.head)), tour.rules.iter().map(|r| (left(r, 2), r.head)));
    // "They rise strictly by left, then right"
    let by = |k: u32| if mutant(k) { 0 } else { n };
    let shifted = tour.entries.iter().map(|&(r, q)| (r + by(84), q));
    let mut entries: Vec<_> = house.entries.iter().copied().chain(shifted).collect();
    entries.sort();
    let supports = |r: &Rule| r.kind != 2 || !mutant(82);
    let complementary = |h: &Rule, t: &Rule| h.head == complement(t.head) || mutant(90) && h.head == t.head;
    let opposed = |h: &Rule, t: &Rule| complementary(h, t) && supports(h) && supports(t);
    let both = (0..n).flat_map(|h| (0..m).map(move |t| (h, t)));
    let added = both.filter(|&(h, t)| opposed(&house.rules[h], &tour.rules[t])).map(|(h, t)| (h, n + t));
    let added = added.map(|(h, t)| if mutant(76) { (t, h) } else { (h, t) });
    let shifted = tour.pairs.iter().map(|&(t, s)| (t + by(89), s + by(89)));
    let mut pairs: Vec<_> = house.pairs.iter().copied().chain(shifted).chain(added).collect();
    if !mutant(85) {
        pairs.sort();
    }
    [facts, own.chain(guests).collect(), entries, pairs]
}

/// Document 02, S-7: "On the get-in both tables are joined over the same atoms." "The caller names one edition, and both tables are read
/// and the result written in it."
pub fn join(house: &[u8], tour: &[u8], edition: u32) -> Join {
    let edition = mistaken(edition);
    let mut join = Join { house: judge(house, edition), tour: judge(tour, edition), ..Join::default() };
    if join.house != 0 || join.tour != 0 {
        return join;
    }
    let [house, tour] = [house, tour].map(|t| sections(t, edition).ok().unwrap());
    let joined = joined(&house, &tour, edition);
    join.apart = house.a != tour.a;
    join.sizes = joined.each_ref().map(Vec::len);
    // "3 length: byte count not 10 + 4·T"
    join.len = 10 + 4 * join.sizes.iter().sum::<usize>() + (edition == TWO) as usize;
    if !join.apart && !join.too_large() {
        join.file = file(house.a, &joined, edition);
    }
    join
}

/// What S-7 says of the house's rules: for how many of them, against how many of these a tour's rule fires too, and the first for
/// which it does not hold.
#[derive(Default)]
pub struct Claim {
    pub claimed: u64,
    pub contested: u64,
    pub broken: Option<usize>,
}

/// "In a finished plain run, a strict or defeasible house rule that fires gives its head +∂ wherever no house rule attacks it and the
/// head's complement has −Δ." The first n rules of the joined table are the house's; the lines are those of a run to its finish.
pub fn claim(joined: &[u8], edition: u32, n: usize, lines: &[u16]) -> Claim {
    let (theory, mut claim) = (theory(joined, edition), Claim::default());
    let held = held(theory.a, lines);
    let fires = |r: usize| theory.all(&held, r, PLUS_PARTIAL);
    for r in 0..n {
        let head = theory.rules[r].head;
        let attackers = || theory.rules_for(complement(head));
        let refuted = held[line(complement(head), MINUS_DELTA)];
        if theory.rules[r].kind != 2 && fires(r) && refuted && attackers().all(|s| s >= n) {
            claim.claimed += 1;
            claim.contested += attackers().any(fires) as u64;
            claim.broken = claim.broken.or((!held[line(head, PLUS_PARTIAL)]).then_some(r));
        }
    }
    claim
}

/// For each rule the atoms that it names, by its head or an antecedent. A deliberate fault takes some away, or adds others as if a rule named
/// them.
fn named(s: &Sections) -> Vec<Vec<usize>> {
    let atoms = |literals: Vec<usize>| -> Vec<usize> {
        literals.into_iter().filter(|&q| !(mutant(101) && q % 2 == 1)).map(|q| q / 2).collect()
    };
    let mut named = vec![];
    for (r, rule) in s.rules.iter().enumerate().filter(|(_, rule)| !(mutant(100) && rule.kind == 2)) {
        let mut body: Vec<usize> = s.entries.iter().filter(|e| e.0 == r).map(|e| e.1).collect();
        if mutant(102) {
            body.truncate(1);
        }
        let head = (!mutant(93)).then_some(rule.head);
        named.push(atoms(head.into_iter().chain(body).collect()));
    }
    if mutant(94) {
        named.extend(s.pairs.iter().map(|&(t, w)| vec![s.rules[t].head / 2, s.rules[w].head / 2]));
    }
    if mutant(95) {
        named.push(s.facts.iter().map(|f| f.1 / 2).collect());
    }
    named
}

/// Document 02, S-8: "Two atoms belong to one part if one rule names both, and so on through chains. The list gives each atom one word, the
/// smallest atom of its part". At first an atom's word is itself; then each rule gives the atoms that it names the smallest of their words, over
/// and over, until every rule names atoms of one word.
fn words(s: &Sections) -> Vec<usize> {
    let (named, mut words): (_, Vec<usize>) = (named(s), (0..s.a).collect());
    loop {
        let before = words.clone();
        for atoms in &named {
            let from = if mutant(97) { &before } else { &words };
            if let Some(smallest) = atoms.iter().map(|&a| from[a]).min() {
                atoms.iter().for_each(|&a| words[a] = words[a].min(smallest));
            }
        }
        if words == before || mutant(97) {
            break;
        }
    }
    if mutant(96) {
        words = (0..s.a).map(|a| (0..s.a).rfind(|&b| words[b] == words[a]).unwrap()).collect();
    }
    words
}

/// The first of these numbers that is not 0, or 0.
fn first(order: &[u32]) -> u32 {
    order.iter().copied().find(|&number| number != 0).unwrap_or(0)
}

/// A list of parts, whatever list is lent: what the table is refused by, or 0; its A, if it can be read; and the words, if only 9 could still
/// refuse them.
#[derive(Default)]
pub struct Listing {
    pub judged: u32,
    pub a: usize,
    pub words: Vec<usize>,
}

impl Listing {
    /// 0, or the refusal with a list of this length: "a list below A words gets 9, after 1 to 7."
    pub fn refused(&self, list_len: usize) -> u32 {
        let needed = if mutant(105) { self.a + 1 } else { self.a };
        let mut order = [self.judged, if list_len < needed { 9 } else { 0 }];
        if mutant(104) {
            order.reverse();
        }
        first(&order)
    }

    /// How many parts there are, and the most atoms that one of them has.
    pub fn parts_and_most(&self) -> (usize, usize) {
        let sizes: Vec<usize> = (0..self.a).map(|a| self.words.iter().filter(|&&w| w == a).count()).filter(|&n| n > 0).collect();
        (sizes.len(), sizes.into_iter().max().unwrap_or(0))
    }
}

pub fn listing(bytes: &[u8], edition: u32) -> Listing {
    let (edition, judged) = (mistaken(edition), judge(bytes, edition));
    let Ok(s) = sections(bytes, edition) else { return Listing { judged, ..Listing::default() } };
    Listing { judged, a: s.a, words: if judged == 0 { words(&s) } else { vec![] } }
}

/// A part's own table, whatever output is lent: what the whole is refused by, or 0; whether the atom is not below A; of one that is the words by
/// which the part's atoms are known, the part's file, and how many pairs it lacks of which one rule is the part's; and the whole's byte count.
#[derive(Default)]
pub struct Part {
    pub judged: u32,
    pub strange: bool,
    pub words: Vec<usize>,
    pub file: Vec<u8>,
    pub cut: usize,
    whole: usize,
}

impl Part {
    /// The answer with an output of this length. "After 1 to 7 on the table it gets 5 if that atom isn't below A, then 12 for a short output."
    pub fn answer(&self, out_len: usize) -> Written {
        let needed = if mutant(109) { self.whole } else { self.file.len() };
        let (strange, short) = (if self.strange { 5 } else { 0 }, if out_len < needed { 12 } else { 0 });
        let mut order = [self.judged, strange, short];
        match () {
            // of an atom that no rule names the table has the sizes alone
            _ if mutant(107) && self.strange && out_len < 10 => order = [self.judged, 12, 5],
            _ if mutant(106) => order.sort(),
            _ => (),
        }
        let refused = first(&order);
        let bytes = if refused == 0 || mutant(108) && refused == 12 { self.file.len() } else { 0 };
        Written { refused, bytes: bytes as u32 }
    }
}

/// Document 02, S-8: "its rules keep their order, kinds and origins and are numbered anew from 0", "the table made of one part's facts, rules,
/// entries and the pairs inside it, with A unchanged". Returns how many pairs are left out of which one rule is the part's, too.
fn parted(s: &Sections, words: &[usize], atom: usize) -> (usize, [Vec<(usize, usize)>; 4], usize) {
    let word = if mutant(110) { atom } else { words[atom] };
    let of_part = |q: usize| words[q / 2] == word;
    let body_of = |r: usize| s.entries.iter().filter(move |e| e.0 == r);
    let is_named = |a: usize| s.rules.iter().any(|r| r.head / 2 == a) || s.entries.iter().any(|e| e.1 / 2 == a);
    // atoms anew, which is a fault: how many of the part are below
    let new = |q: usize| if mutant(112) { 2 * (0..q / 2).filter(|&a| words[a] == word).count() + q % 2 } else { q };
    let keeps = |r: usize| of_part(s.rules[r].head) && !(mutant(117) && body_of(r).next().is_none());
    let kept: Vec<usize> = (0..s.rules.len()).filter(|&r| keeps(r)).collect();
    // "numbered anew from 0"
    let number = |r: usize| if mutant(113) { r } else { kept.iter().take_while(|&&k| k < r).count() };
    let facts = s.facts.iter().filter(|f| of_part(f.1) || mutant(114)).filter(|f| !(mutant(118) && !is_named(f.1 / 2)));
    let left = |r: &Rule| r.kind + 4 * if mutant(115) { 0 } else { r.origin };
    let entries = kept.iter().flat_map(|&r| body_of(r)).map(|&(r, q)| (number(r), new(q)));
    let inside = |t: usize, w: usize| if mutant(116) { keeps(t) || keeps(w) } else { keeps(t) && keeps(w) };
    let pairs = s.pairs.iter().filter(|&&(t, w)| inside(t, w)).map(|&(t, w)| (number(t), number(w)));
    let cut = s.pairs.iter().filter(|&&(t, w)| keeps(t) != keeps(w)).count();
    let a = if mutant(111) { words.iter().filter(|&&w| w == word).count() } else { s.a };
    let rules = kept.iter().map(|&r| (left(&s.rules[r]), new(s.rules[r].head)));
    (a, [facts.map(|f| (0, new(f.1))).collect(), rules.collect(), entries.collect(), pairs.collect()], cut)
}

/// Document 02, S-8: "A part's own table is written for any atom named", "and the edition stays."
pub fn part(bytes: &[u8], edition: u32, atom: u32) -> Part {
    let (edition, judged) = (mistaken(edition), judge(bytes, edition));
    let Ok(s) = sections(bytes, edition) else { return Part { judged, ..Part::default() } };
    let atom = if mutant(99) { atom % 65_536 } else { atom } as usize;
    let (strange, whole) = (atom >= s.a, bytes.len());
    if judged != 0 || strange {
        return Part { judged, strange, whole, ..Part::default() };
    }
    let words = words(&s);
    let (a, sections, cut) = parted(&s, &words, atom);
    let file = file(a, &sections, if mutant(98) { OLD + TWO - edition } else { edition });
    Part { words, file, cut, whole, ..Part::default() }
}

/// "gives that part's atoms the same tags as the whole": the first atom of the part that has other tags by the lines of the part's finished run
/// than by those of the whole's.
pub fn tagged_otherwise(words: &[usize], atom: usize, of_part: &[u16], of_whole: &[u16]) -> Option<usize> {
    let (part, whole) = (held(words.len(), of_part), held(words.len(), of_whole));
    (0..words.len()).filter(|&a| words[a] == words[atom]).find(|&a| part[8 * a..8 * a + 8] != whole[8 * a..8 * a + 8])
}

/// These lines as what is held, of a table of `a` atoms.
fn held(a: usize, lines: &[u16]) -> Vec<bool> {
    let mut held = vec![false; 8 * a];
    for &l in lines {
        held[l as usize] = true;
    }
    held
}

/// Whether some rule of an accepted table has +∂ of all its antecedents and −∂ of one among these lines.
pub fn fires_and_is_out(bytes: &[u8], edition: u32, lines: &[u16]) -> bool {
    let theory = theory(bytes, edition);
    let held = held(theory.a, lines);
    (0..theory.rules.len()).any(|r| theory.all(&held, r, PLUS_PARTIAL) && theory.some(&held, r, MINUS_PARTIAL))
}

/// "no literal has a tag and its opposite": the first that has among these lines.
pub fn with_opposites(a: usize, lines: &[u16]) -> Option<usize> {
    let held = held(a, lines);
    let both = |q: usize, plus: usize, minus: usize| held[line(q, plus)] && held[line(q, minus)];
    (0..2 * a).find(|&q| both(q, PLUS_DELTA, MINUS_DELTA) || both(q, PLUS_PARTIAL, MINUS_PARTIAL))
}

/// "Every plain conclusion remains": the first line of a plain run that is not among these.
pub fn lacking(a: usize, lines: &[u16], of_plain: &[u16]) -> Option<u16> {
    let held = held(a, lines);
    of_plain.iter().copied().find(|&l| !held[l as usize])
}

/// The bound of a reading and Size, of an accepted table, for choosing budgets. "Spent never exceeds 5A+F+N+3B+3P"; document 02, S-9: "Spent
/// is at most 5A+F+N+3B+3P + (6A+2) × Size; that budget finishes here".
pub fn bound_and_size(bytes: &[u8], edition: u32, reading: u32) -> (u32, u32) {
    let t = theory(bytes, edition);
    let more = if reading == WELL_FOUNDED { (6 * t.a + 2) * t.size } else { 0 };
    ((t.bound + more) as u32, t.size as u32)
}
