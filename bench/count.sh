# Sourced by the scripts beside it, whose first argument is the archive (target/staticlib/libconsole.a): builds once.c, and counts the
# instructions of one call. With WITHOUT_READING=1 in the environment the archive is one of before S-9, whose fly_run is told no reading.
set -eu
here=$(cd "$(dirname "$0")" && pwd); archive=${1:?the archive: target/staticlib/libconsole.a}
tmp=$(mktemp -d); trap 'rm -r "$tmp"' EXIT
build() { # ARCHIVE [FLAG]: once with that archive
  # Bound at the start, so that no symbol is looked up within a call.
  gcc -O2 -std=c11 -Wall -Wextra -Werror -pedantic -Wl,-z,now ${2:-} -I"$here/../include" "$here/once.c" "$here/c_engine.c" \
    "$here/c_flags.c" "$1" -o "$tmp/once"
}
build "$archive" ${WITHOUT_READING:+-DWITHOUT_READING}
# glibc clears by `rep stosb`, of which callgrind counts an instruction for each byte; the tunable has it store whole vectors instead.
export GLIBC_TUNABLES=glibc.cpu.x86_rep_stosb_threshold=1000000000
finish=1000000 # a budget that every table finishes under in the plain reading

table() { # SHAPE K: the table that is counted next
  python3 "$here/tables.py" "$1" "$2" > "$tmp/table"
}
count() { # FUNCTION [WHAT]: the instructions from entering the function to leaving it; what once printed is in $tmp/FUNCTION
  valgrind --tool=callgrind --toggle-collect="$1" --callgrind-out-file="$tmp/out" "$tmp/once" "$@" < "$tmp/table" > "$tmp/$1" \
    2> "$tmp/err" || { cat "$tmp/err" >&2; exit 1; }
  sed -n 's/^totals: //p' "$tmp/out"
}
part() { # K: its name
  if [ "$1" = 1 ]; then echo limits; else echo "1/$1"; fi
}
over() { # X Y DIGITS: X / Y with so many digits after the point
  awk "BEGIN { printf \"%.$3f\", $1 / $2 }"
}
row() { # CELL..: a row in markdown, with commas in its numbers
  printf '| %s ' "$@" | sed ':a; s/\B[0-9]\{3\}\>/,&/; ta'
  echo '|'
}
