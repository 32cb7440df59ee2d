#!/bin/sh
# searching.sh ARCHIVE: instructions of a run to its finish in the well-founded reading for each unit of what is spent, beside those of the plain
# reading; and what the former takes more for each unit that it spends more, most of them for searches. `rounds` has two searches for each of its
# steps, and two more. The plain log must be a beginning of the other.
. "$(dirname "$0")/count.sh"
log=2048; all=4294967295 # a log that is enough for every table, and a budget that finishes every one
number() { # NAME: that number of the answer
  sed -n "1s/.*$1 \([0-9]*\).*/\1/p" "$tmp/fly_run"
}
run() { # READING: a run to its finish; sets n, spent and lines
  n=$(count fly_run $all $log "$1"); spent=$(number spent); lines=$(number lines)
  [ "$(number finished)" = 1 ] || { echo "searching.sh: $shape $(part $k): reading $1 does not finish" >&2; exit 1; }
}
echo "| shape | size | plain, spent | for each unit | well-founded, spent | instructions | for each unit | lines more | for each unit more |"
echo "|---|---|---|---|---|---|---|---|---|"
for shape in chain star teams random full ring rounds; do
  for k in 8 4 2 1; do
    table $shape $k
    run 0; n_plain=$n; spent_plain=$spent; lines_plain=$lines; sed 1d "$tmp/fly_run" > "$tmp/plain"
    run 1; sed 1d "$tmp/fly_run" | head -n "$lines_plain" > "$tmp/beginning"
    cmp "$tmp/plain" "$tmp/beginning" >&2 || { echo "searching.sh: $shape $(part $k): the plain log is no beginning" >&2; exit 1; }
    row $shape "$(part $k)" "$spent_plain" "$(over "$n_plain" "$spent_plain" 1)" "$spent" "$n" "$(over "$n" "$spent" 1)" \
      $((lines - lines_plain)) "$(over $((n - n_plain)) $((spent - spent_plain)) 1)"
  done
done
