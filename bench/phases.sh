#!/bin/sh
# phases.sh ARCHIVE: where the instructions of a run go at the limits, in ours and in the C engine with the same counters. Judging is
# counted alone; a budget of 0 adds the clearing at the end, one of A+F+N+B+P preparing the memory and the opening, and more the work.
. "$(dirname "$0")/count.sh"
phase() { # NAME WHAT: what this phase adds to those before
  ours=$(count fly_run "$2"); c=$(count c_run "$2")
  row $shape "$1" $((ours - ours_before)) $((c - c_before)) "$(over $((ours - ours_before)) $((c - c_before)) 2)"
  ours_before=$ours; c_before=$c
}
echo "| shape | phase | ours | C (same counters) | ratio |"
echo "|---|---|---|---|---|"
for shape in chain star teams random; do
  table $shape 1; ours_before=0; c_before=0
  phase judging judge
  phase "clearing at the end" 0
  phase "preparing and opening" "$(od -An -tu2 -N10 "$tmp/table" | awk '{ print $1 + $2 + $3 + $4 + $5 }')"
  phase work $finish
done
