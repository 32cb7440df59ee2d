#!/bin/sh
# short.sh ARCHIVE: what a run in a short log takes more than the same run in a full one. Half of what the finish spends is the budget, and
# the short log has a word for each line.
. "$(dirname "$0")/count.sh"
number() { # NAME: that number of the answer
  sed -n "1s/.*$1 \([0-9]*\).*/\1/p" "$tmp/fly_run"
}
echo "| shape | size | budget | lines | full log | short log | more |"
echo "|---|---|---|---|---|---|---|"
for shape in chain teams random; do
  for k in 8 1; do
    table $shape $k
    count fly_run $finish > /dev/null; budget=$(($(number spent) / 2))
    full=$(count fly_run $budget); cp "$tmp/fly_run" "$tmp/full"; lines=$(number lines)
    short=$(count fly_run $budget "$lines")
    cmp "$tmp/full" "$tmp/fly_run" >&2 || { echo "short.sh: $shape $(part $k): the short log differs" >&2; exit 1; }
    row $shape "$(part $k)" "$budget" "$lines" "$full" "$short" $((short - full))
  done
done
