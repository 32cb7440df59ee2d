#!/bin/sh
# before.sh ARCHIVE BEFORE: instructions of judging and of a run to its finish in the plain reading, by this archive and by one of before S-9,
# whose fly_run is told no reading. Answers and logs must be the same.
. "$(dirname "$0")/count.sh"
before=${2:?the archive of before S-9}
mv "$tmp/once" "$tmp/after"; build "$before" -DWITHOUT_READING; mv "$tmp/once" "$tmp/before"
by() { # before|after WHAT: the instructions of fly_run by that archive
  cp "$tmp/$1" "$tmp/once"; count fly_run "$2"; mv "$tmp/fly_run" "$tmp/$1.answer"
}
both() { # NAME WHAT: the row of both archives
  was=$(by before "$2"); is=$(by after "$2")
  cmp "$tmp/before.answer" "$tmp/after.answer" >&2 || { echo "before.sh: $shape $(part $k): $1: the answers differ" >&2; exit 1; }
  row $shape "$(part $k)" "$1" "$was" "$is" "$(over $((100 * (is - was))) "$was" 2)"
}
echo "| shape | size | call | before | now | per cent more |"
echo "|---|---|---|---|---|---|"
measure() { # SHAPE K: its rows
  shape=$1; k=$2; table $shape $k
  both judging judge
  both "a run" $finish
}
measure empty 1
for name in chain star teams random full; do
  for size in 8 1; do measure $name $size; done
done
