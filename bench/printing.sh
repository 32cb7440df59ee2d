#!/bin/sh
# printing.sh ARCHIVE: instructions of fly_sheet beside those of fly_run to its finish on the same tables, and what the sheet takes more
# for each atom, less what it takes more without atoms.
. "$(dirname "$0")/count.sh"
echo "| shape | size | atoms | fly_run | fly_sheet | more | for each atom |"
echo "|---|---|---|---|---|---|---|"
measure() { # SHAPE K
  table "$1" "$2"; run=$(count fly_run $finish); sheet=$(count fly_sheet); atoms=$(sed -n 's/^atoms //p' "$tmp/fly_sheet")
}
measure empty 1; besides=$((sheet - run))
row empty "" "$atoms" "$run" "$sheet" $besides ""
for shape in chain random; do
  for k in 1 2 4 8; do
    measure $shape $k
    row $shape "$(part $k)" "$atoms" "$run" "$sheet" $((sheet - run)) "$(over $((sheet - run - besides)) "$atoms" 0)"
  done
done
