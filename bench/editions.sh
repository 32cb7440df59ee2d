#!/bin/sh
# editions.sh ARCHIVE: instructions at the limits of a run to its finish in the old layout and in edition two, and of converting the table there
# and back. Answers and logs must be the same, and the table converted back must be the table.
. "$(dirname "$0")/count.sh"
echo "| shape | run, old layout | run, edition two | ratio | convert, there | convert, back | a byte |"
echo "|---|---|---|---|---|---|---|"
for shape in chain star teams random full; do
  table $shape 1; cp "$tmp/table" "$tmp/old"; bytes=$(wc -c < "$tmp/old")
  old=$(count fly_run $finish); cp "$tmp/fly_run" "$tmp/answer"
  there=$(count fly_convert); cp "$tmp/fly_convert" "$tmp/table"
  two=$(count fly_run $finish)
  cmp "$tmp/answer" "$tmp/fly_run" >&2 || { echo "editions.sh: $shape: the runs differ" >&2; exit 1; }
  back=$(count fly_convert)
  cmp "$tmp/old" "$tmp/fly_convert" >&2 || { echo "editions.sh: $shape: there and back is another table" >&2; exit 1; }
  row $shape "$old" "$two" "$(over "$two" "$old" 3)" "$there" "$back" "$(over "$back" "$bytes" 2)"
done
