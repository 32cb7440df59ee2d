#!/bin/sh
# parts.sh ARCHIVE: instructions of listing the parts of a table and of writing the table of a part, in the old layout and in edition two, and of
# judging the table. Chains over all atoms, numbered upwards and downwards, at fractions of the limits; then other tables at the limits. Each is
# one part: the list must have atom 0 for every atom, and the part's table must be the table.
. "$(dirname "$0")/count.sh"
list() { # the instructions of listing the parts
  count fly_parts
  [ "$(sort -u "$tmp/fly_parts")" = 0 ] || { echo "parts.sh: another list" >&2; exit 1; }
}
write() { # the instructions of writing the part of atom 0
  count fly_part 0
  cmp "$tmp/table" "$tmp/fly_part" >&2 || { echo "parts.sh: another table" >&2; exit 1; }
}
entries() { # how many the table has
  od -An -tu2 -j6 -N2 "$tmp/table" | tr -d ' '
}
parts() { # SHAPE K: its row
  table "$1" "$2"; b=$(entries)
  judging=$(count fly_run judge); list=$(list); part=$(write)
  "$tmp/once" fly_convert < "$tmp/table" > "$tmp/other"; mv "$tmp/other" "$tmp/table"
  row "$1, $(part "$2")" "$b" "$judging" "$list" "$(over $((list - judging)) "$b" 1)" "$part" "$(over $((part - judging)) "$b" 1)" "$(list)" "$(write)"
}
echo "| parts | entries | judging | list | an entry, but for judging | part | an entry, but for judging | list, edition two | part, edition two |"
echo "|---|---|---|---|---|---|---|---|---|"
for shape in up down; do
  for k in 16 8 4 2 1; do parts $shape $k; done
done
for shape in random full; do parts $shape 1; done
