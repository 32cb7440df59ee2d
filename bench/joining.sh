#!/bin/sh
# joining.sh ARCHIVE: instructions of joining a house and a tour, in the old layout and in edition two, and of judging both tables. First the
# example's, then those whose join has every size at a fraction of its limit. The joined table must be the one that is made without a join.
. "$(dirname "$0")/count.sh"
bytes() { # NAME: how many the file there has
  wc -c < "$tmp/$1"
}
two() { # NAME..: each of these files in edition two
  for name; do
    "$tmp/once" fly_convert < "$tmp/$name" > "$tmp/other"; mv "$tmp/other" "$tmp/$name"
  done
}
join() { # the instructions of joining house and tour
  cp "$tmp/house" "$tmp/table"
  count fly_join "$tmp/tour"
  cmp "$tmp/joined" "$tmp/fly_join" >&2 || { echo "joining.sh: another table" >&2; exit 1; }
}
judge() { # NAME: the instructions of judging that file
  cp "$tmp/$1" "$tmp/table"; count fly_run judge
}
couple() { # NAME: the row of house, tour and joined
  house=$(bytes house); tour=$(bytes tour); joined=$(bytes joined)
  judging=$(($(judge house) + $(judge tour))); old=$(join)
  two house tour joined; in_two=$(join)
  row "$1" "$house" "$tour" "$joined" "$judging" "$old" "$(over "$old" "$joined" 2)" "$in_two" "$(over "$in_two" $((joined + 1)) 2)"
}
echo "| join | house, bytes | tour, bytes | bytes written | judging both | old layout | a byte written | edition two | a byte written |"
echo "|---|---|---|---|---|---|---|---|---|"
for name in house tour joined; do cp "$here/../examples/get-in-$name.table" "$tmp/$name"; done
couple "the example"
for k in 16 8 4 2 1; do
  for name in house tour joined; do table $name $k; mv "$tmp/table" "$tmp/$name"; done
  couple "$(part $k)"
done
