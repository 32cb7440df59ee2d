#!/bin/sh
# standing.sh ARCHIVE: instructions of fly_stands of a table's last rule. First over the lines of a finished run, on tables that have every
# size at a fraction of its limit, with those of judging the same table; then at the limits over logs of more and more words.
. "$(dirname "$0")/count.sh"
size() { # I: the table's size with that number, from 0 on
  od -An -tu2 -j$((2 * $1)) -N2 "$tmp/table" | tr -d ' '
}
stands() { # [WORDS]: how the last rule stands; the call must be accepted
  count fly_stands $(($(size 2) - 1)) "$@"
  grep -q '^refused 0 ' "$tmp/fly_stands" || { echo "standing.sh: $(cat "$tmp/fly_stands")" >&2; exit 1; }
}
echo "| size | entries | lines | judging | fly_stands | more | for each entry and line |"
echo "|---|---|---|---|---|---|---|"
for k in 1 2 4 8 16; do
  table full $k; entries=$(size 3)
  lines=$("$tmp/once" fly_run $finish < "$tmp/table" | sed -n '1s/^finished 1 lines \([0-9]*\) .*/\1/p')
  judging=$(count fly_run judge); n=$(stands)
  row "$(part $k)" "$entries" "$lines" "$judging" "$n" $((n - judging)) "$(over $((n - judging)) $((entries + lines)) 2)"
done
echo
echo "| words | fly_stands | for each word more |"
echo "|---|---|---|"
table full 1
for words in 0 1024 2048 4096 8192 65536; do
  n=$(stands $words)
  if [ $words = 0 ]; then each=; else each=$(over $((n - n_before)) $((words - words_before)) 2); fi
  row $words "$n" "$each"
  words_before=$words; n_before=$n
done
