#!/bin/sh
# judging.sh ARCHIVE: instructions of judging a table that has every size at a fraction of its limit.
. "$(dirname "$0")/count.sh"
echo "| size | bytes | instructions | a byte |"
echo "|---|---|---|---|"
for k in 1 2 4 8 16 32 64; do
  table full $k; bytes=$(wc -c < "$tmp/table"); n=$(count fly_run judge)
  row "$(part $k)" "$bytes" "$n" "$(over "$n" "$bytes" 2)"
done
