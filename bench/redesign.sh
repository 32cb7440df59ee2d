#!/bin/sh
# redesign.sh ARCHIVE BEFORE: what the calls take that the design pass made dearer (docs/DESIGN-PASS.md), by this archive and by one of before it
# (commit 82f584a): instructions, processor time and stack. In what is timed both must refuse alike and write the same. The time is the median of
# five jobs of a second or more for each archive, in turns.
. "$(dirname "$0")/count.sh"
before=${2:?the archive of before the design pass}
again() { # NAME ARCHIVE [FLAG]: again with that archive
  gcc -O2 -std=c11 -Wall -Wextra -Werror -pedantic -Wl,-z,now ${3:-} -I"$here/../include" "$here/again.c" "$2" -pthread -o "$tmp/again.$1"
}
again now "$archive"; again before "$before" -DWITHOUT_READING
# By again, since once takes a refusal for an error: the difference of 1 call and of 101.
instructions() { # before|now FUNCTION [WHAT]: of one call
  of=$1 function=$2; shift 2
  for times in 1 101; do
    valgrind --tool=callgrind --callgrind-out-file="$tmp/out.$times" "$tmp/again.$of" "$function" $times "$@" < "$tmp/table" \
      > /dev/null 2> "$tmp/err" || { cat "$tmp/err" >&2; exit 1; }
    sed -n 's/^totals: //p' "$tmp/out.$times"
  done | { read -r one; read -r many; echo $(((many - one) / 100)); }
}
first() { # before|now FUNCTION TIMES|stack [WHAT]: the first word that again prints; the rest is in $tmp/answer.before or now
  of=$1; shift
  env -u GLIBC_TUNABLES "$tmp/again.$of" "$@" < "$tmp/table" > "$tmp/answer"; cut -d' ' -f2- "$tmp/answer" > "$tmp/answer.$of"; cut -d' ' -f1 "$tmp/answer"
}
median() { sort -n | sed -n 3p; }
call() { # NAME FUNCTION [WHAT]: the row of that call
  name=$1 function=$2; shift 2
  was=$(instructions before "$function" "$@"); is=$(instructions now "$function" "$@")
  # As many calls as the faster of both makes in some 1.5 seconds; it is tried long enough for the processor to come to its speed.
  times=$(for of in before now; do first $of "$function" 50000 "$@"; done | sort -n | awk 'NR == 1 { printf "%d", 1.5e9 / $1 + 1 }')
  : > "$tmp/times.before"; : > "$tmp/times.now"
  for turn in 1 2 3 4 5; do
    for of in before now; do first $of "$function" "$times" "$@" >> "$tmp/times.$of"; done
  done
  cmp "$tmp/answer.before" "$tmp/answer.now" >&2 || { echo "redesign.sh: $name: the answers differ" >&2; exit 1; }
  t=$(median < "$tmp/times.before"); u=$(median < "$tmp/times.now")
  row "$name" "$was" "$is" "$(over "$is" "$was" 2)" "$(over "$t" 1000 3)" "$(over "$u" 1000 3)" "$(over "$u" "$t" 2)"
}
title() { # TITLE: of a table of rows by `call`
  echo; echo "| $1 | instructions, before | now | ratio | µs, before | now | ratio |"; echo "|---|---|---|---|---|---|---|"
}
sizes() { # SHAPE: that of a random table, in words
  echo "$1" | awk -F, '{ split("A F N B P", size, " "); for (i = 1; i <= 5; i++) if ($i) printf("%s%s=%s", (i > 1 ? ", " : ""), size[i], $i) }'
}
two() { # in edition two
  "$tmp/once" fly_convert < "$tmp/table" > "$tmp/other"; mv "$tmp/other" "$tmp/table"
}
origin() { # RULE: whose left word becomes 5, the house's and defeasible; in edition two, without facts
  printf '\005' | dd of="$tmp/table" bs=1 seek=$((11 + 2 * $1)) conv=notrunc 2> /dev/null
}
both() { # SHAPE K SHAPE K: the house's and the tour's tables
  table "$3" "$4"; mv "$tmp/table" "$tmp/tour"; table "$1" "$2"
}

title "fly_convert, back"
for shape in 1,0,1024,0,0 512,0,1024,0,0; do table $shape 1; two; call "$(sizes $shape)" fly_convert; done
origin 1023; call "the same, an origin at the last rule" fly_convert
table 512,0,1024,0,0 1; two; origin 0; call "the same, an origin at the first rule" fly_convert
for shape in chain star random full; do table $shape 1; two; call "$shape, limits" fly_convert; done

title fly_join
both 512,0,0,0,0 1 512,0,0,0,0 2; call "$(sizes 512,0,0,0,0) on both sides" fly_join "$tmp/tour"
both 512,256,0,0,0 1 512,512,0,0,0 2; call "$(sizes 512,256,0,0,0) with $(sizes 512,512,0,0,0)" fly_join "$tmp/tour"
for shape in 512,20,20,40,0 512,50,50,100,0 512,100,100,200,0 128,40,40,80,0; do
  both $shape 1 $shape 2; call "$(sizes $shape) on both sides" fly_join "$tmp/tour"
done
both house 1 tour 1; call "house and tour, limits" fly_join "$tmp/tour"

title "fly_part, of atom 0"
table 512,1024,0,0,0 1; call "$(sizes 512,1024,0,0,0)" fly_part 0
table even 1; call "the 512 even literals as facts" fly_part 0
table tied 1; call "1024 facts, and a rule that names 160 atoms" fly_part 0
for shape in 512,1024,100,200,0 512,1024,1024,2048,0; do table $shape 1; call "$(sizes $shape)" fly_part 0; done
for shape in random full; do table $shape 1; call "$shape, limits" fly_part 0; done
table empty 1; call "no atoms, refused by 5" fly_part 0

echo; echo "| stack | bytes, before | now |"; echo "|---|---|---|"
stacks() { # TABLE: the rows of the calls on it; what is joined is the table with itself
  cp "$tmp/table" "$tmp/tour"
  for function in fly_run fly_stands fly_convert fly_join fly_parts fly_part; do
    what=0; [ $function != fly_join ] || what=$tmp/tour
    row "$function, $1" "$(first before $function stack $what)" "$(first now $function stack $what)"
  done
}
printf '123456789' > "$tmp/table"; stacks "nine bytes"
table 1,0,1,0,0 1; stacks "one rule"
table 2,0,2,0,1 1; stacks "two rules and a pair"
