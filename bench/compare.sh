#!/bin/sh
# compare.sh ARCHIVE [SVG]: a run to its finish by the archive's engine and by two C engines, in instructions for each unit of what is
# spent: c_engine.c, with the same counters and steps, and c_flags.c, which goes further. Answers and logs must be the same. The plot
# goes to docs/cost.svg of this tree unless SVG is given.
. "$(dirname "$0")/count.sh"
svg=${2:-$here/../docs/cost.svg}
same() { # FUNCTION: its answer and log are fly_run's
  cmp "$tmp/fly_run" "$tmp/$1" >&2 || { echo "compare.sh: $shape $(part $k): $1 differs from fly_run" >&2; exit 1; }
}
echo "| shape | size | spent | ours | C (same counters) | ratio | C (flags) | ratio |"
echo "|---|---|---|---|---|---|---|---|"
for shape in chain star teams random; do
  for k in 8 4 2 1; do
    table $shape $k
    ours=$(count fly_run $finish); c=$(count c_run $finish); flags=$(count flags_run $finish)
    same c_run; same flags_run
    spent=$(sed -n '1s/.* spent //p' "$tmp/fly_run")
    echo "$shape $spent $ours $c $flags" >> "$tmp/points"
    row $shape "$(part $k)" "$spent" "$(over "$ours" "$spent" 1)" "$(over "$c" "$spent" 1)" "$(over "$ours" "$c" 2)" \
      "$(over "$flags" "$spent" 1)" "$(over "$ours" "$flags" 2)"
  done
done
python3 "$here/plot.py" < "$tmp/points" > "$svg"
