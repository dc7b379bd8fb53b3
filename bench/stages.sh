#!/usr/bin/env bash
# Times packets through three workers by turns in one thread, and through plain Rust beside them. Each figure is the
# least of 25 runs, which take turns: other work on the machine only adds to it. The last line is the workers' time over
# plain Rust's.
set -eu
cd "$(dirname "$0")/.."
RUSTC=${RUSTC:-rustc}
mkdir -p bin
"$RUSTC" --edition 2024 -C opt-level=3 -C codegen-units=1 -C target-cpu=x86-64-v2 -o bin/bench-stages-plain bench/stages/main.rs
STAGES=bin/stages_tests

one_tenth() { echo "$(($1 / 10)).$(($1 % 10))"; }
least() { sort -n | head -1; }

ours= plains= sum=
for ((run = 0; run < 25; run++)); do
  for kind in ours plain; do
    # an assignment, since a failure within a here-string ends nothing
    if [ "$kind" = ours ]; then
      line=$(BENCH=1 "$STAGES" timing::three_workers)
      # what follows says that the test passed
      line=${line%%$'\n'*}
      ours+="${line% *}"$'\n'
    else
      line=$(bin/bench-stages-plain)
      plains+="${line% *}"$'\n'
    fi
    left=${line#* }
    if [ "${sum:=$left}" != "$left" ]; then
      echo "what left isn't the same: $sum, $left" >&2
      exit 1
    fi
  done
done
our=$(printf %s "$ours" | least) plain=$(printf %s "$plains" | least)
printf '%-28s %10s %10s\n' 'nanoseconds a packet' workers rust
printf '%-28s %10s %10s\n' 'three workers by turns' "$(one_tenth "$our")" "$(one_tenth "$plain")"
ratio=$((our * 100 / plain))
printf 'stages/rust %d.%02d\n' $((ratio / 100)) $((ratio % 100))
