#!/usr/bin/env bash
# Times items through the ruled pipe, and through plain Rust beside it. Each figure is the median of
# nine runs, which take turns. The last line is that of owned buffers from one thread to another: the pipe's
# time over that of the faster of the two in plain Rust.
set -eu
cd "$(dirname "$0")/.."
RUSTC=${RUSTC:-rustc}
mkdir -p bin
"$RUSTC" -O -C target-cpu=x86-64-v2 -o bin/bench-plain bench/plain.rs
PIPE=bin/pipeline_tests

one_tenth() { echo "$(($1 / 10)).$(($1 % 10))"; }
median() { sort -n | sed -n 5p; }

printf '%-22s %10s %10s %10s\n' 'nanoseconds an item' pipe queue mpsc
for kind in word buffer; do
  for producers in 1 2; do
    pipes= queues= mpscs=
    for _ in 1 2 3 4 5 6 7 8 9; do
      # what follows the first line says that the test passed
      told=$(BENCH=1 "$PIPE" "timing::${kind}_by_$producers")
      pipes+="${told%%$'\n'*}"$'\n'
      queues+="$(bin/bench-plain queue "$kind" "$producers")"$'\n'
      mpscs+="$(bin/bench-plain mpsc "$kind" "$producers")"$'\n'
    done
    pipe=$(printf %s "$pipes" | median) queue=$(printf %s "$queues" | median) mpsc=$(printf %s "$mpscs" | median)
    printf '%-22s %10s %10s %10s\n' "$kind, $producers producer(s)" "$(one_tenth "$pipe")" "$(one_tenth "$queue")" "$(one_tenth "$mpsc")"
    if [ "$kind" = buffer ] && [ "$producers" = 1 ]; then
      best=$((queue < mpsc ? queue : mpsc))
      ratio=$((pipe * 100 / best))
    fi
  done
done
printf 'pipe/rust %d.%02d\n' $((ratio / 100)) $((ratio % 100))
