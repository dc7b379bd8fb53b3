#!/bin/sh
# Times the router over loopback, beside the same in plain Rust and beside C. ROUNDS, SECONDS, FLOOD and ONLY (a part of
# a row's name) change what is measured; TWIN is another build of the router, to run beside it; `taskset -c 0,1 make
# bench-router` shows it on two cores.
set -eu
cd "$(dirname "$0")/.."
mkdir -p bin
rustc="${RUSTC:-rustc} --edition 2024 -C opt-level=3 -C codegen-units=1 -C target-cpu=x86-64-v2"
$rustc -o bin/bench-router bench/router/main.rs
$rustc -o bin/bench-router-plain bench/router/plain.rs
${CC:-cc} -O3 -pthread -o bin/bench-router-forward bench/router/forward.c
room=$(mktemp -d)
trap 'rm -rf "$room"' EXIT
trap 'exit 130' INT
trap 'exit 143' TERM
bin/bench-router bin/router bin/bench-router-plain bin/bench-router-forward "$room"
