#!/bin/sh
# Builds the harness by rustc alone, over the static library that `rt lib` made, and runs it.
set -e
cd "$(dirname "$0")"
mkdir -p out
options=""
if echo 'int main(void) { return 0; }' | cc -x c - -lcrypto -o out/has_crypto 2> out/has_crypto.log; then
    options="--cfg openssl"
else
    echo "OpenSSL's library isn't there: no column for it"
fi
kit="$(dirname "$("${RT:-rt}" doc)")/c"
# With all of x86-64-v2, for which the kit compiles, the cipher by tables in plain Rust takes a quarter longer.
rustc --edition 2024 -C opt-level=3 -C target-feature=+ssse3 --check-cfg 'cfg(openssl)' $options \
    -L native=../../crates/decision_bench/out -L native="$kit" -l static=libc_c \
    main.rs -o out/bench
exec out/bench
