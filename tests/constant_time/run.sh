#!/bin/sh
# Tries, on what was built, whether the time of the ciphers, of CMAC and of the comparison of MACs can depend on the key:
# by their machine code, and by memcheck with the key marked as undefined. Both have to fail on the cipher by tables.
set -e
cd "$(dirname "$0")"
top=../..
mkdir -p out
kit="$(dirname "$("${RT:-rt}" doc)")/c"
cc -O2 -Wall -Wextra -o out/memcheck memcheck.c -L$top/crates/decision_bench/out -ldecision_bench -L"$kit" -llibc_c

# Reads functions of a program: it has to end with this status, and what it says is shown.
read_code() {
    wanted=$1
    shift
    status=0
    ./machine_code.py "$@" > out/read || status=$?
    sed "s|^|$(basename "$1"): |" out/read
    if [ $status -ne "$wanted" ]; then
        echo "machine_code.py $*: status $status in place of $wanted"
        exit 1
    fi
}

# Runs a cipher under memcheck: it has to end with this status.
run_memcheck() {
    status=0
    valgrind -q --error-exitcode=9 out/memcheck "$2" > out/log 2>&1 || status=$?
    echo "memcheck $2: $(grep -c '^==.* depends on uninit\|^==.* uninitialised value' out/log || true) told"
    if [ $status -ne "$1" ]; then
        cat out/log
        echo "memcheck $2: status $status in place of $1"
        exit 1
    fi
}

read_code 0 $top/bin/router "^hop_check::mac::has_mac$"
read_code 0 out/memcheck '^decision_bench_(vector|tag|verify)$'
read_code 1 out/memcheck '^decision_bench_tables$'
run_memcheck 0 vector
run_memcheck 0 tag
run_memcheck 0 verify
run_memcheck 9 tables
echo "constant time: the trials pass, and fail on the cipher by tables"
