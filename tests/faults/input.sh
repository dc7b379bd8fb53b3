#!/bin/sh
# Runs the router over its sockets with input that is bad, each case of docs/FORMATS.md, and compares what it
# writes and how it ends.
set -u
# A router that is gone is seen by how it ended, and doesn't end this script by the pipe to it.
trap '' PIPE
cd "$(dirname "$0")/../.." || exit 2
CC=${CC:-cc}
router=${ROUTER:-bin/router}
mkdir -p bin
"$CC" -O2 -Wall -Wextra -o bin/faults-send tests/faults/send.c tests/datagrams.c tests/harness.c || exit 2

room=$(mktemp -d) || exit 2
trap 'exec 3>&-; rm -rf "$room"' EXIT
trap 'exit 130' INT
trap 'exit 143' TERM
tried=0 failed=0
config=tests/faults/router.toml
mkfifo "$room/commands"

# The report of a router that carried nothing.
nothing='link 0 sent 0
link 1 sent 0
link 2 sent 0
received 0
sent 0
answered 0'

# Compares how the last run ended: name, status, standard output, standard error.
ended() {
    tried=$((tried + 1))
    if [ "$status" != "$2" ] || [ "$(cat "$room/out")" != "$3" ] || [ "$(cat "$room/err")" != "$4" ]; then
        failed=$((failed + 1))
        echo "$1: status $status"
        cat "$room/out" "$room/err"
    fi
}

# Runs the router with a configuration to the end of its standard input.
run() {
    timeout 10 "$router" run --config "$1" > "$room/out" 2> "$room/err"
    status=$?
}

# Starts the router, which takes its commands from descriptor 3.
start() {
    # Nothing of an earlier router is taken for this one's word that it is ready.
    : > "$room/out"
    timeout 20 "$router" run --config "$config" < "$room/commands" > "$room/out" 2> "$room/err" &
    started=$!
    exec 3> "$room/commands"
    tries=0
    until grep -q '^ready$' "$room/out" || [ $tries -gt 100 ]; do
        tries=$((tries + 1))
        sleep 0.05
    done
}

finish() {
    echo end >&3
    exec 3>&-
    wait "$started"
    status=$?
}

# The configuration, changed.
with() { sed "$1" "$config" > "$room/config"; }

run "$config" < /dev/null
ended 'no command at all' 0 "ready
$nothing" ''

printf 'close 2\nclose 2\nclose 9\nclose 65535\nclose 65536\nclose 01\nclose  1\n' > "$room/in"
printf 'close\nend \nEND\r\n\n\377\nclose 1' >> "$room/in"
run "$config" < "$room/in"
ended 'commands that are none, and one that is cut' 0 "ready
closed 2
already 2
unknown 9
unknown 65535
no command
no command
no command
no command
no command
no command
no command
no command
closed 1
$nothing" ''

printf 'end\nclose 1\n' > "$room/in"
run "$config" < "$room/in"
ended 'commands after the end' 0 "ready
$nothing" ''

run "$config" < /
ended 'commands that cannot be read' 1 ready 'fault: input'

timeout 10 "$router" run --config "$config" < /dev/null > /dev/full 2> "$room/err"
status=$?
: > "$room/out"
ended 'an output that takes nothing' 1 '' 'fault: output'

timeout 10 "$router" run --config "$config" < /dev/null >&- 2> "$room/err"
status=$?
ended 'an output that is closed' 1 '' 'fault: output'

# The router itself has to bear it, so SIGPIPE is again as a shell leaves it. The reader is gone before it writes.
status=$({ {
    trap - PIPE
    sleep 0.2
    timeout 10 "$router" run --config "$config" < /dev/null 2> "$room/err"
    echo $? >&3
} | :; } 3>&1)
ended 'an output whose reader is gone' 1 '' 'fault: output'

with 's/capacity = 4/capacity = 0/; s/127.0.0.1:43000/192.0.2.1:43000/'
run "$room/config" < /dev/null
ended 'a configuration that is wrong, and an address of another machine' 1 '' 'fault: config 8'

with 's/127.0.0.1:43002/192.0.2.1:43002/'
run "$room/config" < /dev/null
ended 'an address of another machine' 1 '' 'fault: socket 2'

with 's/127.0.0.1:43002/127.0.0.1:43000/'
run "$room/config" < /dev/null
ended 'an address twice' 1 '' 'fault: socket 2'

start
timeout 10 "$router" run --config "$config" < /dev/null > "$room/second" 2> "$room/second.err"
second=$?
finish
ended 'a router' 0 "ready
$nothing" ''
status=$second
mv "$room/second" "$room/out"
mv "$room/second.err" "$room/err"
ended 'an address that is taken' 1 '' 'fault: socket 0'

start
bin/faults-send 43011 43001 0 1 9216 9217 65507
finish
ended 'datagrams of 0, 1, 9,216, 9,217 and 65,507 bytes' 0 'ready
link 0 sent 0
link 1 sent 0
link 2 sent 0
received 5
sent 0
answered 0
dropped 1 2
dropped 3 1
dropped 11 2' ''

start
bin/faults-send 43011 43001 packet packet packet
finish
ended 'packets to a neighbour that is not there' 0 'ready
link 0 sent 0
link 1 sent 0
link 2 sent 3
received 3
sent 3
answered 0' ''

with 's/remote = "127.0.0.1:43012"/remote = "[0:0:0:0:0:0:0:1]:43012"/'
config=$room/config
start
bin/faults-send 43011 43001 packet
finish
ended 'a neighbour at an address of the other IP version' 0 'ready
link 0 sent 0
link 1 sent 0
link 2 sent 0
received 1
sent 0
answered 0
dropped 17 1' ''

echo "tried $tried, failed $failed"
[ "$failed" = 0 ]
