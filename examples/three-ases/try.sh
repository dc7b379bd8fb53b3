#!/bin/sh
# Runs the four routers of three ASes on loopback addresses of this machine, sends beacons over both links, carries a
# packet from a host of the first AS to a host of the last, traces the path between them, ends the routers and shows their
# reports.
set -eu

here=$(dirname "$0")
router=${ROUTER:-bin/router}
probe=${PROBE:-bin/path_probe}
room=$(mktemp -d)
routers="first core-1 core-2 last"
running=

# Whatever happens, no router is left running: each ends where its commands end.
trap 'exec 3>&- 4>&- 5>&- 6>&-; rm -rf "$room"' EXIT
trap 'exit 130' INT
trap 'exit 143' TERM

for name in $routers; do
    mkfifo "$room/$name.commands"
    "$router" run --config "$here/$name.toml" \
        < "$room/$name.commands" > "$room/$name.report" 2> "$room/$name.fault" 3>&- 4>&- 5>&- 6>&- &
    running="$running $!"
    case $name in
        first) exec 3> "$room/$name.commands" ;;
        core-1) exec 4> "$room/$name.commands" ;;
        core-2) exec 5> "$room/$name.commands" ;;
        last) exec 6> "$room/$name.commands" ;;
    esac
done

for name in $routers; do
    tries=0
    until grep -q '^ready$' "$room/$name.report"; do
        tries=$((tries + 1))
        if [ -s "$room/$name.fault" ] || [ "$tries" -gt 100 ]; then
            echo "router $name isn't ready: $(cat "$room/$name.fault")" >&2
            exit 1
        fi
        sleep 0.1
    done
done

status=0
"$probe" 127.0.1.10:31000 127.0.3.10:31000 \
    "$here/first.toml" "$here/core-1.toml" "$here/core-2.toml" "$here/last.toml" || status=$?

# The end of its commands ends a router; one that is gone or fails is seen by its status.
exec 3>&- 4>&- 5>&- 6>&-
for one in $running; do
    wait "$one" || status=$?
done

for name in $routers; do
    echo "router $name:"
    sed 's/^/    /' "$room/$name.report" "$room/$name.fault"
done
exit "$status"
