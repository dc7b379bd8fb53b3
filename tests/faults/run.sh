#!/bin/sh
# Refuses each call of the router that a system may refuse, one a run: growths, reads, writes, sends and the
# others of tests/faults/page.h, for `check`, `import`, `route`, `replay` and `run`, for `run --metrics` (`shown`), and
# for command lines that print the help or are refused (`help`, `refused`). The words say which of these; none: all of
# them. Prints how many calls of a kind were refused, and how many of these runs ended otherwise than
# docs/FORMATS.md says.
set -eu
cd "$(dirname "$0")/../.."
CC=${CC:-cc}
router=${ROUTER:-bin/router}
mkdir -p bin
"$CC" -O2 -Wall -Wextra -fPIC -shared -o bin/faults-preload.so tests/faults/preload.c -ldl
"$CC" -O2 -Wall -Wextra -o bin/faults tests/faults/faults.c tests/datagrams.c tests/harness.c

room=$(mktemp -d)
trap 'rm -rf "$room"' EXIT
trap 'exit 130' INT
trap 'exit 143' TERM

# A packet, one with a wrong MAC, one of no bytes, one that is cut, one whose hop leads nowhere, another packet.
first=$(cat examples/first-datagram.hex)
{
    echo "$first"
    echo "$first" | sed 's/0e66d2974536/0e66d2974537/'
    echo
    echo "${first%????}"
    echo "$first" | sed 's/00010002/00010009/'
    echo "$first"
} > "$room/datagrams"

bin/faults "$router" "$PWD/bin/faults-preload.so" \
    examples/border-router.toml "$room/datagrams" examples/replay.txt tests/faults/router.toml \
    examples/scionproto "$@"
