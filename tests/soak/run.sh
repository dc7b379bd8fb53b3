#!/bin/sh
# Floods the router over loopback for MINUTES (or SOAK_SECONDS), and checks that its report accounts for every
# datagram that it was given.
set -eu
cd "$(dirname "$0")/../.."
CC=${CC:-cc}
router=${ROUTER:-bin/router}
seconds=${SOAK_SECONDS:-$((${MINUTES:-1} * 60))}
mkdir -p bin
"$CC" -O2 -Wall -Wextra -fPIC -shared -o bin/faults-preload.so tests/faults/preload.c -ldl
"$CC" -O2 -Wall -Wextra -o bin/soak tests/soak/soak.c tests/datagrams.c tests/harness.c -lpthread
bin/soak "$router" "$PWD/bin/faults-preload.so" tests/soak/router.toml "$seconds"
