#!/usr/bin/env python3
"""Compares the forwarding keys that `router import` derives with those of OpenSSL (`openssl kdf`), over random master keys.

The master keys have from 1 to 200 bytes, each length at least once: keys up to a block of SHA-256, 64 bytes, are taken as
they are, longer ones are hashed first. The first of them and the seed are printed, so a run can be made again.

Use: tests/keys/compare.py [PROGRAM [COUNT [SEED]]], where PROGRAM is bin/router, COUNT 400 and SEED a new one if not named.
"""

import base64
import os
import random
import re
import subprocess
import sys
import tempfile

TOP = os.path.dirname(os.path.dirname(os.path.dirname(os.path.abspath(__file__))))
TOPOLOGY = os.path.join(TOP, "examples", "scionproto", "topology.json")
ROUTER = "br1-ff00_0_110-1"


def of_openssl(master):
    # pkcs5:1 leaves out OpenSSL's own limits: it takes no salt below 16 bytes otherwise
    options = ["digest:SHA256", f"hexpass:{master.hex()}", "salt:Derive OF Key", "iter:1000", "pkcs5:1"]
    words = ["openssl", "kdf", "-keylen", "16", *(word for it in options for word in ("-kdfopt", it)), "PBKDF2"]
    done = subprocess.run(words, capture_output=True, check=True, text=True)
    return done.stdout.strip().replace(":", "").lower()


def of_router(program, folder, master):
    with open(os.path.join(folder, "master0.key"), "w", encoding="ascii") as file:
        file.write(base64.b64encode(master).decode() + "\n")
    words = [program, "import", "--topology", TOPOLOGY, "--router", ROUTER, "--keys", folder, "--port-range"]
    done = subprocess.run(words, capture_output=True, check=True, text=True)
    return re.search(r'^key = "([0-9a-f]{32})"$', done.stdout, re.MULTILINE)[1]


def main():
    program = os.path.abspath(sys.argv[1] if len(sys.argv) > 1 else os.path.join(TOP, "bin", "router"))
    count = int(sys.argv[2]) if len(sys.argv) > 2 else 400
    seed = int(sys.argv[3]) if len(sys.argv) > 3 else random.SystemRandom().randrange(1 << 32)
    random.seed(seed)
    lengths = [*range(1, 201), *(random.randint(1, 200) for _ in range(count))][:count]
    failed = 0
    with tempfile.TemporaryDirectory() as folder:
        for length in lengths:
            master = random.randbytes(length)
            wanted, came = of_openssl(master), of_router(program, folder, master)
            if wanted != came:
                failed += 1
                print(f"{master.hex()}: wanted {wanted}, came {came}")
    print(f"seed {seed}: {count - failed} passed, {failed} failed")
    sys.exit(1 if failed else 0)


main()
