# The kit's command `rt` is the one tool that is needed, found on the PATH.
RT ?= rt
PREFIX ?= /usr/local
PROGRAM = crates/router_program/out/router_program

.PHONY: all try try-net demo demo-net test bench-decision install clean

all: bin/router

# What a proof reads.
PROVED = crates.txt HANDLES $(shell find crates -name out -prune -o \( -name '*.rt' -o -name '*.antt' \) -print)

# Proves the program and all that it stands on, and builds it.
$(PROGRAM): $(PROVED)
	RT="$(RT)" tools/prove.py router_program $@

bin/router: $(PROGRAM)
	mkdir -p bin
	cp $(PROGRAM) bin/router

ROUTE_FIRST = route --config $(CURDIR)/examples/border-router.toml --link 1 --now 1694499816

# Carries the first datagram from link 1 to link 2 through the program as it is compiled before any proof.
# Calls are tried as they run; nothing is proved by it.
try:
	cd crates/router_program && $(RT) try -- $(ROUTE_FIRST) < $(CURDIR)/examples/first-datagram.hex
	@echo 'Nothing was proved: `make demo` proves the program before it runs it.'

THREE_ASES = $(CURDIR)/examples/three-ases
HOSTS = 127.0.1.10:31000 127.0.3.10:31000
PATH_FILES = first.toml core-1.toml core-2.toml last.toml

# Carries beacons, a packet and a traceroute through three ASes over loopback addresses of this machine, by four routers in
# one process, as they are compiled before any proof. Calls are tried as they run; nothing is proved by it.
try-net:
	cd crates/try_net && $(RT) try $(foreach it,$(PATH_FILES),--data $(it)=$(THREE_ASES)/$(it)) -- $(HOSTS) $(PATH_FILES)
	@echo 'Nothing was proved: `make demo-net` does the same with the proved program, in a process for each router.'

# Carries the first datagram from link 1 to link 2 through the proved program.
demo: bin/router
	bin/router $(ROUTE_FIRST) < examples/first-datagram.hex

bin/path_probe: $(PROVED)
	RT="$(RT)" tools/prove.py path_probe $@

# What `make try-net` does, by the proved program, in a process for each router.
demo-net: bin/router bin/path_probe
	examples/three-ases/try.sh

# The crates of tests in which the gate refuses growths.
GROWN = engine_tests pipeline_tests run_tests
GROWN_TESTS = $(foreach it,$(GROWN),crates/$(it)/out/$(it)_tests)

# How many crates the gate proves side by side: one for each processor that has 4 GiB of memory.
LANES ?= $(shell awk -v cores=$$(nproc) '/^MemAvailable/ { n = int($$2 / 4194304) } \
	END { if (n > cores) n = cores; print (n > 1 ? n : 1) }' /proc/meminfo)

# The merge gate; last, the program that it built is given the tables of tests/lines, and its commands and some tests are
# refused each growth in turn, unless the system forbids that (77). It needs python3 too. Where it took an earlier run's
# results, it may have built no program and no tests.
test:
	rm -f $(PROGRAM) $(GROWN_TESTS)
	RT_JOBS=$(LANES) $(RT) ci
	$(MAKE) $(PROGRAM) $(GROWN_TESTS)
	tests/lines/check.py $(PROGRAM)
	tests/faults/growths.py check check-net import route replay run run-metrics $(GROWN) || [ $$? -eq 77 ]

TESTS = $(GROWN_TESTS) $(foreach it,packet_tests stages_tests,crates/$(it)/out/$(it)_tests)

$(TESTS): $(PROVED)
	cd $(patsubst %/out,%,$(@D)) && $(RT) test

# Times the decision beside plain Rust.
bench-decision:
	cd crates/decision_bench && $(RT) lib
	RT="$(RT)" bench/decision/run.sh

# The program, its man page, the pages for operators, and a systemd unit, for packages under DESTDIR.
install: bin/router
	install -d $(DESTDIR)$(PREFIX)/bin $(DESTDIR)$(PREFIX)/share/man/man1
	install -d $(DESTDIR)$(PREFIX)/share/doc/yewpleat $(DESTDIR)$(PREFIX)/lib/systemd/system
	install -m 755 bin/router $(DESTDIR)$(PREFIX)/bin/router
	install -m 644 packaging/router.1 $(DESTDIR)$(PREFIX)/share/man/man1/router.1
	install -m 644 docs/OPERATING.md docs/CONFIGURATION.md docs/FORMATS.md docs/LIMITS.md docs/FROM-SCIONPROTO.md \
		examples/border-router.toml $(DESTDIR)$(PREFIX)/share/doc/yewpleat
	install -d $(DESTDIR)$(PREFIX)/share/doc/yewpleat/pictures
	install -m 644 docs/pictures/metrics.svg $(DESTDIR)$(PREFIX)/share/doc/yewpleat/pictures
	sed 's|@BINDIR@|$(PREFIX)/bin|' packaging/yewpleat@.service.in \
		> $(DESTDIR)$(PREFIX)/lib/systemd/system/yewpleat@.service
	chmod 644 $(DESTDIR)$(PREFIX)/lib/systemd/system/yewpleat@.service
	install -d $(DESTDIR)$(PREFIX)/share/doc/yewpleat/prometheus
	install -m 644 packaging/prometheus/rules.yml packaging/prometheus/dashboard.json \
		$(DESTDIR)$(PREFIX)/share/doc/yewpleat/prometheus
	sed 's|@BINDIR@|$(PREFIX)/bin|' packaging/metrics.conf.in > $(DESTDIR)$(PREFIX)/share/doc/yewpleat/metrics.conf
	chmod 644 $(DESTDIR)$(PREFIX)/share/doc/yewpleat/metrics.conf

clean:
	rm -rf bin crates/*/out

.PHONY: bench-pipe

# Nanoseconds of an item through a pipe between threads, beside plain Rust; it needs rustc too.
bench-pipe: bin/pipeline_tests
	bench/pipe.sh

.PHONY: bench-stages

# Nanoseconds of a packet through three workers by turns, beside plain Rust; it needs rustc too.
bench-stages: bin/stages_tests
	bench/stages.sh

.PHONY: bench-router

# Datagrams a second, time and latency of the router over loopback, beside plain Rust and C; it needs rustc and cc too.
bench-router: bin/router
	bench/router.sh

.PHONY: faults

# Refuses each growth, read, write, send and more in turn, and gives bad input: each run has to end as documented.
# It needs cc and python3 too.
faults: bin/router $(TESTS)
	tests/faults/run.sh
	tests/faults/input.sh
	tests/faults/growths.py

# The compiled tests of a crate, for benches.
bin/pipeline_tests bin/stages_tests: bin/%: $(PROVED)
	cd crates/$* && $(RT) test
	mkdir -p bin
	cp crates/$*/out/$*_tests bin/$*

.PHONY: lines

# Gives the program words, configurations and lines, and compares what it writes with tables; it needs python3 too.
lines: bin/router
	tests/lines/check.py

.PHONY: docs-check

# Looks up the files and names that the documents give, runs the commands that they show, and compares their output; it needs
# python3 too.
docs-check: bin/router
	tests/docs/check.py

.PHONY: constant-time

# Tries what the time of the built router's ciphers depends on, by their machine code and by memcheck; it needs cc, python3,
# objdump and valgrind too.
constant-time: bin/router
	cd crates/decision_bench && $(RT) lib
	RT="$(RT)" tests/constant_time/run.sh

MINUTES ?= 1
.PHONY: soak

# Floods the router over loopback for some minutes, and checks that it accounts for all that it read; it needs cc too.
soak: bin/router
	MINUTES=$(MINUTES) tests/soak/run.sh

NETS ?= 40
.PHONY: nets

# Runs random nets of routers over loopback, and compares what comes of packets with `router route`; it needs python3 too.
nets: bin/router
	tests/nets/try.py --nets $(NETS)

SECONDS ?= 60
.PHONY: bfd-trial

# Speaks BFD with a running router over loopback, for some seconds beside a flood; it needs python3 too.
bfd-trial: bin/router
	tests/bfd/try.py --seconds $(SECONDS)

.PHONY: metrics-trial

# Asks a running router for its counts over HTTP, well and ill, beside a load; it needs python3 too. With PROMETHEUS=yes
# Debian's prometheus scrapes it for a minute besides.
metrics-trial: bin/router
	tests/metrics/check.py $(if $(PROMETHEUS),--prometheus)

.PHONY: gate-times

# The gate, from nothing, with the processor time of each crate's proof, tests and wrong bodies; it needs python3 too.
gate-times:
	RT_JOBS=$(LANES) tests/gate/times.py --anew

.PHONY: pictures

# Draws the pictures of docs/ from their sources and from crates.txt; it needs python3 and Graphviz's dot too.
pictures:
	docs/pictures/crates.py > docs/pictures/crates.dot
	dot -Tsvg docs/pictures/crates.dot -o docs/pictures/crates.svg
	dot -Tsvg docs/pictures/pipeline.dot -o docs/pictures/pipeline.svg

.PHONY: compare-keys

# Compares the forwarding keys that `router import` derives with those of OpenSSL, over random master keys; it needs python3
# and openssl too.
compare-keys: bin/router
	tests/keys/compare.py
