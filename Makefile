# make run: prove and build calls, and show it at work. make test: all checks. make fuzz N=..: calls against the model, with new seeds.
# make faults: the same tests against programs with one fault each. make bench: instructions a line. make interop: real clients through the daemon.
# make bench-relayd: what a packet costs there. make package: the daemon's Debian package.
# make browser: a browser through the daemon. make bench-front: what its front end costs.
.PHONY: test run fuzz faults bench bench-relayd bench-front fmt relayd relayd-test calls interop browser package

CALLS ?= target/bin/calls
N ?= 100

test: relayd-test
	tools/check-promises
	tools/believed
	tests/all

run:
	tools/build-calls
	@echo
	@echo "The calls of document 01's sample: a client allocates and permits a peer, which then sends twice."
	@cat crates/calls/stdin
	@echo
	@echo "What target/bin/calls answers: S goes to the client (two successes, and the peer's bytes in a Data indication), D is dropped,"
	@echo "since the permission is over at 1310. At the end the listing: A is the allocation that is still live."
	@target/bin/calls < crates/calls/stdin

# N scripts of 200 lines in each profile; prints the seeds, and the seed of what differs.
fuzz: $(CALLS)
	@CALLS=$(CALLS) tests/calls/compare --scripts $(N) --lines 200 --seed new

# Whether the tests of calls can fail: each of some forty stand-ins with one fault must be found. Some ten minutes.
faults:
	tests/calls/faults

bench: $(CALLS)
	@CALLS=$(CALLS) bench/instructions

fmt:
	@for crate in crates/*/; do (cd $$crate && rt fmt) || exit 1; done

# The daemon stands outside the proof. Where there is no cargo, its tests are left out.
relayd-test:
	@if command -v cargo >/dev/null; then host/relayd/test; else echo "no cargo: host/relayd is not built and its tests are not run"; fi

relayd:
	host/relayd/packages
	host/relayd/cargo build --release

# The proved program, which relayd drives.
calls: $(CALLS)
target/bin/calls:
	tools/build-calls

# As root.
bench-relayd: relayd $(CALLS)
	tests/interop/packages
	CALLS=$(CALLS) bench/side_by_side.py

package: $(CALLS)
	CALLS=$(CALLS) packaging/build

# As root.
interop: relayd $(CALLS)
	tests/interop/packages
	CALLS=$(abspath $(CALLS)) host/relayd/cargo test --release -- --ignored
	CALLS=$(CALLS) tests/interop/run

# The demo's page in headless Chromium, through the daemon: some five minutes, as root.
browser: relayd $(CALLS)
	tests/browser/packages
	CALLS=$(CALLS) tests/browser/run

# What the front end costs a datagram.
bench-front:
	host/relayd/cargo test --release -- --ignored --nocapture what_checking_costs
