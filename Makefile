# make build: proves and builds the program. make test: the whole gate.
# make run: builds it, makes a log, translates an input, and shows what the log has and tells. The input is one packet; with
# input=examples/reply.frames its reply comes back too, and a tick 300 s after the packet closes the lease.
# make try: makes a log and translates the input without any proof, in about a minute, to look at a change.
program := crates/aftr/out/aftr
input := examples/first-packet.frames

.PHONY: build run try test

build:
	@scripts/build.sh

run: build
	@folder=$$(mktemp -d) && trap 'rm -rf "$$folder"' EXIT && \
	$(program) init "$$folder/log" && \
	$(program) run examples/defaults.toml "$$folder/log" "$$folder/out" "$(input)" && \
	echo "outlet:" && od -An -v -tx1 "$$folder/out" && \
	echo "log:" && scripts/show_log.py "$$folder/log" && \
	echo "leases:" && $(program) leases "$$folder/log" && \
	echo "trace:" && $(program) trace "$$folder/log" 192.0.2.8 1024 1000000

try:
	@folder=$$(mktemp -d) && trap 'rm -rf "$$folder"' EXIT && \
	(cd crates/aftr && rt try -- init "$$folder/log") && \
	(cd crates/aftr && rt try -- run "$(abspath examples/defaults.toml)" "$$folder/log" "$$folder/out" "$(abspath $(input))") && \
	echo "outlet:" && od -An -v -tx1 "$$folder/out" && \
	echo "log:" && scripts/show_log.py "$$folder/log" && \
	echo "What ran is unproved: make build proves it."

test:
	@.ci/run
