# `make` proves the crates; `make run` prints a report, `make empties` the addresses of empty Sectors; `make test` is the gate; `make bench` times
# the proved code; `make times` says how long each crate takes to prove; `make believed` lists the definitions that a reader must believe.
.PHONY: all run empties test bench times believed

# the image that `make run` and `make empties` read
IMAGE ?= crates/report/stdin

all:
	rt all check

run:
	@tools/prove report
	@crates/report/out/report < "$(IMAGE)"

empties:
	@tools/prove empties
	@crates/empties/out/empties < "$(IMAGE)"

test:
	@tools/gate

bench:
	tools/build
	cd second && cargo run --offline --release --quiet --bin bench -- $(if $(STRICT),--strict)

times:
	@tools/times

believed:
	@tools/believed
