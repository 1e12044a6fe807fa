# Short names for the scripts of this repository, each of which can be run by itself. `make` alone is `make lib`.
.PHONY: lib install check host decode prove test more-edits compare compare-long bench cases help clean
.DELETE_ON_ERROR:
MAKEFLAGS += --no-print-directory

# The recipes take these from the environment, so that a path may have spaces.
PREFIX ?= /usr/local
FILE ?= crates/decode/stdin
# behind the lines above: what is exported counts as set
export PREFIX DESTDIR FILE

need_rt = command -v rt >/dev/null || { echo $(no_rt) >&2; exit 1; }
no_rt = 'make: rt, the command of the Rattle kit, is not on the PATH; README.md, "Building and proving", says what is needed'

# The library for C on this machine, its headers and its file for pkg-config, in target/dist.
lib: target/dist/lib/libcart.a target/dist/include/cart.h target/dist/include/cart_plain.h target/dist/lib/pkgconfig/cart.pc
	@echo "make: target/dist has libcart.a for $$(uname -m), its headers and cart.pc"

# rt would check the crate again at each call, which takes a while; out/ is rt's own
target/native/lib%.a: crates.txt $(shell find crates -name out -prune -o \( -name '*.rt' -o -name '*.antt' \) -print)
	@$(need_rt)
	compare/native.sh $*

target/dist/lib/libcart.a: target/native/libcart.a
	install -D -m 644 $< $@

target/dist/include/%.h: include/%.h
	install -D -m 644 $< $@

# found from where the file stands, so that target/dist can be used as it is, and moved
target/dist/lib/pkgconfig/cart.pc: include/cart.pc.in include/cart.h tools/pc.sh
	mkdir -p $(@D)
	tools/pc.sh >$@

# The same under PREFIX (/usr/local), for a package below DESTDIR.
install: lib
	@set -eu; prefix=$$(realpath -ms -- "$${PREFIX:-/}"); to=$$DESTDIR$$prefix; \
	pc=$$(tools/pc.sh "$$prefix"); \
	install -D -m 644 -t "$$to/lib" target/dist/lib/libcart.a; \
	install -D -m 644 -t "$$to/include" include/cart.h include/cart_plain.h; \
	printf '%s\n' "$$pc" | install -D -m 644 /dev/stdin "$$to/lib/pkgconfig/cart.pc"; \
	echo "make: libcart.a, cart.h, cart_plain.h and cart.pc are installed under $$to"

# Tests the library as C sees it: the header, the host programs, the stored cases, and the examples of the documents.
check: lib target/native/libprobe.a
	@$(need_rt)
	tools/install.sh host
	host/test.sh

# Another name of check.
host: check

# Proves the sample program, builds it and runs it on FILE (- is standard input): a byte with the number of blocks, and a payload.
decode:
	@$(need_rt)
	@tools/decode.sh "$$FILE"

# Proves every crate that changed, and runs the programs.
prove:
	@$(need_rt)
	rt all test

# The whole gate.
test:
	@$(need_rt)
	.ci/run

# Wrong programs beside those that the gate tries: the prover must refuse them too.
more-edits:
	@$(need_rt)
	tools/more-edits.sh

# The proved code against the oracle, and nothing else of the gate.
compare:
	@$(need_rt)
	oracle/build.sh
	compare/native.sh probe
	compare/native.sh cart
	compare/build.sh
	target/compare/oracle_check
	target/compare/driver
	target/compare/vectors
	tools/decode.sh --build
	target/compare/sample_program tools/run.sh crates/decode/out/decode

# The same with tens of millions of random cases, from another seed.
compare-long: SEED = 3
compare-long: CASES = 20000000
compare-long:
	@$(need_rt)
	oracle/build.sh
	compare/native.sh probe
	compare/native.sh cart
	compare/build.sh
	target/compare/driver $(SEED) $(CASES) 1
	target/compare/driver_checked $(SEED) 3000000 7

# Times, on this machine.
bench:
	@$(need_rt)
	bench/run.sh

# The stored cases and their answers, written anew by the oracle.
cases:
	cases/store.sh

# Says what each target does.
help:
	@awk '/^# /{said = substr($$0, 3)} /^[a-z-]+:/{sub(/:.*/, ""); if (!seen[$$0]++) printf "%-14s%s\n", $$0, said}' $(firstword $(MAKEFILE_LIST))

# All that was built, and what rt keeps of its proofs.
clean:
	rm -rf target crates/*/out
