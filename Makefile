# make          prove and build everything, then show the hash, the cipher, the line program and a short day at the desk
# make test     all tests; the last line is 'N passed, M failed'
# make fuzz [SECONDS=300]   messages by a fuzzer, beside the reader of the tests; no part of make test
# make bench    the times beside other libraries; writes docs/BENCHMARKS.md
# make install [PREFIX=/usr/local] [DESTDIR=]   the C library: archive, header, pkg-config file; make uninstall removes them
# make build    prove and build everything, and show nothing
# make check NAME=crate   prove one crate and what it depends on
# make fmt      lay out every file of the crates
# make clean    remove what was built

SHELL := bash
.SHELLFLAGS := -o pipefail -c

.PHONY: show build test fuzz bench install uninstall check fmt clean

# Lines key,T,C,Q,algorithm,digits of the line program: document 01's example, then ten digits, SM3, a count alone, a key too short.
key := 1234567890abcdef1234567890abcdef
lines := $(key),1340783053,1234,5678,4,6 $(key),1340783053,1234,5678,4,10 $(key),1340783053,1234,5678,3,6 $(key),,7,,3,8 1234,,7,,3,8

show: build
	@echo
	@echo 'The standards'"'"' examples (crates/vectors):'
	@target/bin/vectors </dev/null
	@echo
	@echo 'Lines key,T,C,Q,algorithm,digits (crates/otp_lines), each behind its password or the refusal 9005:'
	@printf '%s\n' $(lines) | target/bin/otp_lines | paste -d ' ' - <(printf '%s\n' $(lines))
	@echo
	@echo 'A short day at the desk (examples/day): lines for crates/desk_lines, each with its answer:'
	@examples/day

build:
	@tools/build

test:
	@tests/run

bench:
	@bench/run

# The C library under the project's name. Its version stands in the header.
PREFIX ?= /usr/local
prefix = $(abspath $(PREFIX))
archive := target/staticlib/libcapi.a
version = $(shell sed -n 's/^\#define DL_VERSION  *"\(.*\)"/\1/p' include/dykeladder.h)
installed = $(addprefix $(DESTDIR)$(prefix)/,lib/libdykeladder.a include/dykeladder.h lib/pkgconfig/dykeladder.pc)

$(archive):
	@tools/build capi

install: $(archive)
	@install -d $(sort $(dir $(installed)))
	@install -m 644 $(archive) $(word 1,$(installed))
	@install -m 644 include/dykeladder.h $(word 2,$(installed))
	@sed 's|@PREFIX@|$(prefix)|; s|@VERSION@|$(version)|' include/dykeladder.pc.in | install -m 644 /dev/stdin $(word 3,$(installed))
	@printf 'installed %s\n' $(installed)

uninstall:
	@rm -f $(installed)

fuzz: $(archive)
	@tests/fuzz/run $(SECONDS)

check:
	@cd crates/$(NAME) && rt check

fmt:
	@for crate in crates/*/; do (cd "$$crate" && rt fmt) || exit; done

clean:
	@rm -rf target crates/*/out
