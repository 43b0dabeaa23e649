# `make` proves and builds the judge and shows what it says of the examples; `make test` is the gate; `make install PREFIX=..` installs header,
# libraries, programs, manual pages, documents and examples, and proves nothing again if no crate has changed; `make uninstall PREFIX=..` takes them
# away. DESTDIR stands before PREFIX. CC, CFLAGS, LDFLAGS, RUSTC and RUSTFLAGS are honoured.
PREFIX ?= /usr/local
export CFLAGS LDFLAGS RUSTC RUSTFLAGS
ifneq ($(origin CC),default)
export CC
endif
proved = find crates crates.txt -path 'crates/*/out' -prune -o -type f -print | LC_ALL=C sort | xargs cksum 2>/dev/null
.PHONY: all build prove mark test install uninstall

all: build
	@examples/judge-all

# The program, the library for C, and the crates below them; what neither needs is `make test`'s.
build: prove
	@tools/build

# Nothing is proved again if no crate has changed.
prove:
	@[ -e target/bin/hrafnolt ] || .ci/first
	@$(proved) | cmp -s - target/proved 2>/dev/null || { .ci/prove && $(MAKE) --no-print-directory mark; }

# What was proved, so that `make install` knows whether anything has changed since.
mark:
	@$(proved) >target/proved

test:
	@.ci/run

install: build
	@tools/install "$(PREFIX)" "$(DESTDIR)"

uninstall:
	@tools/install --remove "$(PREFIX)" "$(DESTDIR)"
