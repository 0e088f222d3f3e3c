# The library for C on this machine. GNU make, a C compiler, and the Rattle toolchain (rt), which proves what it builds.
#   make                      libveerycouch.a and its pkg-config file, in target/lib; the header is include/veerycouch.h
#   make install PREFIX=...   the three under PREFIX (default /usr/local), below DESTDIR where that is set
#   make test                 the header against the sources, the C examples against what they should print, the handle beside the flat calls, the wrapper's tests
#   make fuzz SECONDS=60      damaged texts and heads in memory between guard pages, under two sanitizers
#   tools/cross TARGET        the archive for another processor
# From nothing, `make` proves the library and what it rests on, which takes about ten minutes on two processors, and says which crate it is at. Sources that have not changed are
# not proved again.
PREFIX ?= /usr/local
LIBDIR ?= $(PREFIX)/lib
INCLUDEDIR ?= $(PREFIX)/include
SECONDS ?= 60
CC ?= cc
STRICT = -std=c99 -Wall -Wextra -Wpedantic -Wconversion -Werror

HEADER = include/veerycouch.h
ARCHIVE = target/lib/libveerycouch.a
VERSION := $(or $(shell sed -n 's/^\#define VEERYCOUCH_VERSION_TEXT "\(.*\)"/\1/p' $(HEADER)),$(shell sed -n 's/^\#define VEERYCOUCH_HEADER //p' $(HEADER)))
PROVED := $(shell for c in $$(tools/build-program --below capi) capi; do find crates/$$c/src crates/$$c/specs crates/$$c/proofs -type f 2>/dev/null; done)
EXAMPLES = $(basename $(notdir $(wildcard examples/*.c)))

all: $(ARCHIVE) target/lib/pkgconfig/veerycouch.pc

# a copy of what rt wrote: nothing else writes it
target/staticlib/libcapi.a: $(PROVED)
	tools/build-program --library capi
	@touch $@

$(ARCHIVE): target/staticlib/libcapi.a
	@mkdir -p $(@D)
	cp $< $@

# for use from this folder; install writes one of its own
target/lib/pkgconfig/veerycouch.pc: $(HEADER) Makefile
	@mkdir -p $(@D)
	@printf 'prefix=%s\nlibdir=%s\nincludedir=%s\n\nName: veerycouch\nDescription: the proved preprocessor of a streaming anomaly detector\nVersion: %s\nLibs: -L$${libdir} -lveerycouch\nCflags: -I$${includedir}\n' '$(CURDIR)' '$(CURDIR)/target/lib' '$(CURDIR)/include' '$(VERSION)' >$@

install: all
	install -d $(DESTDIR)$(INCLUDEDIR) $(DESTDIR)$(LIBDIR)/pkgconfig
	install -m 644 $(HEADER) $(DESTDIR)$(INCLUDEDIR)/
	install -m 644 $(ARCHIVE) $(DESTDIR)$(LIBDIR)/
	sed -e 's|^prefix=.*|prefix=$(PREFIX)|' -e 's|^libdir=.*|libdir=$(LIBDIR)|' -e 's|^includedir=.*|includedir=$(INCLUDEDIR)|' target/lib/pkgconfig/veerycouch.pc >target/lib/veerycouch.pc
	install -m 644 target/lib/veerycouch.pc $(DESTDIR)$(LIBDIR)/pkgconfig/veerycouch.pc

# some seconds, once the library is built
test: test-header $(EXAMPLES:%=test-%) test-handle test-cpp test-wrapper
	@echo "make test: all passed"

test-header: $(ARCHIVE)
	tools/header --check $(ARCHIVE)

# an example prints what stands in its .out file
$(EXAMPLES:%=test-%): test-%: examples/%.c examples/%.out $(HEADER) $(ARCHIVE)
	@mkdir -p target/examples
	$(CC) $(STRICT) -Iinclude $< $(ARCHIVE) -o target/examples/$*
	target/examples/$* >target/examples/$*.out
	diff examples/$*.out target/examples/$*.out

# the calls on the handle beside the flat calls
test-handle: tools/handle-test.c $(HEADER) $(ARCHIVE)
	@mkdir -p target/examples
	$(CC) $(STRICT) -Iinclude $< $(ARCHIVE) -o target/examples/handle-test
	target/examples/handle-test

# the header is C++ too
test-cpp: $(HEADER)
	@if command -v $(CXX) >/dev/null; then printf '#include "veerycouch.h"\nVEERYCOUCH_DECLARE(one, 2, 3, 4);\nuint64_t panel(uint64_t *n) { return veery_panel(&one, n); }\n' | $(CXX) -std=c++11 -Wall -Wextra -Wpedantic -Wconversion -Werror -Iinclude -fsyntax-only -x c++ - && echo "$(CXX): the header is C++"; else echo "no C++ compiler here: not tried"; fi

test-wrapper: $(ARCHIVE)
	@if command -v cargo >/dev/null; then cd wrapper && VEERYCOUCH_LIB=$(CURDIR)/target/lib cargo test --release --offline --quiet; else echo "no cargo here: the wrapper's tests were NOT run"; fi

fuzz: $(ARCHIVE)
	tools/fuzz/run $(SECONDS)

clean:
	rm -rf target/lib target/examples

.PHONY: all install test test-header test-handle test-cpp test-wrapper fuzz clean $(EXAMPLES:%=test-%)
