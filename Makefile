# The static library, its C header, its pkg-config file, and their checks.
#   make              prove and build the library; nothing where no source has changed
#   make check        declarations and version, C programs and the Rust binding against the built library
#   make check-c      of these what needs no cargo
#   make install      install under PREFIX (DESTDIR is honoured); make uninstall takes it away again
#   make clean        remove what make has built; what rt has proved stays proved
PREFIX ?= /usr/local
prefix := $(abspath $(PREFIX))
version := $(shell cat VERSION)

LIBRARY = target/staticlib/libpoint_store_c.a
# point_store_c and all that it is built on
CRATES := $(shell awk -F: '!/^\#/ {split($$1, said, " "); uses[said[1]] = $$2} \
	function reach(c, n, i, u) {if (c in seen || !(c in uses)) return; seen[c] = 1; n = split(uses[c], u, " "); \
	for (i = 1; i <= n; i++) reach(u[i])} END {reach("point_store_c"); for (c in seen) print c}' crates.txt | sort)
SOURCES := crates.txt $(shell find $(CRATES:%=crates/%) '(' -name '*.rt' -o -name '*.antt' ')' -not -path '*/out/*' | sort)

# each C program with what it has to print beside it; those in tests/c are C++ too
PROGRAMS = $(wildcard examples/c/*.c) $(wildcard tests/c/*.c)
BUILT = target/c
CHECKED = $(PROGRAMS:%.c=$(BUILT)/%.checked) $(patsubst %.c,$(BUILT)/%.cxx.checked,$(wildcard tests/c/*.c))
CFLAGS ?= -O2
WARNINGS = -Wall -Wextra -pedantic -Werror
# make -j has cargo look for a jobserver that it is not handed
CARGO = env -u MAKEFLAGS -u MFLAGS cargo

.PHONY: all library check check-c check-declarations check-version check-archive check-rust check-examples examples \
	install uninstall clean
.DELETE_ON_ERROR:
.SECONDARY:

all: library
library: $(LIBRARY)

# proves what is not proved yet
$(LIBRARY): $(SOURCES)
	tools/build_library
	touch $@

check: check-c check-rust
check-c: check-declarations check-version check-archive $(CHECKED)
check-examples: $(filter $(BUILT)/examples/%,$(CHECKED))
examples: $(patsubst %.c,$(BUILT)/%,$(wildcard examples/c/*.c))

check-declarations:
	include/check_declarations

check-version:
	include/check_version

# the name stands in it in one piece, and it needs no other functions than these three
check-archive: $(LIBRARY)
	strings -n 16 $(LIBRARY) | grep -q -F -f examples/c/store_name.stdout
	! nm -u $(LIBRARY) | grep ' U ' | grep -v -w -e memcpy -e memmove -e memset

$(BUILT)/%.cxx: %.c include/point_store.h $(LIBRARY)
	@mkdir -p $(@D)
	$(CXX) -x c++ -std=c++11 $(CFLAGS) $(WARNINGS) -Iinclude $< -x none $(LIBRARY) -o $@

$(BUILT)/%: %.c include/point_store.h $(LIBRARY)
	@mkdir -p $(@D)
	$(CC) -std=c99 $(CFLAGS) $(WARNINGS) -Iinclude $< $(LIBRARY) -o $@

$(BUILT)/%.cxx.checked: $(BUILT)/%.cxx %.stdout
	$< | diff $*.stdout -
	@touch $@

$(BUILT)/%.checked: $(BUILT)/% %.stdout
	$< | diff $*.stdout -
	@touch $@

check-rust: $(LIBRARY)
	$(CARGO) test --quiet --manifest-path bindings/rust/Cargo.toml
	$(CARGO) run --quiet --manifest-path examples/rust/Cargo.toml | diff examples/rust/stdout -
	$(CARGO) run --quiet --manifest-path examples/rust/Cargo.toml --bin probe_loop | diff examples/rust/probe_loop.stdout -

install: $(LIBRARY)
	install -d $(DESTDIR)$(prefix)/lib/pkgconfig $(DESTDIR)$(prefix)/include
	install -m 644 $(LIBRARY) $(DESTDIR)$(prefix)/lib/
	install -m 644 include/point_store.h $(DESTDIR)$(prefix)/include/
	sed -e 's,@PREFIX@,$(prefix),' -e 's,@VERSION@,$(version),' include/point_store.pc.in \
		> $(DESTDIR)$(prefix)/lib/pkgconfig/point_store.pc

uninstall:
	rm -f $(DESTDIR)$(prefix)/lib/libpoint_store_c.a $(DESTDIR)$(prefix)/include/point_store.h \
		$(DESTDIR)$(prefix)/lib/pkgconfig/point_store.pc

clean:
	rm -rf $(BUILT) target/staticlib
