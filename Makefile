# make demo: proves and builds the programs and shows pages that were sent, damaged and received; make test: the gate;
# make library: the receiver for C; make bench: it is timed beside receivers in C;
# make outside: it is compared with a receiver in Rust.
PREFIX ?= /usr/local
PROGRAMS = send_pages receive_pages
TOOLS = damage_lines

.PHONY: all demo test library bench outside install clean

all:
	tools/build $(PROGRAMS) $(TOOLS)

demo: all
	@examples/demo target/bin

test:
	.ci/run

# target/staticlib/libbridge.a, which include/demborugy.h declares
library:
	tools/build bridge

bench:
	bench/run
	bench/picture target/bench/results.md target/bench/results.svg

outside:
	tests/outside/run

install: all
	install -d "$(DESTDIR)$(PREFIX)/bin"
	install $(addprefix target/bin/,$(PROGRAMS)) "$(DESTDIR)$(PREFIX)/bin"
	install -d "$(DESTDIR)$(PREFIX)/share/man/man1"
	install -m 644 $(PROGRAMS:%=docs/man/%.1) "$(DESTDIR)$(PREFIX)/share/man/man1"

clean:
	rm -rf target crates/*/out
