# Builds the planner and puts it under a prefix:
#     make                            the archives, the programs and the desk tool; proves what is not proved yet
#     make install PREFIX=$HOME/tent  archives, headers, planner.pc, programs and desk tool
#     make uninstall PREFIX=..        takes them away again
#     make check                      the gate
# `make install` takes what is built and proves nothing.
PREFIX ?= /usr/local
DESTDIR ?=
version := $(shell sed -n 's/^.define PLANNER_VERSION "\(.*\)"/\1/p' include/planner.h)
root := $(DESTDIR)$(PREFIX)
headers := planner.h mapper.h races.h
# The screen and the mapper's program have names under which other programs are known.
installed := bin/tent bin/tent-screen bin/tent-map bin/desk lib/libplanner.a lib/libplanner-csv.a lib/libplanner-races.a \
	lib/pkgconfig/planner.pc $(addprefix include/planner/,$(headers)) share/doc/planner/CHANGELOG.md

.PHONY: all install uninstall check

all:
	tools/build planner csv races tent
	examples/build built
	cargo build --release --offline --quiet --manifest-path tests/Cargo.toml -p desk

install:
	install -d $(root)/bin $(root)/lib/pkgconfig $(root)/include/planner $(root)/share/doc/planner
	install -m 755 target/bin/tent $(root)/bin/tent
	install -m 755 target/bin/screen $(root)/bin/tent-screen
	install -m 755 target/bin/map $(root)/bin/tent-map
	install -m 755 tests/target/release/desk $(root)/bin/desk
	install -m 644 target/staticlib/libplanner.a $(root)/lib/libplanner.a
	install -m 644 target/staticlib/libcsv.a $(root)/lib/libplanner-csv.a
	install -m 644 target/staticlib/libraces.a $(root)/lib/libplanner-races.a
	install -m 644 $(addprefix include/,$(headers)) $(root)/include/planner
	install -m 644 CHANGELOG.md $(root)/share/doc/planner/CHANGELOG.md
	sed 's|@PREFIX@|$(PREFIX)|; s|@VERSION@|$(version)|' include/planner.pc.in >$(root)/lib/pkgconfig/planner.pc

uninstall:
	rm -f $(addprefix $(root)/,$(installed))
	-rmdir $(root)/include/planner $(root)/share/doc/planner $(root)/lib/pkgconfig 2>&1 | grep -v 'not empty'

check:
	.ci/run
