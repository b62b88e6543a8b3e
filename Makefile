# The bench program and the archive: `make` builds both, `make check` is the gate, `make install PREFIX=..` puts the program, the header, the
# archive and a pkg-config file in place, and `make uninstall` takes them away. It needs rt, and nothing from outside.
PREFIX ?= /usr/local
DESTDIR ?=
INSTALL ?= install

PLACE := $(DESTDIR)$(PREFIX)
VERSION := $(shell sed -n 's/^version = "\(.*\)"$$/\1/p' rust/Cargo.toml)
SOURCES := crates.txt $(shell find crates -name out -prune -o -type f -print)
ARCHIVE := target/staticlib/libremizutogya.a

.PHONY: all check install uninstall
.DELETE_ON_ERROR:

all: target/remi $(ARCHIVE)

# rt proves, builds and runs the program, and leaves it in the crate's out/.
target/remi: $(SOURCES)
	@mkdir -p target
	(cd crates/remi && rt run -- help) < /dev/null > target/remi.log 2>&1 || { tail -n 20 target/remi.log; exit 1; }
	cp crates/remi/out/remi $@

$(ARCHIVE): $(SOURCES)
	@mkdir -p target/staticlib
	(cd crates/remizutogya && rt lib) > target/archive.log 2>&1 || { tail -n 20 target/archive.log; exit 1; }
	cp crates/remizutogya/out/libremizutogya.a $@

check:
	bash .ci/run

install: all
	$(INSTALL) -d "$(PLACE)/bin" "$(PLACE)/include" "$(PLACE)/lib/pkgconfig"
	$(INSTALL) -m 755 target/remi "$(PLACE)/bin/remi"
	$(INSTALL) -m 644 c/remizutogya.h "$(PLACE)/include/remizutogya.h"
	$(INSTALL) -m 644 $(ARCHIVE) "$(PLACE)/lib/libremizutogya.a"
	{ echo "prefix=$(PREFIX)"; cat c/remizutogya.pc; echo "Version: $(VERSION)"; } > target/remizutogya.pc
	$(INSTALL) -m 644 target/remizutogya.pc "$(PLACE)/lib/pkgconfig/remizutogya.pc"

uninstall:
	rm -f "$(PLACE)/bin/remi" "$(PLACE)/include/remizutogya.h" "$(PLACE)/lib/libremizutogya.a"
	rm -f "$(PLACE)/lib/pkgconfig/remizutogya.pc"
