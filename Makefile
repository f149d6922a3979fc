# make                the library, the listing program and rigamel, proved and built under target/
# make check          the gate: every crate, every must-fail edit, every program
# make test           the tests of the interface for C and of rigamel
# make install        rigamel, librigamel.a, rigamel.h, rigamel.pc and the manual pages under PREFIX
# make uninstall      removes these
# make clean          removes target/, and what proofs and builds keep in the crates

PREFIX = /usr/local
CC = cc
CFLAGS = -O2

prefix = $(if $(filter /%,$(PREFIX)),$(PREFIX),$(CURDIR)/$(PREFIX))
to = $(DESTDIR)$(prefix)
version = $(shell sed -n 's/^.define RIGAMEL_VERSION "\(.*\)"/\1/p' include/rigamel.h)
proved = crates.txt $(shell find crates -name out -prune -o \( -name '*.rt' -o -name '*.antt' \) -print)
desk = $(wildcard desk/*.c)

program = target/bin/rigamel
listing = target/bin/flow_listing
archive = target/staticlib/librigamel.a

all: $(listing) $(archive) $(program)

# rt proves and builds the program, and runs it, here on nothing.
$(listing): $(proved)
	cd crates/flow_listing && rt run < /dev/null > /dev/null
	install -D -m 755 crates/flow_listing/out/flow_listing $@

$(archive): $(proved)
	cd crates/rigamel && rt lib
	install -D -m 644 crates/rigamel/out/librigamel.a $@

$(program): $(desk) $(wildcard desk/*.h desk/*.def) include/rigamel.h $(archive)
	$(CC) -std=c11 $(CPPFLAGS) $(CFLAGS) -Iinclude -Idesk $(LDFLAGS) -o $@ $(desk) $(archive)

check:
	bash .ci/run

test: all
	bash tests/c/run
	python3 tests/desk/run

install: all
	install -d "$(to)/bin" "$(to)/include" "$(to)/lib/pkgconfig" "$(to)/share/man/man1" "$(to)/share/man/man3"
	install -m 755 $(program) "$(to)/bin"
	install -m 644 include/rigamel.h "$(to)/include"
	install -m 644 $(archive) "$(to)/lib"
	install -m 644 man/rigamel.1 "$(to)/share/man/man1"
	install -m 644 man/rigamel.3 "$(to)/share/man/man3"
	sed 's/@VERSION@/$(version)/' include/rigamel.pc.in > "$(to)/lib/pkgconfig/rigamel.pc"

uninstall:
	rm -f "$(to)/bin/rigamel" "$(to)/include/rigamel.h" "$(to)/lib/librigamel.a" "$(to)/lib/pkgconfig/rigamel.pc" \
	  "$(to)/share/man/man1/rigamel.1" "$(to)/share/man/man3/rigamel.3"

clean:
	rm -rf target crates/*/out

.PHONY: all check test install uninstall clean
.DELETE_ON_ERROR:
