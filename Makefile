# make                    builds target/make: libg719.a, which is the proved library with c/reply_text.c added, and g719.pc for pkg-config
# make install            puts header, archive and g719.pc below PREFIX, /usr/local if not given; LIBDIR and INCLUDEDIR may stand elsewhere, and
#                         DESTDIR goes before them all
# make uninstall          takes away what the two installs have put there
# make command            builds the command g719 (rust/g719-command) by cargo
# make install-command    puts it into BINDIR, PREFIX/bin if not given
# make clean              removes target/make
#
# `tools/build g719` proves the library before it builds it: some minutes from nothing, seconds if nothing has changed. So it is called
# only if the archive is missing or older than something in crates/. LIBRARY=FILE takes an archive that was built before, and rt is not called.

PREFIX ?= /usr/local
INCLUDEDIR = $(PREFIX)/include
LIBDIR = $(PREFIX)/lib
BINDIR = $(PREFIX)/bin
DESTDIR ?=
LIBRARY = target/staticlib/libg719.a
CFLAGS ?= -O2

# The library is for x86-64; elsewhere Debian's cross compiler makes what is linked to it, for cargo too.
machine := $(shell uname -m)
cross := $(if $(filter x86_64,$(machine)),,x86_64-linux-gnu-)
ifeq ($(origin CC),default)
CC = $(cross)gcc
endif
ifeq ($(origin AR),default)
AR = $(cross)ar
endif
ifneq ($(cross),)
export CARGO_BUILD_TARGET ?= x86_64-unknown-linux-gnu
export CARGO_TARGET_X86_64_UNKNOWN_LINUX_GNU_LINKER ?= $(CC)
endif

made = target/make
version = $(shell awk '$$2 ~ /^G719_VERSION_(MAJOR|MINOR|PATCH)$$/ { printf "%s%s", dot, $$3; dot = "." }' include/g719.h)
below_prefix = $(patsubst $(PREFIX)/%,$${prefix}/%,$(1))
binary = rust/target/$(if $(CARGO_BUILD_TARGET),$(CARGO_BUILD_TARGET)/)release/g719

MAKEFLAGS += --no-builtin-rules
.DELETE_ON_ERROR:
.PHONY: all install uninstall command install-command clean FORCE

all: $(made)/libg719.a $(made)/g719.pc

ifeq ($(origin LIBRARY),file)
$(LIBRARY): crates.txt $(shell find crates -name out -prune -o -print)
	@command -v rt >/dev/null || { echo 'rt is missing: the Rattle kit brings it; LIBRARY=FILE takes an archive that was built before' >&2; exit 1; }
	@echo 'the library is proved and built: some minutes from nothing'
	tools/build g719
	touch $@
endif

$(made):
	mkdir -p $@

$(made)/reply_text.o: c/reply_text.c include/g719.h | $(made)
	$(CC) -std=c99 -Wall -Wextra -Wpedantic -fPIC $(CFLAGS) -Iinclude -c c/reply_text.c -o $@

# These two depend on what make was told, LIBRARY and PREFIX, so they are made each time.
$(made)/libg719.a: $(LIBRARY) $(made)/reply_text.o FORCE
	cp $(LIBRARY) $@
	$(AR) rcsD $@ $(made)/reply_text.o

$(made)/g719.pc: c/g719.pc.in include/g719.h FORCE | $(made)
	sed -e 's|@PREFIX@|$(PREFIX)|' -e 's|@INCLUDEDIR@|$(call below_prefix,$(INCLUDEDIR))|' -e 's|@LIBDIR@|$(call below_prefix,$(LIBDIR))|' \
	    -e 's|@VERSION@|$(version)|' c/g719.pc.in >$@

install: all
	install -d $(DESTDIR)$(INCLUDEDIR) $(DESTDIR)$(LIBDIR)/pkgconfig
	install -m 644 include/g719.h $(DESTDIR)$(INCLUDEDIR)/g719.h
	install -m 644 $(made)/libg719.a $(DESTDIR)$(LIBDIR)/libg719.a
	install -m 644 $(made)/g719.pc $(DESTDIR)$(LIBDIR)/pkgconfig/g719.pc

uninstall:
	rm -f $(DESTDIR)$(INCLUDEDIR)/g719.h $(DESTDIR)$(LIBDIR)/libg719.a $(DESTDIR)$(LIBDIR)/pkgconfig/g719.pc $(DESTDIR)$(BINDIR)/g719

command: $(LIBRARY)
	@command -v cargo >/dev/null || { echo "cargo is missing: Debian 13's package cargo brings it" >&2; exit 1; }
	cd rust && cargo build --release --offline --target-dir target -p g719-command

install-command: command
	install -d $(DESTDIR)$(BINDIR)
	install -m 755 $(binary) $(DESTDIR)$(BINDIR)/g719

clean:
	rm -rf $(made)

FORCE:
