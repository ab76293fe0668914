# Builds and installs what users of Balogwisu need: the library and its header, the programs, their manual pages, examples.
#
#   make              proves and builds the library (archive and shared) and the programs; does nothing where nothing changed
#   make NATIVE=1     the same with the library compiled for the processor at hand (MARCH=name: for another of its family), in the place of
#                     plain x86-64, or on Arm of plain armv8-a: tools/native-object tells what these are
#   make check        every test of the project
#   make install      copies what was built, and builds first what changed (NATIVE and MARCH as for make)
#   make uninstall    removes what install copied
#   make clean        removes what was built
#
# Needs the Rattle kit (rt on the PATH) and a C compiler for the shared library. PREFIX, BINDIR, LIBDIR, INCLUDEDIR, MANDIR and DOCDIR
# say where it will be used, DESTDIR where that is staged. The programs `mend` and `mends` are installed as balogwisu-mend and
# balogwisu-mends, since the short names are too general for a system. The kit links programs for x86-64 alone, so on Arm they are left
# out; there tools/load runs what tools/program builds.
VERSION := $(shell sed -n 's/^.define SHELF_VERSION "\(.*\)"$$/\1/p' c/shelf.h)
SONAME = libshelf.so.0
PREFIX = /usr/local
BINDIR = $(PREFIX)/bin
LIBDIR = $(PREFIX)/lib
INCLUDEDIR = $(PREFIX)/include
MANDIR = $(PREFIX)/share/man
DOCDIR = $(PREFIX)/share/doc/balogwisu
INSTALL = install

# what a proof and a build depend on
SOURCES := crates.txt $(shell find crates -type f \( -path '*/src/*' -o -path '*/specs/*' -o -path '*/proofs/*' \))
ifeq ($(shell uname -m),aarch64)
PROGRAMS =
OUT = target/$(if $(NATIVE),native,aarch64)
else
PROGRAMS = mend mends
OUT = target/$(if $(NATIVE),native,staticlib)
endif
ARCHIVE = $(OUT)/libshelf.a
SHARED = $(OUT)/$(SONAME)
PAGES = target/pages

all: $(ARCHIVE) $(SHARED) $(PROGRAMS:%=target/bin/%)

check:
	tools/test

target/staticlib/libshelf.a: $(SOURCES) tools/archive tools/kit.py
	tools/archive
	touch $@

# where the archive that tools/archive writes, of plain x86-64, is not the one: the folder is the option
target/native/libshelf.a target/aarch64/libshelf.a: target/%/libshelf.a: $(SOURCES) tools/native-object
	mkdir -p $(@D)
	tools/native-object --$* shelf_c $(@D)/shelf.o
	rm -f $@
	ar rcs $@ $(@D)/shelf.o
	echo '$(MARCH)' >$(@D)/march

# another MARCH is a change
ifneq ($(MARCH),$(shell cat target/native/march 2>/dev/null))
target/native/libshelf.a: always
endif

$(SHARED): $(ARCHIVE)
	$(CC) -shared -Wl,-soname,$(SONAME) -Wl,--whole-archive $(ARCHIVE) -Wl,--no-whole-archive -o $@

target/bin/%: $(SOURCES)
	tools/program $*
	mkdir -p $(@D)
	cp crates/$*/out/$* $@

# the pages of section 1 with the version in them, and the header as a page of section 3
$(PAGES)/done: docs/mend.1 docs/mends.1 c/shelf.h tools/header-page
	mkdir -p $(PAGES)
	sed 's|@VERSION@|$(VERSION)|' docs/mend.1 >$(PAGES)/balogwisu-mend.1
	sed 's|@VERSION@|$(VERSION)|' docs/mends.1 >$(PAGES)/balogwisu-mends.1
	tools/header-page >$(PAGES)/shelf.3
	touch $@

install: all $(PAGES)/done
	sed -e 's|@PREFIX@|$(PREFIX)|' -e 's|@INCLUDEDIR@|$(INCLUDEDIR)|' -e 's|@LIBDIR@|$(LIBDIR)|' -e 's|@VERSION@|$(VERSION)|' \
		balogwisu.pc.in >target/balogwisu.pc
	$(INSTALL) -d '$(DESTDIR)$(BINDIR)' '$(DESTDIR)$(LIBDIR)/pkgconfig' '$(DESTDIR)$(INCLUDEDIR)' '$(DESTDIR)$(MANDIR)/man1' \
		'$(DESTDIR)$(MANDIR)/man3' '$(DESTDIR)$(DOCDIR)/examples' '$(DESTDIR)$(DOCDIR)/pictures'
	for program in $(PROGRAMS); do \
		$(INSTALL) -m 755 target/bin/$$program '$(DESTDIR)$(BINDIR)/balogwisu-'$$program && \
		$(INSTALL) -m 644 $(PAGES)/balogwisu-$$program.1 '$(DESTDIR)$(MANDIR)/man1/' || exit; \
	done
	$(INSTALL) -m 644 $(ARCHIVE) '$(DESTDIR)$(LIBDIR)/libshelf.a'
	$(INSTALL) -m 755 $(SHARED) '$(DESTDIR)$(LIBDIR)/$(SONAME)'
	ln -sf $(SONAME) '$(DESTDIR)$(LIBDIR)/libshelf.so'
	$(INSTALL) -m 644 target/balogwisu.pc '$(DESTDIR)$(LIBDIR)/pkgconfig/balogwisu.pc'
	$(INSTALL) -m 644 c/shelf.h '$(DESTDIR)$(INCLUDEDIR)/shelf.h'
	$(INSTALL) -m 644 $(PAGES)/shelf.3 '$(DESTDIR)$(MANDIR)/man3/'
	$(INSTALL) -m 644 LICENSE docs/CODES.md '$(DESTDIR)$(DOCDIR)/'
	$(INSTALL) -m 644 docs/pictures/*.svg '$(DESTDIR)$(DOCDIR)/pictures/'
	$(INSTALL) -m 644 c/fold_month.c c/fold_halves.c c/fold_files.c '$(DESTDIR)$(DOCDIR)/examples/'

uninstall:
	rm -f '$(DESTDIR)$(BINDIR)/balogwisu-mend' '$(DESTDIR)$(BINDIR)/balogwisu-mends' '$(DESTDIR)$(LIBDIR)/libshelf.a' \
		'$(DESTDIR)$(LIBDIR)/$(SONAME)' '$(DESTDIR)$(LIBDIR)/libshelf.so' '$(DESTDIR)$(LIBDIR)/pkgconfig/balogwisu.pc' \
		'$(DESTDIR)$(INCLUDEDIR)/shelf.h' '$(DESTDIR)$(MANDIR)/man1/balogwisu-mend.1' '$(DESTDIR)$(MANDIR)/man1/balogwisu-mends.1' \
		'$(DESTDIR)$(MANDIR)/man3/shelf.3'
	rm -rf '$(DESTDIR)$(DOCDIR)'

clean:
	rm -rf target crates/*/out

.PHONY: all check install uninstall clean always
.NOTPARALLEL: # rt shares out a check itself, and one of it waits for another in the same crate
