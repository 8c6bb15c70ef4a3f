# Builds and installs the command, the programs, the library, its header and the manual page.
#
#   make                            proves and builds what is missing or older than its sources
#   make install PREFIX=/usr/local  installs it; DESTDIR=.. before that, for a package
#   make uninstall                  takes away what install brought
#
# The programs get arvumnao- before their names, since router, picture and load are anybody's words; the library is called libarvumnao.a.
# Where the variable ARVUMNAO_LIB_DIR names a folder, the library that stands there is taken.

PREFIX = /usr/local
DESTDIR =
BINDIR = $(PREFIX)/bin
LIBDIR = $(PREFIX)/lib
INCLUDEDIR = $(PREFIX)/include
MANDIR = $(PREFIX)/share/man
INSTALL = install

PROGRAMS = router picture load
LIBRARY = $(or $(ARVUMNAO_LIB_DIR),target/staticlib)/libcapi.a
COMMAND = rust/arvumnao-cli/target/release/arvumnao
VERSION := $(shell sed -n 's/^version = "\(.*\)"/\1/p' rust/arvumnao-cli/Cargo.toml)
SOURCES := $(shell find crates -name '*.rt' -o -name '*.antt')
RUST := $(shell find rust -path '*/target' -prune -o -type f -print)

all: $(COMMAND) $(PROGRAMS:%=target/bin/%) $(LIBRARY)

# `tools/build capi` proves its crates each time it is called, so it is called only where a source is newer than the library.
target/staticlib/libcapi.a: $(SOURCES)
	tools/build capi

target/bin/%: $(SOURCES)
	tools/build $*
	touch $@

$(COMMAND): $(RUST) $(LIBRARY)
	cd rust/arvumnao-cli && cargo build --release --offline
	touch $@

install: all
	$(INSTALL) -d '$(DESTDIR)$(BINDIR)' '$(DESTDIR)$(LIBDIR)/pkgconfig' '$(DESTDIR)$(INCLUDEDIR)' '$(DESTDIR)$(MANDIR)/man1'
	$(INSTALL) -m 755 $(COMMAND) '$(DESTDIR)$(BINDIR)/arvumnao'
	for program in $(PROGRAMS); do \
	    $(INSTALL) -m 755 target/bin/$$program '$(DESTDIR)$(BINDIR)'/arvumnao-$$program || exit 1; \
	done
	$(INSTALL) -m 644 $(LIBRARY) '$(DESTDIR)$(LIBDIR)/libarvumnao.a'
	$(INSTALL) -m 644 include/arvumnao.h '$(DESTDIR)$(INCLUDEDIR)/arvumnao.h'
	$(INSTALL) -m 644 rust/arvumnao-cli/arvumnao.1 '$(DESTDIR)$(MANDIR)/man1/arvumnao.1'
	printf '%s\n' 'prefix=$(PREFIX)' 'libdir=$(LIBDIR)' 'includedir=$(INCLUDEDIR)' '' 'Name: arvumnao' \
	    'Description: A proved router for a programmable logic block' 'Version: $(VERSION)' \
	    'Libs: -L$${libdir} -larvumnao' 'Cflags: -I$${includedir}' >'$(DESTDIR)$(LIBDIR)/pkgconfig/arvumnao.pc'

uninstall:
	rm -f '$(DESTDIR)$(BINDIR)/arvumnao' $(PROGRAMS:%='$(DESTDIR)$(BINDIR)/arvumnao-%') '$(DESTDIR)$(LIBDIR)/libarvumnao.a' \
	    '$(DESTDIR)$(LIBDIR)/pkgconfig/arvumnao.pc' '$(DESTDIR)$(INCLUDEDIR)/arvumnao.h' '$(DESTDIR)$(MANDIR)/man1/arvumnao.1'

.PHONY: all install uninstall
