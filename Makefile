# Builds and installs the library for C; `make help` says how. Nothing that is proved is proved again: the sources' checksums decide.
PREFIX = /usr/local
LIBDIR = $(PREFIX)/lib
INCLUDEDIR = $(PREFIX)/include
DESTDIR =
INSTALL = install

VERSION := $(shell sed -n 's/^.define SAVUNECO_VERSION "\([0-9.]*\)".*/\1/p' include/savuneco.h)
MAJOR := $(firstword $(subst ., ,$(VERSION)))

all:
	@scripts/build-library

help:
	@echo 'make all        proves the library where that has not been done, and builds it into target/lib'
	@echo 'make install    installs header, archive, shared object and pkg-config file: PREFIX=$(PREFIX), DESTDIR=$(DESTDIR),'
	@echo '                LIBDIR=$(LIBDIR), INCLUDEDIR=$(INCLUDEDIR)'
	@echo 'make check      holds the header and the papers to the tree, and tests the library through its examples'

install: all
	$(INSTALL) -d "$(DESTDIR)$(INCLUDEDIR)" "$(DESTDIR)$(LIBDIR)/pkgconfig"
	$(INSTALL) -m 644 include/savuneco.h "$(DESTDIR)$(INCLUDEDIR)/"
	$(INSTALL) -m 644 target/lib/libsavuneco.a "$(DESTDIR)$(LIBDIR)/"
	$(INSTALL) -m 755 target/lib/libsavuneco.so.$(VERSION) "$(DESTDIR)$(LIBDIR)/"
	ln -sf libsavuneco.so.$(VERSION) "$(DESTDIR)$(LIBDIR)/libsavuneco.so.$(MAJOR)"
	ln -sf libsavuneco.so.$(MAJOR) "$(DESTDIR)$(LIBDIR)/libsavuneco.so"
	sed -e 's|@PREFIX@|$(PREFIX)|' -e 's|@LIBDIR@|$(LIBDIR)|' -e 's|@INCLUDEDIR@|$(INCLUDEDIR)|' -e 's|@VERSION@|$(VERSION)|' \
	    scripts/savuneco.pc.in >"$(DESTDIR)$(LIBDIR)/pkgconfig/savuneco.pc"
	chmod 644 "$(DESTDIR)$(LIBDIR)/pkgconfig/savuneco.pc"

check:
	include/check
	docs/check
	examples/run

.PHONY: all help install check
