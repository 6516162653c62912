# The library for C and Rust as other programs get it.
#
#   make                         proves the library and writes the archive
#   make install PREFIX=/usr     header, archive, pkg-config file, licence and Rust crate, below PREFIX (and DESTDIR before it)
#   make uninstall PREFIX=/usr   what install installed
#
# It wants the Rattle kit (rt) to prove and compile; with ARCHIVE=FILE a proved archive is installed as it is.
PREFIX ?= /usr/local
ARCHIVE ?= target/staticlib/libvosemaqe.a
includedir = $(PREFIX)/include
libdir = $(PREFIX)/lib
docdir = $(PREFIX)/share/doc/vosemaqe
rustdir = $(PREFIX)/share/vosemaqe/rust
# the header's number as major.minor.patch
VERSION := $(shell awk '$$2 == "VOSEMAQE_VERSION" { v = $$3; print int(v / 10000) "." int(v / 100) % 100 "." v % 100 }' include/vosemaqe.h)

all: $(ARCHIVE)

target/staticlib/libvosemaqe.a: FORCE
	tools/build.sh

install: $(ARCHIVE)
	install -d $(DESTDIR)$(includedir) $(DESTDIR)$(libdir)/pkgconfig $(DESTDIR)$(docdir) $(DESTDIR)$(rustdir)/src
	install -m 644 include/vosemaqe.h $(DESTDIR)$(includedir)/
	install -m 644 $(ARCHIVE) $(DESTDIR)$(libdir)/libvosemaqe.a
	sed -e 's|@PREFIX@|$(PREFIX)|' -e 's|@VERSION@|$(VERSION)|' include/vosemaqe.pc.in >$(DESTDIR)$(libdir)/pkgconfig/vosemaqe.pc
	install -m 644 LICENSE NOTICE CHANGELOG.md $(DESTDIR)$(docdir)/
	install -m 644 bindings/rust/Cargo.toml bindings/rust/Cargo.lock bindings/rust/build.rs $(DESTDIR)$(rustdir)/
	install -m 644 bindings/rust/src/*.rs $(DESTDIR)$(rustdir)/src/

uninstall:
	rm -f $(DESTDIR)$(includedir)/vosemaqe.h $(DESTDIR)$(libdir)/libvosemaqe.a $(DESTDIR)$(libdir)/pkgconfig/vosemaqe.pc
	rm -rf $(DESTDIR)$(docdir) $(DESTDIR)$(PREFIX)/share/vosemaqe

.PHONY: all install uninstall FORCE
