# Builds the library for C by Cargo (Rust 1.85 or later), and installs it on Linux.
#
#     make                             builds the static and the shared library
#     make install PREFIX=/usr/local   installs the header, both libraries, and the files for pkg-config and CMake
#     make uninstall PREFIX=..         removes them
#     make package                     writes src and rust/c/src, of which Cargo builds, from the proved sources
#
# DESTDIR is a folder that a package is made in: files are installed below it, and none of them names it. LIBDIR is the
# folder of the libraries, $(PREFIX)/lib. STATIC is the static library that is installed. It may be the one that
# `rt lib` builds, crates/fixed_c/out/libfixed_c.a.
PREFIX ?= /usr/local
LIBDIR ?= $(abspath $(PREFIX))/lib
INCLUDEDIR ?= $(abspath $(PREFIX))/include/fixed_c
CARGO ?= cargo
INSTALL ?= install

ifneq ($(words $(DESTDIR)$(LIBDIR)$(INCLUDEDIR)),1)
$(error the name of a folder has a space)
endif

VERSION := $(shell sed -n 's/^version = "\(.*\)"/\1/p' rust/c/Cargo.toml)
# Before version 1, a minor version may change the binary interface. So the soname names it: 0.2 of 0.2.0.
SONAME := libfixed_c.so.$(basename $(VERSION))

# `cargo build` writes libraries of the same names without a soname, so these are in a folder of their own.
BUILT := rust/c/target/install
CARGO_STATIC := $(BUILT)/release/libfixed_c.a
STATIC ?= $(CARGO_STATIC)
SHARED := $(BUILT)/release/libfixed_c.so
SOURCES := $(wildcard src/*.rs src/*/*.rs rust/c/src/*.rs rust/c/src/*/*.rs) Cargo.toml rust/c/Cargo.toml

# What the static library needs beside what a C compiler links, as `rustc --print native-static-libs` lists it.
STATIC_NEEDS := -lutil -lrt -lpthread -lm -ldl

CONFIGS := $(LIBDIR)/cmake/fixed_c
INSTALLED := $(INCLUDEDIR)/fixed.h $(LIBDIR)/libfixed_c.a $(LIBDIR)/libfixed_c.so $(LIBDIR)/$(SONAME) \
	$(LIBDIR)/libfixed_c.so.$(VERSION) $(LIBDIR)/pkgconfig/fixed_c.pc $(CONFIGS)/fixed_c-config.cmake \
	$(CONFIGS)/fixed_c-config-version.cmake
FILLED := sed -e 's|@VERSION@|$(VERSION)|' -e 's|@SONAME@|$(SONAME)|' -e 's|@LIBDIR@|$(LIBDIR)|' \
	-e 's|@INCLUDEDIR@|$(INCLUDEDIR)|' -e 's|@STATIC_NEEDS@|$(STATIC_NEEDS)|'

.PHONY: all install uninstall package

all: $(CARGO_STATIC) $(SHARED)

$(CARGO_STATIC): $(SOURCES)
	$(CARGO) rustc --release --offline --manifest-path rust/c/Cargo.toml --target-dir $(BUILT) -- \
		-C link-arg=-Wl,-soname,$(SONAME)
	touch $@

$(SHARED): $(CARGO_STATIC) ;

install: $(STATIC) $(SHARED)
	$(INSTALL) -d $(DESTDIR)$(INCLUDEDIR) $(DESTDIR)$(LIBDIR)/pkgconfig $(DESTDIR)$(CONFIGS)
	$(INSTALL) -m 644 include/fixed.h $(DESTDIR)$(INCLUDEDIR)/fixed.h
	$(INSTALL) -m 644 $(STATIC) $(DESTDIR)$(LIBDIR)/libfixed_c.a
	$(INSTALL) -m 755 $(SHARED) $(DESTDIR)$(LIBDIR)/libfixed_c.so.$(VERSION)
	ln -sf libfixed_c.so.$(VERSION) $(DESTDIR)$(LIBDIR)/$(SONAME)
	ln -sf $(SONAME) $(DESTDIR)$(LIBDIR)/libfixed_c.so
	$(FILLED) rust/c/fixed_c.pc.in >$(DESTDIR)$(LIBDIR)/pkgconfig/fixed_c.pc
	$(FILLED) rust/c/fixed_c-config.cmake.in >$(DESTDIR)$(CONFIGS)/fixed_c-config.cmake
	$(FILLED) rust/c/fixed_c-config-version.cmake.in >$(DESTDIR)$(CONFIGS)/fixed_c-config-version.cmake

uninstall:
	rm -f $(addprefix $(DESTDIR),$(INSTALLED))
	-rmdir $(DESTDIR)$(INCLUDEDIR) $(DESTDIR)$(CONFIGS)

package:
	$(CARGO) run --quiet --offline --manifest-path rust/script/Cargo.toml
