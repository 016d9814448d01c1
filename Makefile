# The library for C programs, the technician's tool and the program dm: built, and installed where other programs find them.
#
#     make                                    the archive, the shared object, the pkg-config file, the tool and the program dm
#     make install [PREFIX=..] [DESTDIR=..]    these and the header; PREFIX is /usr/local if not said
#     make uninstall [PREFIX=..] [DESTDIR=..]
#     make test                               the Rust and C tests
#
# What is proved is built by `rt`, which proves it first; the tool is built by cargo. Nothing here needs a network.

PREFIX ?= /usr/local
BINDIR ?= $(PREFIX)/bin
LIBDIR ?= $(PREFIX)/lib
LIBEXECDIR ?= $(PREFIX)/libexec
INCLUDEDIR ?= $(PREFIX)/include
CC ?= cc
INSTALL ?= install

# The header has the version; everything else takes it from there.
HEADER := include/zvaigulta.h
part = $(shell sed -n 's/^\#define ZV_VERSION_$(1) //p' $(HEADER))
MAJOR := $(call part,MAJOR)
VERSION := $(MAJOR).$(call part,MINOR).$(call part,PATCH)
SONAME := libzvaigulta.so.$(MAJOR)
SHARED := libzvaigulta.so.$(VERSION)

# What is made, and where. ARCHIVE and DM are rt's, TOOL is cargo's. With SOURCES empty they are made only where they are missing. What rt makes, in the
# folders out, is no source.
BUILD ?= target/make
ARCHIVE ?= crates/c_interface/out/libc_interface.a
DM ?= crates/dm/out/dm
TOOL ?= rust/target/release/dmtool
SOURCES ?= crates.txt $(shell find crates -name out -prune -o -name '*.rt' -print -o -name '*.antt' -print)
TOOL_SOURCES ?= $(shell find rust/zvaigulta rust/dmtool -name '*.rs' -o -name 'Cargo.toml')
LIBRARY := $(BUILD)/libzvaigulta.a $(BUILD)/$(SHARED) $(BUILD)/zvaigulta.pc

.PHONY: all library test install install-library install-programs uninstall
# One rt at a time: each builds the crates below.
.NOTPARALLEL:
.DELETE_ON_ERROR:

all: library $(TOOL) $(DM)

library: $(LIBRARY)

$(ARCHIVE): $(SOURCES)
	cd crates/c_interface && rt lib
	touch $@

# rt runs what it built, here on the example.
$(DM): $(SOURCES)
	cd crates/dm && rt run <stdin
	touch $@

$(TOOL): $(ARCHIVE) $(TOOL_SOURCES)
	cd rust && cargo build --release --offline -p dmtool
	touch $@

$(BUILD)/libzvaigulta.a: $(ARCHIVE)
	mkdir -p $(BUILD)
	cp $(ARCHIVE) $@

# Only the calls of the header are to be seen from outside.
$(BUILD)/$(SHARED): $(ARCHIVE) $(HEADER) Makefile
	mkdir -p $(BUILD)
	echo '{ global: zv_*; local: *; };' >$(BUILD)/zvaigulta.map
	$(CC) -shared -Wl,-soname,$(SONAME) -Wl,--version-script=$(BUILD)/zvaigulta.map -Wl,-z,defs -Wl,-z,relro -Wl,-z,now \
		-Wl,--whole-archive $(ARCHIVE) -Wl,--no-whole-archive -o $@

# Made anew each time, since it holds the folders of this installation.
.PHONY: $(BUILD)/zvaigulta.pc
$(BUILD)/zvaigulta.pc:
	mkdir -p $(BUILD)
	{ echo 'prefix=$(PREFIX)'; echo 'libdir=$(LIBDIR)'; echo 'includedir=$(INCLUDEDIR)'; echo; \
	  echo 'Name: zvaigulta'; \
	  echo "Description: Japan's digital mapping files, judged, read and edited by a proved library"; \
	  echo 'Version: $(VERSION)'; echo 'Libs: -L$${libdir} -lzvaigulta'; echo 'Cflags: -I$${includedir}'; } >$@

test:
	cd rust && cargo test --release --offline --workspace -- --include-ignored

install: install-library install-programs

install-library: $(LIBRARY)
	$(INSTALL) -d $(DESTDIR)$(LIBDIR)/pkgconfig $(DESTDIR)$(INCLUDEDIR)
	$(INSTALL) -m 644 $(HEADER) $(DESTDIR)$(INCLUDEDIR)/zvaigulta.h
	$(INSTALL) -m 644 $(BUILD)/libzvaigulta.a $(DESTDIR)$(LIBDIR)/libzvaigulta.a
	$(INSTALL) -m 755 $(BUILD)/$(SHARED) $(DESTDIR)$(LIBDIR)/$(SHARED)
	ln -sf $(SHARED) $(DESTDIR)$(LIBDIR)/$(SONAME)
	ln -sf $(SONAME) $(DESTDIR)$(LIBDIR)/libzvaigulta.so
	$(INSTALL) -m 644 $(BUILD)/zvaigulta.pc $(DESTDIR)$(LIBDIR)/pkgconfig/zvaigulta.pc

# The program reads standard input; the script dm hands it a file and gives it an exit status. The installed script knows where the program
# stands, and does not build it anew.
install-programs: $(TOOL) $(DM)
	$(INSTALL) -d $(DESTDIR)$(BINDIR) $(DESTDIR)$(LIBEXECDIR)/zvaigulta
	$(INSTALL) -m 755 $(TOOL) $(DESTDIR)$(BINDIR)/dmtool
	$(INSTALL) -m 755 $(DM) $(DESTDIR)$(LIBEXECDIR)/zvaigulta/dm
	sed -e 's|^program=.*|program=$(LIBEXECDIR)/zvaigulta/dm|' -e '/^\# building starts/,/^\# building ends/d' dm >$(DESTDIR)$(BINDIR)/dm
	chmod 755 $(DESTDIR)$(BINDIR)/dm

uninstall:
	rm -f $(DESTDIR)$(INCLUDEDIR)/zvaigulta.h $(DESTDIR)$(LIBDIR)/libzvaigulta.a $(DESTDIR)$(LIBDIR)/pkgconfig/zvaigulta.pc
	rm -f $(DESTDIR)$(LIBDIR)/libzvaigulta.so $(DESTDIR)$(LIBDIR)/$(SONAME) $(DESTDIR)$(LIBDIR)/libzvaigulta.so.$(MAJOR).*
	rm -f $(DESTDIR)$(BINDIR)/dmtool $(DESTDIR)$(BINDIR)/dm $(DESTDIR)$(LIBEXECDIR)/zvaigulta/dm
	if [ -d $(DESTDIR)$(LIBEXECDIR)/zvaigulta ]; then rmdir $(DESTDIR)$(LIBEXECDIR)/zvaigulta; fi
