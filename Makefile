# Builds and installs the captions library for C and the command `captions`. GNU make.
#
#   make             the static library (proved first if need be), the shared library and the command
#   make install     both libraries, the header, captions.pc, the command, its manual page and its bash completion
#   make uninstall   takes them away again; folders stay
#   make clean       takes away what make itself built, in target/install
#
# Variables, as in `make install PREFIX=/opt/captions DESTDIR=stage`:
#
#   PREFIX           where it is to live: /usr/local
#   DESTDIR          goes in front of every place, for packages: empty
#   BINDIR LIBDIR INCLUDEDIR MANDIR COMPLETIONDIR   below PREFIX
#   CC CARGO INSTALL the programs of these names; LDFLAGS goes to CC
#   CAPTIONS_LIB_DIR a folder that has libcaptions.a, which is not made then; a relative one counts from rust/captions, as for cargo
#   STATICLIB, COMMAND   the static library and the command, where they are built already: with both, cargo does not run
# Where LIBDIR is a folder of the system's loader, run ldconfig afterwards.

PREFIX ?= /usr/local
BINDIR ?= $(PREFIX)/bin
LIBDIR ?= $(PREFIX)/lib
INCLUDEDIR ?= $(PREFIX)/include
MANDIR ?= $(PREFIX)/share/man
COMPLETIONDIR ?= $(PREFIX)/share/bash-completion/completions
CARGO ?= cargo
INSTALL ?= install

BUILT := target/install
PROVED := target/staticlib/libcaptions.a
COMMAND = $(BUILT)/captions
STATICLIB = $(if $(CAPTIONS_LIB_DIR),$(if $(filter /%,$(firstword $(CAPTIONS_LIB_DIR))),,rust/captions/)$(CAPTIONS_LIB_DIR)/libcaptions.a,$(PROVED))
VERSION := $(shell sed -n 's/^.define CAPTIONS_VERSION "\(.*\)"/\1/p' include/captions.h)
$(if $(VERSION),,$(error include/captions.h has no CAPTIONS_VERSION))
SHARED := libcaptions.so.$(VERSION)
# Before version 1 a minor version may change the interface.
SONAME := libcaptions.so.$(basename $(VERSION))

# A word for the shell; a place to install to; a folder as captions.pc has it; sed's command for a name and what it stands for.
q = '$(subst ','\'',$(1))'
to = $(call q,$(DESTDIR)$(1))
below = $(if $(findstring <$(PREFIX)/,<$(1)),$(subst <$(PREFIX)/,$${prefix}/,<$(1)),$(1))
put = -e $(call q,s|@$(1)@|$(subst |,\|,$(subst &,\&,$(subst \,\\,$(2))))|)
data = $(INSTALL) -D -m 644
cargo = $(CARGO) build --offline --release --manifest-path rust/Cargo.toml --target-dir rust/target

.PHONY: all install uninstall clean FORCE
all: $(BUILT)/$(SHARED) $(filter $(BUILT)/captions,$(COMMAND))

# Cargo makes the static library, if it is missing or older than its sources, before it builds the crate.
$(PROVED): $(shell find crates crates.txt -name out -prune -o \( -name '*.rt' -o -name '*.antt' -o -name '*.txt' \) -print)
	$(cargo) -p captions
$(BUILT)/captions: $(if $(CAPTIONS_LIB_DIR),FORCE,$(PROVED)) $(shell find rust/Cargo.* rust/captions rust/command/[!t]* -type f)
	$(cargo) -p captions_command
	$(INSTALL) -D rust/target/release/captions $@
# The shared one is linked each time, since STATICLIB may be another than before.
$(BUILT)/$(SHARED): FORCE $(filter $(PROVED),$(STATICLIB))
	$(INSTALL) -d $(BUILT) && echo '{ global: captions_*; local: *; };' > $(BUILT)/captions.map
	$(CC) $(LDFLAGS) -shared -Wl,-soname,$(SONAME) -Wl,--version-script=$(BUILT)/captions.map -Wl,-z,defs -Wl,-z,relro,-z,now \
	    -Wl,--whole-archive $(call q,$(STATICLIB)) -Wl,--no-whole-archive -o $@

install: all
	$(if $(filter /%,$(firstword $(PREFIX))),,$(error PREFIX is $(PREFIX), and has to begin with /))
	sed $(call put,version,$(VERSION)) install/captions.1 > $(BUILT)/captions.1
	sed $(call put,version,$(VERSION)) $(call put,prefix,$(PREFIX)) $(call put,libdir,$(call below,$(LIBDIR))) \
	    $(call put,includedir,$(call below,$(INCLUDEDIR))) install/captions.pc.in > $(BUILT)/captions.pc
	$(data) include/captions.h $(call to,$(INCLUDEDIR)/captions.h)
	$(data) $(call q,$(STATICLIB)) $(call to,$(LIBDIR)/libcaptions.a)
	$(data) $(BUILT)/$(SHARED) $(call to,$(LIBDIR)/$(SHARED))
	ln -sf $(SHARED) $(call to,$(LIBDIR)/$(SONAME))
	ln -sf $(SHARED) $(call to,$(LIBDIR)/libcaptions.so)
	$(data) $(BUILT)/captions.pc $(call to,$(LIBDIR)/pkgconfig/captions.pc)
	$(INSTALL) -D $(call q,$(COMMAND)) $(call to,$(BINDIR)/captions)
	$(data) $(BUILT)/captions.1 $(call to,$(MANDIR)/man1/captions.1)
	$(data) install/captions.bash $(call to,$(COMPLETIONDIR)/captions)

uninstall:
	rm -f $(foreach lib,libcaptions.a $(SHARED) $(SONAME) libcaptions.so pkgconfig/captions.pc,$(call to,$(LIBDIR)/$(lib))) \
	    $(call to,$(INCLUDEDIR)/captions.h) $(call to,$(BINDIR)/captions) $(call to,$(MANDIR)/man1/captions.1) $(call to,$(COMPLETIONDIR)/captions)
clean:; rm -rf $(BUILT)
