# Builds, installs and removes what users of the library get: header, archive, shared library, command and man pages.
#
#   make              builds it under BUILD
#   make command      builds the command alone, BUILD/rota
#   make install      to PREFIX; DESTDIR is put before every path, to make a package
#   make uninstall    removes the files of make install with the same PREFIX and DESTDIR; folders stay
#   make check        tests what would be installed, and the Python module
#   make clean        removes what was made under BUILD
#
# LIBRARY is the folder of librota.a. CC, CPPFLAGS, CFLAGS and LDFLAGS are as ever; with other ones take another BUILD, or make clean first:
#
#   make BUILD=target/sanitized CFLAGS='-g -O1 -fsanitize=address,undefined -fno-sanitize-recover=all' command

LIBRARY ?= target/staticlib
BUILD ?= target/product
CFLAGS ?= -O2 -Wall -Wextra

PREFIX ?= /usr/local
BINDIR ?= $(PREFIX)/bin
LIBDIR ?= $(PREFIX)/lib
INCLUDEDIR ?= $(PREFIX)/include
MANDIR ?= $(PREFIX)/share/man
PKGCONFIGDIR ?= $(LIBDIR)/pkgconfig

# The interface is the binary one: it rises when a program that was linked before would not run right any more.
INTERFACE := 1
VERSION := $(shell awk '$$2 ~ /^ROTA_VERSION_(MAJOR|MINOR|PATCH)$$/ {printf "%s%s", point, $$3; point = "."}' include/rota.h)

ARCHIVE := $(LIBRARY)/librota.a
SONAME := librota.so.$(INTERFACE)
SHARED := $(SONAME).$(VERSION)
OBJECTS := $(patsubst command/%.c,$(BUILD)/objects/%.o,$(wildcard command/*.c))
SECTIONS := 1 3 5

.PHONY: all command install uninstall check clean
.DELETE_ON_ERROR:
.SUFFIXES:
SHELL := bash
.SHELLFLAGS := -eo pipefail -c

# The folders stand in rules, in words of a shell and in rota.pc, and not all three can take these. DESTDIR may have blanks and quotes.
ODD := ' " \ $$ \# & | ; %
FOLDERS := PREFIX BINDIR LIBDIR INCLUDEDIR MANDIR PKGCONFIGDIR
odd = $(strip $(filter-out 1,$(words .$(1).)) $(foreach mark,$(ODD),$(findstring $(mark),$(1))))
$(foreach name,BUILD LIBRARY,$(if $($(name)),,$(error $(name) is empty)))
$(foreach name,BUILD LIBRARY $(FOLDERS),$(if $(call odd,$($(name))),$(error $(name) is '$($(name))': no blank and none of $(ODD) may stand in it)))
$(foreach name,$(FOLDERS),$(if $(filter-out /%,$($(name))),$(error $(name) is '$($(name))': it must begin with /)))

all: $(BUILD)/$(SHARED) command $(SECTIONS:%=$(BUILD)/pages/rota.%)

command: $(BUILD)/rota

# Made if it is missing. Whether it is up to date is for tools/staticlib to say.
target/staticlib/librota.a:
	tools/staticlib

# The two short names are further names of the same file, since rt ci refuses symbolic links in a checkout. Installed they are links.
$(BUILD)/$(SHARED): $(ARCHIVE) install/rota.map
	@mkdir -p $(@D)
	$(CC) -shared $(LDFLAGS) -Wl,-soname,$(SONAME) -Wl,--version-script,install/rota.map -Wl,-z,defs,-z,text,-z,relro,-z,now,-z,noexecstack \
		-Wl,--whole-archive $(ARCHIVE) -Wl,--no-whole-archive -o $@
	ln -f $(@D)/$(SHARED) $(@D)/$(SONAME)
	ln -f $(@D)/$(SHARED) $(@D)/librota.so

$(BUILD)/rota: $(OBJECTS) $(ARCHIVE)
	$(CC) $(CFLAGS) $(LDFLAGS) $^ -o $@

$(BUILD)/objects/%.o: command/%.c
	@mkdir -p $(@D)
	$(CC) -std=c11 -D_POSIX_C_SOURCE=200809L -Iinclude $(CPPFLAGS) $(CFLAGS) -MMD -MP -c $< -o $@

-include $(OBJECTS:.o=.d)

$(BUILD)/pages/%: man/% include/rota.h
	@mkdir -p $(@D)
	sed 's/@VERSION@/$(VERSION)/' $< >$@

# A path under DESTDIR, as one word of the shell.
at = '$(subst ','\'',$(DESTDIR))$(1)'
# A folder as rota.pc has it: seen from prefix, if it stands below.
seen = $(patsubst $(PREFIX)/%,$${prefix}/%,$(1))

install: all
	umask 022 && mkdir -p $(foreach folder,$(BINDIR) $(LIBDIR) $(INCLUDEDIR) $(PKGCONFIGDIR) $(SECTIONS:%=$(MANDIR)/man%),$(call at,$(folder)))
	install -m 644 include/rota.h $(call at,$(INCLUDEDIR)/rota.h)
	install -m 644 $(ARCHIVE) $(call at,$(LIBDIR)/librota.a)
	install -m 755 $(BUILD)/$(SHARED) $(call at,$(LIBDIR)/$(SHARED))
	ln -sf $(SHARED) $(call at,$(LIBDIR)/$(SONAME))
	ln -sf $(SONAME) $(call at,$(LIBDIR)/librota.so)
	sed 's|@PREFIX@|$(PREFIX)|; s|@LIBDIR@|$(call seen,$(LIBDIR))|; s|@INCLUDEDIR@|$(call seen,$(INCLUDEDIR))|; s|@VERSION@|$(VERSION)|' \
		install/rota.pc.in | install -m 644 /dev/stdin $(call at,$(PKGCONFIGDIR)/rota.pc)
	install -m 755 $(BUILD)/rota $(call at,$(BINDIR)/rota)
	for section in $(SECTIONS); do install -m 644 $(BUILD)/pages/rota.$$section $(call at,$(MANDIR))/man$$section/rota.$$section; done

uninstall:
	rm -f $(foreach file,$(BINDIR)/rota $(INCLUDEDIR)/rota.h $(PKGCONFIGDIR)/rota.pc $(addprefix $(LIBDIR)/,librota.a $(SHARED) $(SONAME) librota.so) \
		$(foreach section,$(SECTIONS),$(MANDIR)/man$(section)/rota.$(section)),$(call at,$(file)))

# The tests have flags of their own: what this make was given does not go to theirs by itself.
MAKEOVERRIDES :=
check: all
	@$(MAKE) -C tests LIBRARY=$(abspath $(LIBRARY)) PRODUCT=$(abspath $(BUILD)) BUILD=$(abspath $(BUILD))/tested command install python

clean:
	rm -rf $(BUILD)/objects $(BUILD)/pages $(BUILD)/tested $(BUILD)/rota $(BUILD)/librota.so*
