# Installing: header, archive, shared library, pkg-config's file, CMake package, man pages, the tool. Included by the
# repository's Makefile, at whose root these run.
#   make shared          target/lib/libbofrashem.so, linked of the archive (with TARGET: target/TARGET/lib)
#   make hard-shared     make hard, with it
#   make install         to PREFIX (/usr/local), below DESTDIR where that is given: make install PREFIX=/usr
#                        DESTDIR=stage; the tool with its man page and completions too, where `make tool` built it
#   make install-tool    builds the tool, and installs it alone
#   make uninstall       takes out what make install put there, with the same words
#   make test-install    all of them, into a temporary folder; programs in C and C++ are built by pkg-config and by
#                        CMake, and run; with TARGET by the cross compiler, under qemu
# INCLUDEDIR, LIBDIR, MANDIR, BINDIR and ZSHDIR say other folders than include, lib, share/man, bin and
# share/zsh/site-functions of PREFIX.
PREFIX ?= /usr/local
INCLUDEDIR ?= $(PREFIX)/include
LIBDIR ?= $(PREFIX)/lib
MANDIR ?= $(PREFIX)/share/man
BINDIR ?= $(PREFIX)/bin
ZSHDIR ?= $(PREFIX)/share/zsh/site-functions
BASHDIR = $(PREFIX)/share/bash-completion/completions
FISHDIR = $(PREFIX)/share/fish/vendor_completions.d
INSTALL ?= install
VERSION := $(shell sed -n 's/^.define BOFRASHEM_VERSION "\(.*\)"/\1/p' include/bofrashem.h)
SONAME := libbofrashem.so.$(firstword $(subst ., ,$(VERSION)))
SHARED = $(BUILD)/lib/libbofrashem.so.$(VERSION)
PACKAGE = $(BUILD)/package
INSTALLED = $(INCLUDEDIR)/bofrashem.h $(LIBDIR)/libbofrashem.a $(LIBDIR)/libbofrashem.so.$(VERSION) \
	$(LIBDIR)/$(SONAME) $(LIBDIR)/libbofrashem.so $(LIBDIR)/pkgconfig/bofrashem.pc $(MANDIR)/man3/bofrashem.3 \
	$(addprefix $(LIBDIR)/cmake/bofrashem/,bofrashem-config.cmake bofrashem-config-version.cmake) \
	$(BINDIR)/bofrashem $(MANDIR)/man1/bofrashem.1 $(BASHDIR)/bofrashem $(ZSHDIR)/_bofrashem $(FISHDIR)/bofrashem.fish
# what is put where: to $(call put,FILE,FOLDER)
put = $(INSTALL) -m 644 $(1) '$(DESTDIR)$(2)/'
INSTALLED += $(INCLUDEDIR)/bofrashem_lists.h
folder = mkdir -p '$(DESTDIR)$(1)'

.PHONY: shared hard-shared install install-library install-tool put-tool uninstall test-install

# The archive's code is position independent (-z text holds it to that), and the library has no data but what the linker
# makes.
$(SHARED): $(YND_ARCHIVE) packaging/libbofrashem.map include/bofrashem.h $(MADE_WITH)
	$(call need,$(CC_HANDHELD),$(CC_PACKAGE))
	@mkdir -p $(@D)
	$(CC_HANDHELD) -shared -nostartfiles -Wl,-soname,$(SONAME) -Wl,--version-script=packaging/libbofrashem.map \
		-Wl,-z,text,-z,defs,-z,now,-z,relro,-z,noexecstack \
		-Wl,--whole-archive $(YND_ARCHIVE) -Wl,--no-whole-archive -o $@
	@ln -sf $(@F) $(@D)/$(SONAME) && ln -sf $(SONAME) $(@D)/libbofrashem.so

shared: $(SHARED)

$(BUILD)/hard/guard-shared: $(DRIVE) $(HARD_HEADS) $(SHARED)
	@mkdir -p $(@D)
	$(CC_HANDHELD) $(C_FLAGS) -O1 $(DRIVE) -L$(BUILD)/lib -Wl,-rpath,$(abspath $(BUILD)/lib) -lbofrashem -o $@

hard-shared: $(BUILD)/hard/guard-shared seeds
	$(need_run)
	@$(MAKE) --no-print-directory hard-run DRIVER=$<

install: install-library
	@if [ -n '$(CROSS)' ] || ! [ -x $(BOFRASHEM) ]; then \
	    echo 'the tool was not built for this target: left out (make install-tool)'; \
	elif [ "$$($(BOFRASHEM) --version)" != 'bofrashem $(VERSION)' ]; then \
	    echo 'the tool is of another version: left out (make install-tool)'; \
	else $(MAKE) --no-print-directory put-tool; fi

install-library: $(YND_ARCHIVE) $(SHARED)
	$(call need,python3,python3)
	@tools/package $(PACKAGE) '$(PREFIX)' '$(INCLUDEDIR)' '$(LIBDIR)' '$(or $(TARGET),x86_64-unknown-linux-gnu)'
	@tools/manpage >$(PACKAGE)/bofrashem.3
	$(call folder,$(INCLUDEDIR)) && $(call folder,$(LIBDIR)/pkgconfig)
	$(call folder,$(LIBDIR)/cmake/bofrashem) && $(call folder,$(MANDIR)/man3)
	$(call put,include/bofrashem.h include/bofrashem_lists.h,$(INCLUDEDIR))
	$(INSTALL) -m 644 $(YND_ARCHIVE) '$(DESTDIR)$(LIBDIR)/libbofrashem.a'
	$(INSTALL) -m 755 $(SHARED) '$(DESTDIR)$(LIBDIR)/'
	ln -sf $(notdir $(SHARED)) '$(DESTDIR)$(LIBDIR)/$(SONAME)' && ln -sf $(SONAME) '$(DESTDIR)$(LIBDIR)/libbofrashem.so'
	$(call put,$(PACKAGE)/bofrashem.pc,$(LIBDIR)/pkgconfig)
	$(call put,$(PACKAGE)/bofrashem-config.cmake $(PACKAGE)/bofrashem-config-version.cmake,$(LIBDIR)/cmake/bofrashem)
	$(call put,$(PACKAGE)/bofrashem.3,$(MANDIR)/man3)

install-tool: tool put-tool

put-tool:
	$(call folder,$(BINDIR)) && $(call folder,$(MANDIR)/man1)
	$(call folder,$(BASHDIR)) && $(call folder,$(ZSHDIR)) && $(call folder,$(FISHDIR))
	$(INSTALL) -m 755 $(if $(CROSS),$(BUILD)/tool/bofrashem,$(BOFRASHEM)) '$(DESTDIR)$(BINDIR)/bofrashem'
	$(call put,$(BOFRASHEM).1,$(MANDIR)/man1)
	$(INSTALL) -m 644 target/tool/completions/bofrashem.bash '$(DESTDIR)$(BASHDIR)/bofrashem'
	$(INSTALL) -m 644 target/tool/completions/bofrashem.zsh '$(DESTDIR)$(ZSHDIR)/_bofrashem'
	$(call put,target/tool/completions/bofrashem.fish,$(FISHDIR))

# The folders stay, but for the one that is the library's alone.
uninstall:
	rm -f $(foreach f,$(INSTALLED),'$(DESTDIR)$(f)')
	@if [ -d '$(DESTDIR)$(LIBDIR)/cmake/bofrashem' ]; then rmdir '$(DESTDIR)$(LIBDIR)/cmake/bofrashem'; fi

test-install: $(YND_ARCHIVE) $(SHARED)
	@TARGET='$(TARGET)' CC='$(CC_HANDHELD)' RUN='$(RUN_HANDHELD)' tools/install-test $(YND_ARCHIVE)
