# Builds, installs and packs Nanpuwiq.
#
#     make                          prove and build the programs, the library and the command
#     make install PREFIX=/usr DESTDIR=/tmp/root
#     make uninstall                with the same PREFIX and DESTDIR: takes away what install laid out
#     make check                    all crates proved, then the tests in other languages; the whole gate is .ci/run
#     make pages                    a page to play on for each example, with an index: target/pages
#     make shared                   libnanpuwiq.so, for Python: target/shared
#     make dist                     an archive for machines without the toolchain: target/dist
#     make deb                      packages for Debian, nanpuwiq and libnanpuwiq-dev: target/deb
#
# `make` asks rt and cargo, which know what has changed. `make install` builds only what is missing, so that it can run as another user after `make`.
# Where the programs and the library are built elsewhere, TARGET names the folder and RT=: keeps them as they are.

PREFIX = /usr/local
DESTDIR =
RT = rt
CARGO = cargo
TARGET = target

VERSION := $(shell sed -n 's/^.define NANPUWIQ_VERSION "\(.*\)".*/\1/p' include/nanpuwiq.h)
PROGRAMS = $(TARGET)/bin/solve $(TARGET)/bin/catalogue
LIBRARY = $(TARGET)/staticlib/libnanpuwiq.a
COMMAND = tools/nanpuwiq/target/release/nanpuwiq
HEADERS = include/nanpuwiq.h include/nanpuwiq_words.h
SHARED = $(TARGET)/shared/libnanpuwiq.so
# What is read: the folders are as in the repository, so that the links between the pages hold.
PAGES = README.md CHANGELOG.md CONTRIBUTING.md $(shell find docs examples man include bindings/rust -type f ! -path '*/target/*' ! -path '*/tests/*' ! -name Cargo.lock | sort)
PYTHON = $(addprefix bindings/python/nanpuwiq/,__init__.py _entries.py py.typed)
# The oldest glibc that the programs run on; tests/install.py holds them to it.
GLIBC = 2.34
ARCHIVE = nanpuwiq-$(VERSION)-x86_64-linux-glibc$(GLIBC)

# Where bash, zsh and fish look for completions.
BASH_COMPLETION = share/bash-completion/completions/nanpuwiq
ZSH_COMPLETION = share/zsh/site-functions/_nanpuwiq
FISH_COMPLETION = share/fish/vendor_completions.d/nanpuwiq.fish
COMPLETIONS = $(BASH_COMPLETION) $(ZSH_COMPLETION) $(FISH_COMPLETION)

# The folder that the pkg-config file names, and the one of the library below it.
PCPREFIX = $(PREFIX)
LIBDIR = lib

# What is missing where there is no toolchain, and what can be had without it.
define NEED_RT
@command -v $(RT) >/dev/null || { printf '%s\n' \
	'make: $(RT) is not here. It is the toolchain that proves and builds the programs and the library; what is not proved is not built.' \
	'Without it: $(ARCHIVE).tar.gz has programs, library, header, command and pages. It is made by "make dist" on a machine with rt,' \
	'and needs no toolchain. CONTRIBUTING.md tells where rt comes from, and what can be built on the library of that archive.' >&2; exit 1; }
endef

all: prove command

prove:
	$(NEED_RT)
	RT=$(RT) tools/prove solve catalogue nanpuwiq

command:
	NANPUWIQ_LIB=$(abspath $(TARGET)/staticlib) $(CARGO) build --quiet --release --offline --manifest-path tools/nanpuwiq/Cargo.toml

$(PROGRAMS) &:
	$(NEED_RT)
	RT=$(RT) tools/prove solve catalogue

$(LIBRARY):
	$(NEED_RT)
	RT=$(RT) tools/prove nanpuwiq

$(COMMAND): $(LIBRARY)
	$(MAKE) command

shared: $(SHARED)

$(SHARED): $(LIBRARY) tools/shared.c $(HEADERS)
	mkdir -p $(dir $@)
	$(CC) -shared -fPIC -O2 -Wall -Wextra -Iinclude tools/shared.c -Wl,--whole-archive $(LIBRARY) -Wl,--no-whole-archive -Wl,-z,defs -Wl,-soname,libnanpuwiq.so.0 -o $@

# solve and catalogue are general names: in a folder that others use too they are installed with the product's.
install: $(PROGRAMS) $(LIBRARY) $(COMMAND) $(SHARED)
	install -d $(addprefix $(DESTDIR)$(PREFIX)/,bin $(LIBDIR)/pkgconfig lib/nanpuwiq/python/nanpuwiq include share/man/man1 share/man/man5 $(dir $(COMPLETIONS)))
	install -m 755 $(TARGET)/bin/solve $(DESTDIR)$(PREFIX)/bin/nanpuwiq-solve
	install -m 755 $(TARGET)/bin/catalogue $(DESTDIR)$(PREFIX)/bin/nanpuwiq-catalogue
	install -m 755 $(COMMAND) $(DESTDIR)$(PREFIX)/bin
	install -m 644 $(LIBRARY) $(DESTDIR)$(PREFIX)/$(LIBDIR)
	install -m 644 $(HEADERS) $(DESTDIR)$(PREFIX)/include
	install -m 644 $(SHARED) $(PYTHON) $(DESTDIR)$(PREFIX)/lib/nanpuwiq/python/nanpuwiq
	install -m 644 $(wildcard man/*.1) $(DESTDIR)$(PREFIX)/share/man/man1
	install -m 644 $(wildcard man/*.5) $(DESTDIR)$(PREFIX)/share/man/man5
	for page in $(PAGES); do install -D -m 644 $$page $(DESTDIR)$(PREFIX)/share/doc/nanpuwiq/$$page || exit 1; done
	$(COMMAND) completion bash >$(DESTDIR)$(PREFIX)/$(BASH_COMPLETION)
	$(COMMAND) completion zsh >$(DESTDIR)$(PREFIX)/$(ZSH_COMPLETION)
	$(COMMAND) completion fish >$(DESTDIR)$(PREFIX)/$(FISH_COMPLETION)
	chmod 644 $(addprefix $(DESTDIR)$(PREFIX)/,$(COMPLETIONS))
	sed -e 's|@PREFIX@|$(PCPREFIX)|' -e 's|@LIBDIR@|$(LIBDIR)|' -e 's|@VERSION@|$(VERSION)|' tools/nanpuwiq.pc.in >$(DESTDIR)$(PREFIX)/$(LIBDIR)/pkgconfig/nanpuwiq.pc
	chmod 644 $(DESTDIR)$(PREFIX)/$(LIBDIR)/pkgconfig/nanpuwiq.pc

# Folders of our own go, those that others use too stay.
uninstall:
	rm -f $(addprefix $(DESTDIR)$(PREFIX)/bin/,nanpuwiq-solve nanpuwiq-catalogue nanpuwiq)
	rm -f $(DESTDIR)$(PREFIX)/$(LIBDIR)/$(notdir $(LIBRARY)) $(DESTDIR)$(PREFIX)/$(LIBDIR)/pkgconfig/nanpuwiq.pc
	rm -f $(addprefix $(DESTDIR)$(PREFIX)/include/,$(notdir $(HEADERS)))
	rm -f $(addprefix $(DESTDIR)$(PREFIX)/share/man/man1/,$(notdir $(wildcard man/*.1)))
	rm -f $(addprefix $(DESTDIR)$(PREFIX)/share/man/man5/,$(notdir $(wildcard man/*.5)))
	rm -f $(addprefix $(DESTDIR)$(PREFIX)/,$(COMPLETIONS))
	rm -rf $(DESTDIR)$(PREFIX)/share/doc/nanpuwiq $(DESTDIR)$(PREFIX)/lib/nanpuwiq

pages: $(COMMAND)
	tools/pages $(COMMAND) $(TARGET)/pages

check:
	$(NEED_RT)
	RT=$(RT) tools/prove
	tests/run

# The archive can be unpacked anywhere: its pkg-config file finds its own folder.
dist: all pages
	rm -rf $(TARGET)/dist/$(ARCHIVE)
	$(MAKE) install PREFIX= DESTDIR=$(abspath $(TARGET)/dist/$(ARCHIVE)) PCPREFIX='$$$${pcfiledir}/../..'
	install -d $(TARGET)/dist/$(ARCHIVE)/share/doc/nanpuwiq/pages
	install -m 644 $(TARGET)/pages/*.html $(TARGET)/dist/$(ARCHIVE)/share/doc/nanpuwiq/pages
	sed -e 's|@VERSION@|$(VERSION)|' -e 's|@GLIBC@|$(GLIBC)|' tools/INSTALL.in >$(TARGET)/dist/$(ARCHIVE)/INSTALL
	cd $(TARGET)/dist/$(ARCHIVE) && find . -type f ! -name SHA256SUMS -print0 | sort -z | xargs -0 sha256sum >SHA256SUMS
	cd $(TARGET)/dist && tar --sort=name --owner=0 --group=0 --numeric-owner -cf - $(ARCHIVE) | gzip -n >$(ARCHIVE).tar.gz
	cd $(TARGET)/dist && sha256sum $(ARCHIVE).tar.gz >$(ARCHIVE).tar.gz.sha256

# The packages for Debian; MAINTAINER is whoever hands them out.
MAINTAINER = Nanpuwiq <packages@nanpuwiq.invalid>

deb: all shared
	VERSION='$(VERSION)' GLIBC='$(GLIBC)' MAINTAINER='$(MAINTAINER)' MAKE='$(MAKE)' tools/deb $(abspath $(TARGET))

.PHONY: all prove command shared install uninstall pages check dist deb
