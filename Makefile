# Installs what `./build` made, and builds nothing: `make install`, with prefix, DESTDIR and the folders below as GNU has them.
PREFIX ?= /usr/local
prefix ?= $(PREFIX)
exec_prefix ?= $(prefix)
bindir ?= $(exec_prefix)/bin
libdir ?= $(exec_prefix)/lib
includedir ?= $(prefix)/include
datarootdir ?= $(prefix)/share
datadir ?= $(datarootdir)
mandir ?= $(datarootdir)/man
docdir ?= $(datarootdir)/doc/ristulva
# Where the documents and examples of the library lie, beside those of the programs where nothing is said.
libdocdir ?= $(docdir)
pkgconfigdir ?= $(libdir)/pkgconfig
bashcompletiondir ?= $(datadir)/bash-completion/completions
zshcompletiondir ?= $(datadir)/zsh/site-functions
fishcompletiondir ?= $(datadir)/fish/vendor_completions.d
unitdir ?= $(prefix)/lib/systemd/system

# What was built, and which parts of it are installed.
BGP ?= crates/bgp/out/bgp
BGP_SPEAKER ?= crates/bgp_speaker/out/bgp_speaker
BGP_GUARD ?= crates/bgp_guard_run/out/bgp_guard_run
DIST ?= dist
PAGE ?= $(DIST)/ristulva.html
PARTS ?= programs library development

# For installcheck.
CC ?= cc
PKG_CONFIG ?= pkg-config

export DESTDIR prefix exec_prefix bindir libdir includedir mandir docdir libdocdir pkgconfigdir
export bashcompletiondir zshcompletiondir fishcompletiondir unitdir BGP BGP_SPEAKER BGP_GUARD DIST PAGE PARTS

all:
	@packaging/install-files built

install:
	@packaging/install-files install

uninstall:
	@packaging/install-files uninstall

# Builds an example with the library that was installed, with CFLAGS and LDFLAGS, and compares what it prints with the program's.
installcheck:
	@made="$$(mktemp -d)" && trap 'rm -rf "$$made"' EXIT && set -e; \
	flags="$$(PKG_CONFIG_PATH="$(DESTDIR)$(pkgconfigdir)" $(PKG_CONFIG) --define-variable=prefix="$(DESTDIR)$(prefix)" --cflags --libs ristulva)"; \
	$(CC) -std=c99 -D_POSIX_C_SOURCE=200809L $(CFLAGS) "$(DESTDIR)$(libdocdir)/examples/c/show.c" $(LDFLAGS) $$flags -o "$$made/show"; \
	"$(DESTDIR)$(bindir)/bgp" from-hex <examples/open-of-frr.hex >"$$made/octets"; \
	"$(DESTDIR)$(bindir)/bgp" show <"$$made/octets" >"$$made/wanted"; \
	LD_LIBRARY_PATH="$(DESTDIR)$(libdir)" "$$made/show" <"$$made/octets" >"$$made/printed"; \
	cmp "$$made/wanted" "$$made/printed"; \
	echo "installcheck: a program in C prints what bgp show does"

.PHONY: all install uninstall installcheck
