# make install [PREFIX=/usr/local]    installs the library for C, the programs, their completions, and where pandoc is
#                                     installed their manual pages
# make uninstall [PREFIX=/usr/local]
# make dist                           writes packages into dist/ (docs/INSTALL.md says which)
# make reproduce                      does so twice, in different folders, and compares
#
# All of it takes what the gate built: .ci/run keeps it in out/gate once all passed. BUILT names another folder with
# libpatricia_c.a, ptree and prefixes; `make dist` takes one only where the gate kept it there at this commit.

PREFIX ?= /usr/local
BINDIR ?= $(PREFIX)/bin
MANDIR ?= $(PREFIX)/share/man
BASHDIR ?= $(PREFIX)/share/bash-completion/completions
ZSHDIR ?= $(PREFIX)/share/zsh/site-functions
BUILT ?= $(CURDIR)/out/gate
PYTHON ?= python3
PROGRAMS = ptree prefixes
LIBRARY = $(MAKE) -C bindings/c ARCHIVE=$(abspath $(BUILT))/libpatricia_c.a PREFIX=$(PREFIX)

all:
	@echo 'targets: install, uninstall, dist, reproduce'

$(BUILT)/%:
	@echo 'there is no $@: run .ci/run, which keeps what it built once all passed' >&2; exit 1

install: $(BUILT)/libpatricia_c.a $(PROGRAMS:%=$(BUILT)/%)
	$(LIBRARY) install
	install -d $(DESTDIR)$(BINDIR) $(DESTDIR)$(MANDIR)/man1 $(DESTDIR)$(BASHDIR) $(DESTDIR)$(ZSHDIR)
	for program in $(PROGRAMS); do \
	    install -m 755 $(BUILT)/$$program $(DESTDIR)$(BINDIR) && \
	    install -m 644 packaging/completions/$$program.bash $(DESTDIR)$(BASHDIR)/$$program && \
	    install -m 644 packaging/completions/_$$program $(DESTDIR)$(ZSHDIR) || exit 1; \
	done
	if command -v pandoc > /dev/null; then \
	    for program in $(PROGRAMS); do \
	        packaging/manual.sh $$program > $(DESTDIR)$(MANDIR)/man1/$$program.1 || exit 1; \
	    done; \
	fi

uninstall:
	$(LIBRARY) uninstall
	rm -f $(foreach x, $(PROGRAMS), $(DESTDIR)$(BINDIR)/$x $(DESTDIR)$(MANDIR)/man1/$x.1)
	rm -f $(foreach x, $(PROGRAMS), $(DESTDIR)$(BASHDIR)/$x $(DESTDIR)$(ZSHDIR)/_$x)

dist:
	$(PYTHON) -B packaging/dist.py --gate $(BUILT)

reproduce:
	$(PYTHON) -B packaging/reproduce.py --gate $(BUILT)

.PHONY: all install uninstall dist reproduce
