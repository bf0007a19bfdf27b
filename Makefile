# Builds and installs the programs; the library for C is installed by its own Makefile in c/.
#
#     make                  proves and builds the programs that were not built yet, on all processors
#     make everything       the same, and the library for C by `make -C c`, for which one crate is left to prove
#     make install          the program with its manual page and what shells complete, and hullcheck, under PREFIX (/usr/local),
#                           below DESTDIR
#     make install NAME=qconvex-exact
#                           the same by another name, beside Qhull's program qconvex
#     make uninstall
#     make -C c install     the libraries for C, with header, qconvex.pc and a CMake package
#
# `make JOBS=2` proves on two processors.
PREFIX ?= /usr/local
NAME ?= qconvex
BINDIR ?= $(PREFIX)/bin
DATADIR ?= $(PREFIX)/share
PROGRAM = crates/qconvex/out/qconvex
CHECKER = crates/hullcheck/out/hullcheck

PAGE = $(DESTDIR)$(DATADIR)/man/man1/$(NAME).1
BASH_COMPLETION = $(DESTDIR)$(DATADIR)/bash-completion/completions/$(NAME)
ZSH_COMPLETION = $(DESTDIR)$(DATADIR)/zsh/site-functions/_$(NAME)
FISH_COMPLETION = $(DESTDIR)$(DATADIR)/fish/vendor_completions.d/$(NAME).fish

all: $(PROGRAM) $(CHECKER)

$(PROGRAM):
	scripts/make/prove.py qconvex hullcheck
	$(PROGRAM) off < examples/unit-cube.txt | $(CHECKER) examples/unit-cube.txt

# The rule above makes the checker, too; this one is for a checker that was removed since.
$(CHECKER): | $(PROGRAM)
	test -x $@ || scripts/make/prove.py hullcheck

everything: all
	$(MAKE) -C c

install: $(PROGRAM) $(CHECKER)
	install -d $(DESTDIR)$(BINDIR) $(dir $(PAGE)) $(dir $(BASH_COMPLETION)) $(dir $(ZSH_COMPLETION)) $(dir $(FISH_COMPLETION))
	install -m 755 $(PROGRAM) $(DESTDIR)$(BINDIR)/$(NAME)
	install -m 755 $(CHECKER) $(DESTDIR)$(BINDIR)/hullcheck
	scripts/make/man_page.py --name $(NAME) > $(PAGE)
	scripts/make/completions.py bash --name $(NAME) > $(BASH_COMPLETION)
	scripts/make/completions.py zsh --name $(NAME) > $(ZSH_COMPLETION)
	scripts/make/completions.py fish --name $(NAME) > $(FISH_COMPLETION)

uninstall:
	rm -f $(DESTDIR)$(BINDIR)/$(NAME) $(DESTDIR)$(BINDIR)/hullcheck $(PAGE) $(BASH_COMPLETION) $(ZSH_COMPLETION) $(FISH_COMPLETION)

.PHONY: all everything install uninstall
