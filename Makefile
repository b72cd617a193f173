# The index of what you can do here; `make help` prints it.
#
# `make install` copies the program, its manual page, completions, the drivers, and the documents and examples in the folders that they have here:
#
#     make install PREFIX=/usr/local DESTDIR=package
#
# The program is the one that ./lx starts, or another one by PROGRAM=PATH. With a C compiler, CC, libl.a is compiled and installed too, and libfl.a is a
# link to it where no other file has this name.

PREFIX = /usr/local
DESTDIR =
PROGRAM = bin/lx
AR = ar
BIN = $(DESTDIR)$(PREFIX)/bin
LIB = $(DESTDIR)$(PREFIX)/lib
MAN = $(DESTDIR)$(PREFIX)/share/man/man1
DATA = $(DESTDIR)$(PREFIX)/share/lx
DOC = $(DESTDIR)$(PREFIX)/share/doc/lx
# Where the shells look for completions.
BASH = $(PREFIX)/share/bash-completion/completions
ZSH = $(PREFIX)/share/zsh/site-functions
FISH = $(PREFIX)/share/fish/vendor_completions.d

.SUFFIXES:
.PHONY: all help test bench fmt map completions package release install uninstall clean-proofs
.PHONY: bin/lx

all: ## proves the program and builds it; what was proved is kept
	@./lx --build

help: ## prints this list
	@sed -n 's/^\([a-z-]*\):[^#]*## /\1: /p' Makefile

test: ## runs every proof and then every test
	./test

bench: ## measures listings beside other scanners, threads, and the making of tables
	bench/peers
	bench/threads
	bench/gen
	bench/lexers

fmt: ## lays out the sources of every crate
	for crate in crates/*/; do (cd "$$crate" && rt fmt) || exit 1; done

map: ## writes the list of crates in docs/ARCHITECTURE.md and the chart docs/speed.svg anew
	docs/map
	docs/chart

completions: $(PROGRAM) ## writes the completions for shells anew
	completions/make --program "$(PROGRAM)"

package: $(PROGRAM) ## makes the archive of the program and what goes with it, and a package for Debian where dpkg-deb is there
	./pack --program "$(PROGRAM)"
	if command -v dpkg-deb >/dev/null; then ./pack --deb --program "$(PROGRAM)"; fi

release: ## makes the archive of dist/ anew, with the program that was built here
	dist/make

# The program as ./lx finds it: built here, released, or built now.
bin/lx:
	@./lx --version >/dev/null

install: $(PROGRAM) ## copies the program and what goes with it below PREFIX
	mkdir -p "$(BIN)" "$(MAN)" "$(DATA)" "$(DOC)" "$(DESTDIR)$(BASH)" "$(DESTDIR)$(ZSH)" "$(DESTDIR)$(FISH)"
	install -m 755 "$(PROGRAM)" "$(BIN)/lx"
	install -m 644 docs/lx.1 "$(MAN)/lx.1"
	install -m 644 drivers/lx.h drivers/lx.py drivers/lx.rs drivers/lx_c.py drivers/libl.c "$(DATA)"
	if command -v $(firstword $(CC)) >/dev/null && command -v $(firstword $(AR)) >/dev/null; then \
	    folder=$$(mktemp -d) && trap 'rm -rf "$$folder"' EXIT && \
	    $(CC) -O2 -c -DLIBL_MAIN -o "$$folder/main.o" drivers/libl.c && \
	    $(CC) -O2 -c -DLIBL_YYWRAP -o "$$folder/yywrap.o" drivers/libl.c && \
	    $(AR) rcsD "$$folder/libl.a" "$$folder/main.o" "$$folder/yywrap.o" && \
	    mkdir -p "$(LIB)" && install -m 644 "$$folder/libl.a" "$(LIB)/libl.a" && \
	    { test -e "$(LIB)/libfl.a" || ln -s libl.a "$(LIB)/libfl.a"; }; \
	fi
	install -m 644 completions/lx.bash "$(DESTDIR)$(BASH)/lx"
	install -m 644 completions/_lx "$(DESTDIR)$(ZSH)/_lx"
	install -m 644 completions/lx.fish "$(DESTDIR)$(FISH)/lx.fish"
	./pack --list | grep -v ^completions/ | tar -c -f - --mode=u=rwX,go=rX -T - | tar -x -f - --no-same-owner -C "$(DOC)"

uninstall: ## removes what install copied
	rm -f "$(BIN)/lx" "$(MAN)/lx.1" "$(DESTDIR)$(BASH)/lx" "$(DESTDIR)$(ZSH)/_lx" "$(DESTDIR)$(FISH)/lx.fish"
	rm -rf "$(DATA)" "$(DOC)"
	rm -f "$(LIB)/libl.a"
	if test "$$(readlink "$(LIB)/libfl.a")" = libl.a; then rm -f "$(LIB)/libfl.a"; fi

clean-proofs: ## removes the kept proofs of crates, which the next build makes anew; what is built stays in bin/
	rm -rf crates/*/out
