# Builds, installs and checks what is here. `make help` lists what can be made.
#
# The programs and the library are proved as they are built, by tools/build. A program that stands in its crate's out/ and is newer than
# every source, as rt ci leaves it, is taken as it is.
.POSIX:

PREFIX = /usr/local
DESTDIR =
BINDIR = $(PREFIX)/bin
LIBDIR = $(PREFIX)/lib
INCLUDEDIR = $(PREFIX)/include
DATADIR = $(PREFIX)/share
MANDIR = $(DATADIR)/man/man1
LANGUAGEDIR = $(DATADIR)/man/man7
CALLSDIR = $(DATADIR)/man/man3
DOCDIR = $(DATADIR)/doc/teco
PCDIR = $(LIBDIR)/pkgconfig
BASHDIR = $(DATADIR)/bash-completion/completions
ZSHDIR = $(DATADIR)/zsh/site-functions
FISHDIR = $(DATADIR)/fish/vendor_completions.d

RT = rt
CC = cc
LD = ld
AR = ar
OBJCOPY = objcopy
CFLAGS = -O2
INSTALL = install

NAMES = teco teco-debug tecol teco-term teco-screen
# What is installed below DOCDIR, by its name here; and what docs/LIBRARY.md names, which goes below DOCDIR/examples.
PAGES = README.md NOTICE CHANGELOG.md SECURITY.md CONTRIBUTING.md docs/*.md docs/*.svg bench/*.md bench/*.svg crates/*/README.md tools/README.md
EDITORS = editors/README.md editors/vim/*/*.vim editors/emacs/*.el editors/textmate/*.json
EXAMPLES = examples/*.md examples/*.tec examples/*.in examples/*.out examples/*.typed
OVER_LIBRARY = bindings/c/edit.c bindings/c/stop.c bindings/rattle/edit.rt.txt \
    bindings/python/*.py bindings/python/pyproject.toml bindings/python/teco/*.py bindings/python/teco/py.typed \
    bindings/rust/Cargo.* bindings/rust/*/Cargo.toml bindings/rust/*/*.rs bindings/rust/*/*/*.rs
PROGRAMS = out/teco out/teco-debug out/tecol out/teco-term out/teco-screen
VERSION != sed -n 's/^pub const VERSION: &str = "\(.*\)";$$/\1/p' crates/teco_cli/src/*.rt
# A version with another of the first two numbers is another library to those that are linked with it.
ABI != echo '$(VERSION)' | cut -d . -f 1,2
SHARED_LIBRARY = libteco.so.$(ABI)
LIBRARY = out/libteco_c.a out/$(SHARED_LIBRARY) out/libteco.so out/teco.pc
SOURCES != find crates.txt crates/*/src crates/*/specs crates/*/proofs -type f ! -path 'crates/teco_tests/*'
# What teco-term and teco-screen share, and what each has beside it.
SHARED != ls frontends/common/*.c
TERM_SOURCES != ls frontends/term/*.c
SCREEN_SOURCES != ls frontends/screen/*.c
HEADERS = bindings/c/teco.h frontends/common/terminal.h frontends/common/typing.h
NCURSES != pkg-config --cflags --libs ncursesw 2> /dev/null || echo -lncursesw

## make               builds the programs teco, teco-debug, tecol, teco-term and teco-screen, the library and the completions, into out/;
##                    it wants ncursesw, which is libncurses-dev in Debian
all:
	tools/build
	$(MAKE) built

built: $(PROGRAMS) $(LIBRARY) out/completions out/teco.7 out/teco.3

## make help          lists these lines
help:
	@sed -n 's/^## //p' Makefile

## make try           a first look in a minute or two: makes out/teco-unproved, to type at, and edits a file with it; proves nothing
try:
	tools/try-program

## make quick         looks at the layout and the pages, and checks what differs from HEAD: seconds, and what the checks of the crates take
quick:
	tools/quick

## make test          runs all tests, unproved: some three minutes
test:
	cd crates/teco_tests && $(RT) try --test

## make gate          proves everything from nothing, then builds and tries the examples over the library: an hour
gate:
	.ci/run

## make pages         runs every check of the pages, the examples and the scripts with the built programs
pages: $(PROGRAMS) out/completions
	tools/pages out

## make bench         times the program beside its peers, as bench/README.md says
bench: out/teco
	TECO=$$PWD/out/teco bench/run

crates/teco/out/teco: $(SOURCES)
	tools/build teco

crates/teco_debug/out/teco_debug: $(SOURCES)
	tools/build teco_debug

crates/tecol/out/tecol: $(SOURCES)
	tools/build tecol

crates/teco_c/out/libteco_c.a: $(SOURCES)
	tools/build teco_c

out/teco: crates/teco/out/teco
	@mkdir -p out
	$(INSTALL) -m 755 crates/teco/out/teco $@

out/teco-debug: crates/teco_debug/out/teco_debug
	@mkdir -p out
	$(INSTALL) -m 755 crates/teco_debug/out/teco_debug $@

out/tecol: crates/tecol/out/tecol
	@mkdir -p out
	$(INSTALL) -m 755 crates/tecol/out/tecol $@

# The library asks for memory through a library of the kit, which comes into the same archive, so that nothing else has to be linked.
# What is not of teco.h is named inside of it alone, so that another library over the kit can stand beside it.
out/libteco_c.a: crates/teco_c/out/libteco_c.a
	@mkdir -p out
	kit=$$(dirname "$$($(RT) doc)") && \
	    $(LD) -r -o out/teco_c.o --whole-archive crates/teco_c/out/libteco_c.a --no-whole-archive "$$kit/c/liblibc_c.a"
	$(OBJCOPY) -w --keep-global-symbol='teco_*' out/teco_c.o
	rm -f $@
	$(AR) -rcD $@ out/teco_c.o
	rm out/teco_c.o

out/$(SHARED_LIBRARY): out/libteco_c.a bindings/c/teco.map
	$(CC) -shared -o $@ -Wl,-soname,$(SHARED_LIBRARY) -Wl,--version-script=bindings/c/teco.map -Wl,--default-symver \
	    -Wl,-z,now -Wl,-z,defs -Wl,--whole-archive out/libteco_c.a -Wl,--no-whole-archive $(LDFLAGS)

out/libteco.so: out/$(SHARED_LIBRARY)
	ln -sf $(SHARED_LIBRARY) $@

out/teco-term: $(TERM_SOURCES) $(SHARED) frontends/term/term-editor.h $(HEADERS) out/libteco_c.a
	$(CC) -std=c11 -pthread $(CFLAGS) -Ibindings/c -Ifrontends/common $(TERM_SOURCES) $(SHARED) out/libteco_c.a -o $@ $(LDFLAGS)

# The rows of the reference, which F1 shows.
out/reference.h: docs/REFERENCE.md frontends/screen/reference
	@mkdir -p out
	frontends/screen/reference > $@

out/teco-screen: $(SCREEN_SOURCES) $(SHARED) frontends/screen/screen.h frontends/screen/screen-commands.h $(HEADERS) out/reference.h out/libteco_c.a
	$(CC) -std=c11 -pthread $(CFLAGS) -Ibindings/c -Ifrontends/common -Iout $(SCREEN_SOURCES) $(SHARED) out/libteco_c.a -o $@ $(NCURSES) $(LDFLAGS)

# The page of the language for man, made of the reference.
out/teco.7: docs/REFERENCE.md docs/teco.1 tools/language-page
	@mkdir -p out
	tools/language-page > $@

# The page of the library for man, made of its header.
out/teco.3: bindings/c/teco.h docs/teco.1 tools/library-page
	@mkdir -p out
	tools/library-page > $@

# Where the library lies is said in teco.pc, so it is written anew each time.
out/teco.pc: bindings/c/teco.pc.in always
	@mkdir -p out
	@sed 's|@PREFIX@|$(PREFIX)|; s|@LIBDIR@|$(LIBDIR)|; s|@INCLUDEDIR@|$(INCLUDEDIR)|; s|@VERSION@|$(VERSION)|' bindings/c/teco.pc.in > $@

# What bash, zsh and fish complete, made of what each program's --help says.
out/completions: $(PROGRAMS) tools/completions
	@mkdir -p out/completions
	for name in $(NAMES); do \
	    for shell in bash zsh fish; do tools/completions $$shell out/$$name > out/completions/$$name.$$shell || exit 1; done; \
	done
	@touch $@

## make install       puts programs, pages for man, docs, library and completions below PREFIX, /usr/local where it isn't given;
##                    with DESTDIR=FOLDER into a folder that stands for the root
install: all
	$(INSTALL) -d '$(DESTDIR)$(BINDIR)' '$(DESTDIR)$(LIBDIR)' '$(DESTDIR)$(INCLUDEDIR)' '$(DESTDIR)$(MANDIR)' '$(DESTDIR)$(LANGUAGEDIR)' '$(DESTDIR)$(CALLSDIR)' '$(DESTDIR)$(PCDIR)' \
	    '$(DESTDIR)$(DOCDIR)' '$(DESTDIR)$(BASHDIR)' '$(DESTDIR)$(ZSHDIR)' '$(DESTDIR)$(FISHDIR)'
	for name in $(NAMES); do \
	    $(INSTALL) -m 755 out/$$name '$(DESTDIR)$(BINDIR)'/$$name && \
	    $(INSTALL) -m 644 docs/$$name.1 '$(DESTDIR)$(MANDIR)'/$$name.1 && \
	    $(INSTALL) -m 644 out/completions/$$name.bash '$(DESTDIR)$(BASHDIR)'/$$name && \
	    $(INSTALL) -m 644 out/completions/$$name.zsh '$(DESTDIR)$(ZSHDIR)'/_$$name && \
	    $(INSTALL) -m 644 out/completions/$$name.fish '$(DESTDIR)$(FISHDIR)'/$$name.fish || exit 1; \
	done
	$(INSTALL) -m 755 frontends/screen/teco-tutor '$(DESTDIR)$(BINDIR)/teco-tutor'
	$(INSTALL) -m 644 docs/teco-tutor.1 '$(DESTDIR)$(MANDIR)/teco-tutor.1'
	$(INSTALL) -m 644 out/teco.7 '$(DESTDIR)$(LANGUAGEDIR)/teco.7'
	$(INSTALL) -m 644 out/teco.3 '$(DESTDIR)$(CALLSDIR)/teco.3'
	$(INSTALL) -m 644 out/libteco_c.a '$(DESTDIR)$(LIBDIR)/libteco_c.a'
	$(INSTALL) -m 644 out/$(SHARED_LIBRARY) '$(DESTDIR)$(LIBDIR)/$(SHARED_LIBRARY)'
	ln -sf $(SHARED_LIBRARY) '$(DESTDIR)$(LIBDIR)/libteco.so'
	ln -sf libteco_c.a '$(DESTDIR)$(LIBDIR)/libteco.a'
	$(INSTALL) -m 644 bindings/c/teco.h '$(DESTDIR)$(INCLUDEDIR)/teco.h'
	$(INSTALL) -m 644 out/teco.pc '$(DESTDIR)$(PCDIR)/teco.pc'
	put() { $(INSTALL) -d "$$2/$$(dirname "$$1")" && $(INSTALL) -m 644 "$$1" "$$2/$$1"; } && \
	    for file in $(PAGES) $(EDITORS) $(EXAMPLES); do put $$file '$(DESTDIR)$(DOCDIR)' || exit 1; done && \
	    for file in $(OVER_LIBRARY); do put $$file '$(DESTDIR)$(DOCDIR)/examples' || exit 1; done
	[ -n '$(DESTDIR)' ] || ldconfig 2> /dev/null || true
	@echo 'Installed below $(DESTDIR)$(PREFIX). Begin with teco-tutor, or with man teco.'

# A folder may have files of others: so each file goes by its name, and a folder only if it is empty then.
## make uninstall     removes the files that make install put there, and then its folders for docs, if nothing else is in them;
##                    PREFIX, DESTDIR and what else was given to make install as there
uninstall:
	for name in $(NAMES); do \
	    rm -f '$(DESTDIR)$(BINDIR)'/$$name '$(DESTDIR)$(MANDIR)'/$$name.1 '$(DESTDIR)$(BASHDIR)'/$$name \
	        '$(DESTDIR)$(ZSHDIR)'/_$$name '$(DESTDIR)$(FISHDIR)'/$$name.fish || exit 1; \
	done
	rm -f '$(DESTDIR)$(BINDIR)/teco-tutor' '$(DESTDIR)$(MANDIR)/teco-tutor.1' '$(DESTDIR)$(LANGUAGEDIR)/teco.7' '$(DESTDIR)$(CALLSDIR)/teco.3' '$(DESTDIR)$(INCLUDEDIR)/teco.h' \
	    '$(DESTDIR)$(PCDIR)/teco.pc' '$(DESTDIR)$(LIBDIR)/libteco_c.a' '$(DESTDIR)$(LIBDIR)/libteco.a' '$(DESTDIR)$(LIBDIR)/libteco.so' \
	    '$(DESTDIR)$(LIBDIR)/$(SHARED_LIBRARY)'
	for file in $(PAGES) $(EDITORS) $(EXAMPLES); do rm -f '$(DESTDIR)$(DOCDIR)'/$$file || exit 1; done
	for file in $(OVER_LIBRARY); do rm -f '$(DESTDIR)$(DOCDIR)/examples'/$$file || exit 1; done
	find '$(DESTDIR)$(DOCDIR)' -depth -type d -exec rmdir {} \; 2> /dev/null || true

## make dist          makes an archive of what make install puts below its prefix, and a file of its sha256 sum, in out/
dist: all
	tools/dist

## make deb           makes the Debian packages teco, libteco0.N and libteco-dev, in out/
deb: all
	tools/deb

## make clean         removes out/; what the crates keep of their proofs stays
clean:
	rm -rf out

.PHONY: all built help try quick test gate pages bench install uninstall dist deb clean always
always:
