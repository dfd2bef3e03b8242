# `make try` gives an answer from the sources, `make` builds the proved command, `make library` the
# library for C, `make demo` shows the command, `make test` is the whole gate, `make help` lists all.
# Needed, on x86-64 Linux: the Rattle kit, whose command `rt` is on the PATH or named by RT=; python3
# 3.8 or later, since rt is written in it and the kit has none; make, bash and coreutils. What else is
# wanted is in packaging/needs.txt, and `make needs` installs it where Debian's packages are.
SHELL := bash
RT ?= rt
PREFIX ?= /usr/local
# (where that is which `make install` installs: build/arm64 for arm64)
BUILT = build
# (the tests and the examples are no part of the command)
SOURCES := crates.txt $(shell command -v find > /dev/null && find crates \
	\( -name out -o -name '*_tests' -o -name 'example_*' \) -prune \
	-o -type f \( -name '*.rt' -o -name '*.antt' \) -print)

.PHONY: all help needs try try-session library browser portable arm64 demo test test-mutants plant \
	bench bench-documents bench-front bench-beside install install-command install-library uninstall \
	dist proofs audit clean

.DEFAULT_GOAL := all

# Every target with what it does and what it costs: the lines of this file that begin with "#:".
help:
	@sed -n 's/^#: //p' Makefile

#: make needs         installs the Debian packages that are wanted and not there, as root or by sudo;
#:                    elsewhere it prints them. KIND=build leaves out those of tests and measurements
needs:
	@tools/needs $(KIND)

#: make try           one answer from the sources, in a minute or two; nothing is proved. The program
#:                    is left in build/try/lexicat. WORDS="pick 'da, en' en fr" gives other arguments
try:
	@RT='$(RT)' tools/try $(WORDS)

#: make try-session   the session of examples/session from the sources, in some two minutes; nothing
#:                    is proved
try-session:
	@RT='$(RT)' tools/try-session

#: make               proves the crates and builds build/lexicat: 32 to 44 minutes the first time
#:                    on four processors, seconds where nothing changed; HINTS=FILE proves all side by
#:                    side over the statements of a release, silkwaram-*-statements.tar.zst, in 16 to 20
all: build/lexicat

# Each crate is proved, and only then built. What was proved before is not proved again.
build/lexicat: $(SOURCES)
	RT='$(RT)' tools/build$(if $(HINTS), --hints '$(HINTS)')
	@tools/programs build ../bindings/python/src lib

#: make demo          builds the command, and shows an answer, a story of three newsrooms, and that
#:                    answer again
demo: build/lexicat
	build/lexicat pick zh-Hant-CN-x-private1-private2 zh-Hant en
	PATH="$$PWD/build:$$PATH" examples/newsroom/story
	build/lexicat pick zh-Hant-CN-x-private1-private2 zh-Hant en

#: make library       the libraries for C, static and shared, in build/lib (docs/LIBRARY.md): a minute or
#:                    two more than the command
library: build/lib/libsilkwaram.a

build/lib/libsilkwaram.a: $(SOURCES) $(wildcard include/*) tools/library tools/calls
	RT='$(RT)' tools/library

#: make browser       the package for Node and pages, as WebAssembly, in build/browser
#:                    (docs/BROWSER.md): a minute or two more than the library
browser: build/browser/silkwaram.wasm

build/browser/silkwaram.wasm: $(SOURCES) $(wildcard include/*) tools/browser tools/calls \
		tools/retarget.py $(wildcard bindings/browser/*.* bindings/node/express.*)
	RT='$(RT)' tools/browser

#: make portable      the libraries for C and the command as C for any machine, in build/portable
#:                    (docs/LIBRARY.md): a minute or two more than the library
portable: library
	RT='$(RT)' tools/portable

#: make arm64         the command and the libraries for arm64 Linux, in build/arm64, by Debian's
#:                    gcc-aarch64-linux-gnu: a minute or two more than the library
arm64:
	RT='$(RT)' tools/arm64

#: make test          the whole gate, from nothing: 60 to 90 minutes on four processors, by how many
#:                    mutants tools/mutants/verdicts lacks; twice that on two. What lacks a tool is
#:                    skipped, and counted. STRICT=1 fails where anything was
# Every proof, from nothing where this machine has not passed the same crate before, the tests and the
# programs of the crates; the mutants that the prover has to refuse, one of each public function and
# many in one check; then every test by `prove`. The last line counts them all.
test:
	RT='$(RT)' tools/gate $(if $(STRICT),--strict)

#: make test-mutants  tries every mutant that the prover has to refuse, those too of which the record
#:                    has the verdict, over what `make` kept: half an hour
test-mutants: build/lexicat
	RT='$(RT)' tools/mutants/try

#: make plant         has the kit plant wrong bodies of its own making, and lists those that contracts
#:                    let through: some hours
plant: build/lexicat
	RT='$(RT)' tools/mutants/plant

#: make bench         instructions, time and memory beside plain Rust, jq, Python, gettext and
#:                    databases; bench-documents and bench-beside are parts of it, and bench-front
#:                    measures calls of the library
# WALL=0 leaves time out; WRITE=1 keeps the figures.
bench: build/lexicat
	RT='$(RT)' bench/proved/build
	CARGO_TARGET_DIR=build/plain cargo build --release --offline --quiet --manifest-path bench/plain/Cargo.toml
	bench/run
	$(MAKE) bench-documents
	$(MAKE) bench-beside

# Large documents, and random ones.
bench-documents: build/lexicat
	RT='$(RT)' bench/proved/build
	CARGO_TARGET_DIR=build/documents cargo build --release --offline --quiet --manifest-path bench/documents/Cargo.toml
	bench/documents/run
	bench/documents/rounds

# A pick and a lookup by the library, from C, Python and PHP, beside ICU, PHP's intl and WebOb.
bench-front: build/lexicat library
	bench/front/run

# The changes of a site, and an open site, beside other programs: what the plots of README show.
bench-beside: build/lexicat library
	bench/beside/run

BIN = $(DESTDIR)$(PREFIX)/bin
SHARE = $(DESTDIR)$(PREFIX)/share
LIBDIR ?= $(PREFIX)/lib
LIB = $(DESTDIR)$(LIBDIR)
INCLUDE = $(DESTDIR)$(PREFIX)/include
# Programs of the Python package over the command, which are installed with it: two edit the file of a
# site in place, one makes PO files of it, one converts files of other formats, one exchanges a site
# with a server, one checks its labels.
TOOLS := $(shell tools/programs --names)
UNITS = $(DESTDIR)$(PREFIX)/lib/systemd/user
# (the package, which the programs look for by where they lie)
PACKAGE = $(SHARE)/silkwaram/silkwaram

#: make install       the command with its programs, manual and completions, and the library, below
#:                    PREFIX=/usr/local; install-command and install-library are one of them alone
install: install-command install-library

install-command: build/lexicat
	install -d "$(BIN)" "$(SHARE)/man/man1" "$(SHARE)/man/man5"
	install -m 755 $(BUILT)/lexicat "$(BIN)/lexicat"
	install -m 644 man/lexicat.1 "$(SHARE)/man/man1/lexicat.1"
	install -m 644 man/lexicat-formats.5 "$(SHARE)/man/man5/lexicat-formats.5"
	tools/completions "$(SHARE)"
	tools/programs "$(BIN)" ../share/silkwaram '$(shell realpath -m --relative-to='$(PREFIX)/bin' '$(LIBDIR)')'
	(cd bindings/python/src/silkwaram && find . -name '*.py' -o -name py.typed) | while read -r it; do \
		install -D -m 644 "bindings/python/src/silkwaram/$$it" "$(PACKAGE)/$$it" || exit 1; \
	done
	"$$(tools/programs --python)" -m compileall -q $(if $(DESTDIR),-s '$(DESTDIR)' -p /) "$(PACKAGE)"
	chmod -R u=rwX,go=rX "$(PACKAGE)"
	install -m 644 data/cldr.fallbacks data/LICENSE-UNICODE "$(SHARE)/silkwaram"
	for name in $(TOOLS); do \
		install -m 644 man/$$name.1 "$(SHARE)/man/man1/$$name.1" || exit 1; \
	done
	install -d "$(UNITS)"
	install -m 644 packaging/systemd/lexicat-exchange@.timer "$(UNITS)"
	sed 's|@BIN@|$(PREFIX)/bin|' packaging/systemd/lexicat-exchange@.service > "$(UNITS)/lexicat-exchange@.service"

# (the links are made by `tools/library`, and lead to each other by their names alone)
install-library: library
	install -d "$(LIB)/pkgconfig" "$(INCLUDE)"
	install -m 644 include/silkwaram.h include/silkwaram_command.h "$(INCLUDE)"
	install -m 644 $(BUILT)/lib/libsilkwaram.a $(BUILT)/lib/libsilkwaram-command.a "$(LIB)"
	cp -P $(BUILT)/lib/libsilkwaram*.so* "$(LIB)"
	tools/pkg-config-file '$(PREFIX)' '$(LIBDIR)' > "$(LIB)/pkgconfig/silkwaram.pc"
	chmod 644 "$(LIB)"/libsilkwaram*.so.*.*.* "$(LIB)/pkgconfig/silkwaram.pc"

#: make uninstall     takes away what `make install` put in place, by the same PREFIX, LIBDIR, DESTDIR
uninstall:
	rm -f "$(BIN)/lexicat"
	rm -f "$(SHARE)/man/man1/lexicat.1" "$(SHARE)/man/man5/lexicat-formats.5"
	rm -f "$(SHARE)/bash-completion/completions/lexicat" "$(SHARE)/zsh/site-functions/_lexicat"
	rm -f "$(SHARE)/fish/vendor_completions.d/lexicat.fish"
	for name in $(TOOLS); do \
		rm -f "$(BIN)/$$name" "$(SHARE)/man/man1/$$name.1" \
			"$(SHARE)/bash-completion/completions/$$name"; \
	done
	rm -f "$(SHARE)/zsh/site-functions/_lexicat-file" "$(SHARE)/zsh/site-functions/_lexicat-programs"
	rm -f "$(SHARE)/fish/vendor_completions.d/lexicat-file.fish"
	rm -rf "$(PACKAGE)"
	rm -f "$(SHARE)/silkwaram/cldr.fallbacks" "$(SHARE)/silkwaram/LICENSE-UNICODE"
	rm -f "$(UNITS)/lexicat-exchange@.timer" "$(UNITS)/lexicat-exchange@.service"
	-rmdir "$(UNITS)" "$(dir $(UNITS))" 2> /dev/null
	-rmdir "$(SHARE)/silkwaram" 2> /dev/null
	rm -f "$(INCLUDE)/silkwaram.h" "$(INCLUDE)/silkwaram_command.h" "$(LIB)/pkgconfig/silkwaram.pc"
	rm -f "$(LIB)/libsilkwaram.a" "$(LIB)/libsilkwaram-command.a" "$(LIB)"/libsilkwaram*.so*

#: make dist          a tarball, Debian packages, a wheel for Python and a package for npm, for those
#:                    who have no Rattle kit, in build/dist: some minutes more than the library.
#:                    What `make` or `make test` proved serves it; after `make test` the statements
#:                    of the libraries are packed too, for `make HINTS=FILE`.
#:                    MAINTAINER='NAME <ADDRESS>' names the distributor, SIGN_KEY=FILE signs checksums
dist:
	RT='$(RT)' tools/dist

#: make proofs        the map of what is proved, build/PROOFS.md, from the sources in a second: each
#:                    function and law with its sentence, clauses and definitions (docs/maintaining/PROOFS.md)
proofs:
	tools/proofs

#: make audit         what has to be read to know what a contract says, with all definitions that it
#:                    stands on: of the promise, or of NAMES="run sw_pick"
audit:
	@tools/audit $(or $(NAMES),promise::the_promise)

#: make clean         removes what was built, and what was kept of proofs
clean:
	rm -rf build bindings/python/src/silkwaram/_calls.py
	find crates -name out -type d -prune -exec rm -rf {} +
