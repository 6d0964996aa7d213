# The compositor core: look, build, check. `make help` lists the targets.
PLAYER := build/cc_player
# The example that `make film` and `make view` show.
FILM := list
# How many crates `make audit` and how many programs `make test` take side by side; `make test` sees for itself.
JOBS :=
# `make test ONLY=WORD` runs the rows whose titles have the word, `make audit ONLY="CRATE .."` tries these crates.
ONLY :=
# `make test CRATE=NAME` runs the tests of one crate, and its rows in the tables.
CRATE :=
VIEWER := file://$(CURDIR)/tools/viewer.html
# Where `make install` puts program, manual page and completions; DESTDIR stands before it where a package is made.
PREFIX := /usr/local
DESTDIR :=
# Where `make install-lib` puts libraries below PREFIX; Debian has a folder for each processor.
LIBDIR := lib
VERSION := 0.1.0
# What `make install` installs, and where below DESTDIR and PREFIX.
MANUAL := share/man/man1/cc_player.1
BASH_WORDS := share/bash-completion/completions/cc_player
ZSH_WORDS := share/zsh/site-functions/_cc_player
FISH_WORDS := share/fish/vendor_completions.d/cc_player.fish
# What `make install-lib` installs there. The number of the interface is that of include/cc.h, read where it is asked for.
SONAME = libcc.so.$(shell sed -n 's/^.define CC_VERSION //p' include/cc.h)
CMAKE_FILES = cmake/cc_compositor/cc_compositor-config.cmake cmake/cc_compositor/cc_compositor-config-version.cmake
LIBRARY = include/cc.h share/man/man3/cc.3 \
	$(addprefix $(LIBDIR)/,libcc.a $(SONAME) libcc.so pkgconfig/cc.pc $(CMAKE_FILES))

.PHONY: build help demo pictures film view bench lib embed test audit check install install-lib uninstall dist release deb try-release clean kit python FORCE

build: $(PLAYER)

help:
	@echo 'make           the program, $(PLAYER): as `make check` built it, or one that was copied there, or else proved and built (about half an hour)'
	@echo 'make demo      plays examples/first.json without the proofs, and leaves its picture in build/ (a minute)'
	@echo 'make test      runs all rows and tests without the proofs (minutes); ONLY=scroll: the rows with this word in their titles; CRATE=tile_queue: the rows of this crate'
	@echo 'make pictures  plays every script in examples/ and leaves each picture in build/ as .ppm and .png'
	@echo 'make film      plays an example (FILM=list) into build/ as an animated PNG, and names the viewer'"'"'s address'
	@echo 'make view      opens the viewer in a browser'
	@echo 'make lib       the library for C: build/libcc.a, build/libcc.so, build/cc.pc (proved first, minutes)'
	@echo 'make embed     tries the library: its callers in C, C++, Python and Rust, sanitizers, refused memory, random pages'
	@echo 'make bench     times step 1 on large pages'
	@echo 'make check     the gate: all proofs, edits, tests and programs, and our own checks (37 to 58 minutes at first, by the machine, then what changed): docs/GATE.md'
	@echo 'make audit     tries all must-fail edits, also those that the gate leaves out (an hour or more); ONLY="geom pixel": of these crates; JOBS=4'
	@echo 'make install   puts program, manual page and completions below DESTDIR and PREFIX (/usr/local)'
	@echo 'make install-lib  the library for C, its header, manual page, cc.pc and CMake files, in the same place (LIBDIR=lib)'
	@echo 'make uninstall removes what these put there'
	@echo 'make dist      packs the sources of the last commit into build/cc_player-VERSION.tar.gz'
	@echo 'make release   program and library, both proved, as an archive, a wheel and a crate with checksums in build/release/: docs/RELEASE.md'
	@echo 'make deb       the same and a package for Debian'
	@echo 'make try-release  installs what stands in build/release/ in a root without the kit, and uses it'
	@echo 'make clean     removes build/'

kit:
	@command -v rt > /dev/null || { echo 'rt is missing: install the Rattle kit (rattle-kit-13f) and put its bin/ on the PATH' >&2; exit 1; }

python:
	@command -v python3 > /dev/null || { echo 'python3 is missing: tools/ and bench/ need it' >&2; exit 1; }

# It looks for itself whether the program is of the present text.
$(PLAYER): python FORCE
	@python3 tools/built.py

FORCE:

demo: kit python
	@mkdir -p build
	@echo 'This run is not checked; `make` checks and builds the program.'
	@cd crates/cc_player && rt try -- step 1 < ../../examples/first.json > ../../build/first.rec 2> ../../build/demo.log \
		|| { cat ../../build/demo.log >&2; exit 1; }
	@python3 tools/recording.py pictures build/first.rec build/first

# tools/recording.py writes PNG files by itself: no other tool is needed.
pictures: python $(PLAYER)
	@for script in examples/*.json; do \
		name=$$(basename $$script .json); \
		$(PLAYER) step 1 < $$script > build/$$name.rec \
			&& python3 tools/recording.py pictures build/$$name.rec build/$$name \
			|| { echo "$$script: no picture" >&2; exit 1; }; \
	done

film: python $(PLAYER)
	@$(PLAYER) step 1 < examples/$(FILM).json > build/$(FILM).rec
	@python3 tools/recording.py film build/$(FILM).rec build/$(FILM).png
	@echo 'the viewer: $(VIEWER) (drop build/$(FILM).rec on it)'

view: film
	@for browser in xdg-open chromium firefox; do \
		if command -v $$browser > /dev/null; then $$browser '$(VIEWER)' > /dev/null 2>&1 & exit 0; fi; \
	done; echo 'no browser is here (xdg-open, chromium, firefox)' >&2; exit 1

bench: python $(PLAYER)
	bench/step $(PLAYER)

lib: python
	@python3 tools/lib.py

embed: lib $(PLAYER)
	@python3 tools/try_embed.py --program $(PLAYER)

test: kit python
	@python3 tools/test.py $(if $(JOBS),--jobs $(JOBS)) $(if $(CRATE),--crate $(CRATE)) $(if $(ONLY),'$(ONLY)')

audit: kit python
	@python3 tools/audit.py $(if $(JOBS),--jobs $(JOBS)) $(ONLY)

# The gate, whose lines and times stay in build/gate.log.
check: SHELL := bash
check: kit python
	@set -o pipefail; .ci/run 2>&1 | python3 tools/gate_times.py --stamp build/gate.log

install: $(PLAYER)
	install -D -m 755 $(PLAYER) '$(DESTDIR)$(PREFIX)/bin/cc_player'
	install -D -m 644 man/cc_player.1 '$(DESTDIR)$(PREFIX)/$(MANUAL)'
	install -D -m 644 completions/cc_player.bash '$(DESTDIR)$(PREFIX)/$(BASH_WORDS)'
	install -D -m 644 completions/_cc_player '$(DESTDIR)$(PREFIX)/$(ZSH_WORDS)'
	install -D -m 644 completions/cc_player.fish '$(DESTDIR)$(PREFIX)/$(FISH_WORDS)'

install-lib: lib
	install -D -m 644 include/cc.h '$(DESTDIR)$(PREFIX)/include/cc.h'
	install -D -m 644 man/cc.3 '$(DESTDIR)$(PREFIX)/share/man/man3/cc.3'
	install -D -m 644 build/libcc.a '$(DESTDIR)$(PREFIX)/$(LIBDIR)/libcc.a'
	install -D -m 755 build/$(SONAME) '$(DESTDIR)$(PREFIX)/$(LIBDIR)/$(SONAME)'
	ln -sf $(SONAME) '$(DESTDIR)$(PREFIX)/$(LIBDIR)/libcc.so'
	install -d '$(DESTDIR)$(PREFIX)/$(LIBDIR)/pkgconfig' '$(DESTDIR)$(PREFIX)/$(LIBDIR)/cmake/cc_compositor'
	python3 tools/lib.py --pkg-config $(LIBDIR) > '$(DESTDIR)$(PREFIX)/$(LIBDIR)/pkgconfig/cc.pc'
	for file in $(CMAKE_FILES); do \
		sed 's/@VERSION@/$(VERSION)/' clients/cmake/$$(basename $$file) > '$(DESTDIR)$(PREFIX)/$(LIBDIR)/'$$file || exit 1; \
	done

uninstall:
	rm -f '$(DESTDIR)$(PREFIX)/bin/cc_player' $(foreach file,$(MANUAL) $(BASH_WORDS) $(ZSH_WORDS) $(FISH_WORDS) $(LIBRARY),'$(DESTDIR)$(PREFIX)/$(file)')

dist:
	@mkdir -p build
	git archive --format=tar.gz --prefix=cc_player-$(VERSION)/ -o build/cc_player-$(VERSION).tar.gz HEAD

release: python $(PLAYER) lib
	@python3 tools/release.py

deb: python $(PLAYER) lib
	@python3 tools/release.py --deb

try-release:
	@tools/try_release.sh build/release

clean:
	rm -rf build
