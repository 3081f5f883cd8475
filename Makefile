# make try        a first session in an unproved build: two to three minutes
# make build      leaves the proved program in build/gatekeeper; where nothing is proved yet, it takes half an hour and more on four processors
# make demo       the same session in the proved program
# make test       the gate: proves all crates, tries wrong bodies, runs tests and programs, and then 'make check'
# make check      the repository's own checks of its program and its pages
# make install    installs the program, its man pages and its completion for bash below PREFIX=/usr/local
# make uninstall  removes them
# make clean      removes build/, and leaves what was proved (crates/*/out)

PREFIX ?= /usr/local
SESSION ?= examples/first.session
PROOFS = crates.txt HANDLES $(shell find crates/*/src crates/*/specs crates/*/proofs 2>/dev/null)

.PHONY: build demo try test check install uninstall clean

build: build/gatekeeper

build/gatekeeper: $(PROOFS)
	@scripts/build-program

demo: build
	@scripts/show-session $(SESSION) build/gatekeeper :memory: session

try:
	@echo "an unproved build of the same sources, which takes two to three minutes (the toolchain's words: build/try.log)"
	@scripts/show-session $(SESSION) scripts/try-program :memory: session

test:
	.ci/run

check:
	@scripts/run-checks

install: build
	install -d $(DESTDIR)$(PREFIX)/bin $(DESTDIR)$(PREFIX)/share/man/man1 $(DESTDIR)$(PREFIX)/share/man/man5
	install -d $(DESTDIR)$(PREFIX)/share/man/man7 $(DESTDIR)$(PREFIX)/share/bash-completion/completions
	install -m 755 build/gatekeeper $(DESTDIR)$(PREFIX)/bin/gatekeeper
	install -m 644 docs/man/gatekeeper.1 $(DESTDIR)$(PREFIX)/share/man/man1/gatekeeper.1
	install -m 644 docs/man/gatekeeper-formats.5 $(DESTDIR)$(PREFIX)/share/man/man5/gatekeeper-formats.5
	install -m 644 docs/man/gatekeeper-requirements.7 $(DESTDIR)$(PREFIX)/share/man/man7/gatekeeper-requirements.7
	install -m 644 completions/gatekeeper.bash $(DESTDIR)$(PREFIX)/share/bash-completion/completions/gatekeeper

uninstall:
	rm -f $(DESTDIR)$(PREFIX)/bin/gatekeeper $(DESTDIR)$(PREFIX)/share/man/man1/gatekeeper.1
	rm -f $(DESTDIR)$(PREFIX)/share/man/man5/gatekeeper-formats.5
	rm -f $(DESTDIR)$(PREFIX)/share/man/man7/gatekeeper-requirements.7
	rm -f $(DESTDIR)$(PREFIX)/share/bash-completion/completions/gatekeeper

clean:
	rm -rf build
