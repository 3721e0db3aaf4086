# Builds, tests, installs and packs the program and its checker.
.POSIX:
.PHONY: all build test check gate dist install uninstall clean

PREFIX = /usr/local
BINDIR = $(PREFIX)/bin
MANDIR = $(PREFIX)/share/man
DOCDIR = $(PREFIX)/share/doc/awk-proved

all: build

# What isn't made of the sources as they are is proved and built.
build:
	.ci/prove awk
	.ci/prove awk_check_program

# The program over files, pipes and devices, the checker over programs, and what the pages show of both.
test: build
	tests/program out/awk
	tests/check out/awk-check
	tests/documents out/awk out/awk-check

check: test

# That, every proof from nothing, the tests in memory and the must-fail edits.
gate:
	.ci/run

# The proved executables, manual pages and examples, in a file for machines without the kit.
dist: build
	.ci/dist

install: build
	install -d "$(DESTDIR)$(BINDIR)" "$(DESTDIR)$(MANDIR)/man1" "$(DESTDIR)$(DOCDIR)/examples"
	install -m 755 out/awk "$(DESTDIR)$(BINDIR)/awk"
	install -m 755 out/awk-check "$(DESTDIR)$(BINDIR)/awk-check"
	for page in awk.1 awk-check.1; do \
	    .ci/page $$page >"out/$$page" && install -m 644 "out/$$page" "$(DESTDIR)$(MANDIR)/man1/$$page" || exit 1; \
	done
	.ci/origin out/awk-check >out/ORIGIN || :
	install -m 644 out/ORIGIN "$(DESTDIR)$(DOCDIR)/ORIGIN"
	install -m 644 docs/LANGUAGE.md docs/SCALE.md "$(DESTDIR)$(DOCDIR)"
	install -m 644 examples/*.* "$(DESTDIR)$(DOCDIR)/examples"
	chmod 755 "$(DESTDIR)$(DOCDIR)"/examples/*.sh
	cp -R contrib "$(DESTDIR)$(DOCDIR)"
	chmod -R a+rX "$(DESTDIR)$(DOCDIR)/contrib"

uninstall:
	rm -f "$(DESTDIR)$(BINDIR)/awk" "$(DESTDIR)$(MANDIR)/man1/awk.1"
	rm -f "$(DESTDIR)$(BINDIR)/awk-check" "$(DESTDIR)$(MANDIR)/man1/awk-check.1"
	rm -rf "$(DESTDIR)$(DOCDIR)"

# What builds leave; what rt keeps in each crate, too, so that the next build proves everything.
clean:
	rm -rf out crates/*/out
