# Installs lolamon, takes it away again, and runs the tests. Nothing is built: the program lies in bin/.
#
#   make install PREFIX=/usr/local    DESTDIR=.. goes before PREFIX, for those who make packages
#   make uninstall PREFIX=/usr/local  takes away what was installed there
#   make check                        runs all tests that need no kit

PREFIX = /usr/local
DESTDIR =
PROGRAM = bin/x86_64-linux/lolamon

all:
	@echo "There is nothing to build: ./lolamon runs from here. 'make install' installs it, 'make check' tests it."

install:
	@tools/install '$(DESTDIR)$(PREFIX)' '$(PROGRAM)'

uninstall:
	@tools/uninstall '$(DESTDIR)$(PREFIX)'

check:
	@./check

.PHONY: all install uninstall check
