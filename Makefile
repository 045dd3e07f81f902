# make install PREFIX=/usr/local: the programs, their front, its man page and its completion, below PREFIX.
# Everything is built first. DESTDIR, where given, stands before PREFIX and isn't kept in any file.
PREFIX = /usr/local
DESTDIR =
TOP = $(DESTDIR)$(PREFIX)
LIB = $(TOP)/lib/llinosfar
PROGRAMS = replay_capture make_day list_day agree

.PHONY: all check install uninstall

all:
	./llinosfar build

check:
	./check

install: all
	rm -rf $(LIB)
	install -d $(LIB)/desk $(LIB)/target/bin $(LIB)/second/target/release
	install -d $(TOP)/bin $(TOP)/share/man/man1 $(TOP)/share/bash-completion/completions $(TOP)/share/doc/llinosfar
	install -m 755 llinosfar $(LIB)
	install -m 644 desk/*.py $(LIB)/desk
	install -m 755 $(PROGRAMS:%=target/bin/%) $(LIB)/target/bin
	install -m 755 second/target/release/second $(LIB)/second/target/release
	./llinosfar --version > $(LIB)/VERSION
	ln -sf ../lib/llinosfar/llinosfar $(TOP)/bin/llinosfar
	install -m 644 docs/llinosfar.1 $(TOP)/share/man/man1
	./llinosfar completion bash > $(TOP)/share/bash-completion/completions/llinosfar
	install -m 644 docs/DESK.md $(TOP)/share/doc/llinosfar

uninstall:
	rm -rf $(LIB) $(TOP)/share/doc/llinosfar
	rm -f $(TOP)/bin/llinosfar $(TOP)/share/man/man1/llinosfar.1 $(TOP)/share/bash-completion/completions/llinosfar
