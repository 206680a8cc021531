# Installs the commands, pages for man, and completion under PREFIX, and takes them away again. The program is proved and built by bin/anki and bin/ship.
PREFIX ?= /usr/local

install:
	DESTDIR="$(DESTDIR)" tools/install "$(PREFIX)"

uninstall:
	DESTDIR="$(DESTDIR)" tools/install --remove "$(PREFIX)"

.PHONY: install uninstall
