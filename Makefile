# make            proves and builds the program
# make test       runs every test that needs no proof
# make install    puts program, companions, man page, completion and documents below PREFIX (/usr/local), and below DESTDIR if given
# make uninstall  takes them away again
# make library    proves and builds the library for C, which the release has already
# make package    makes the download, here: a package for Debian, a tar file, and their sums
# make deb        makes the package for Debian alone

PREFIX = /usr/local
DESTDIR =

all:
	tools/build

test:
	tools/test/all

install:
	tools/install --prefix "$(PREFIX)" --destdir "$(DESTDIR)"

uninstall:
	tools/install --remove --prefix "$(PREFIX)" --destdir "$(DESTDIR)"

library:
	tools/library --build

package:
	tools/package

deb:
	tools/deb

.PHONY: all test install uninstall library package deb
