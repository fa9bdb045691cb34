# Installs the released files, or removes what was installed. It needs Python 3 with its standard library, and no compiler and no prover. `./build` and
# `tools/libraries` build from the sources.
#
#     make install                        into /usr/local
#     make install PREFIX=/usr DESTDIR=d  into the folder d, as a package would have it
#     make uninstall                      with the same words: removes what was installed, and the folders that were made for it
#     make packages                       all packages, into out/, and those of Linux on arm64 into out/aarch64-linux/; or one kind:
#     make deb                            the Debian package, by dpkg-deb
#     make tarball                        the tarball for any Linux with glibc
#     make wheel                          the wheel for Python
#     make npm                            the package for JavaScript
#     make crate                          the crate for Rust

PREFIX = /usr/local
DESTDIR =
BINDIR = $(PREFIX)/bin
LIBDIR = $(PREFIX)/lib
INCLUDEDIR = $(PREFIX)/include
DATADIR = $(PREFIX)/share
MANDIR = $(DATADIR)/man
DOCDIR = $(DATADIR)/doc/jatshegi
# If these two are empty, tools/install takes Debian's folders for PREFIX=/usr, else those below PREFIX that python3 and zsh look into.
PYTHONDIR =
ZSHDIR =
# The folder of release/ that is installed. If it is empty, that is the machine's own.
SYSTEM =

export SYSTEM PREFIX DESTDIR BINDIR LIBDIR INCLUDEDIR DATADIR MANDIR DOCDIR PYTHONDIR ZSHDIR

# The comment at the head of this file.
help:
	@sed -n '/^#/!q; s/^# \{0,1\}//p' Makefile

# Debian's python3-minimal lacks the most of the library.
python:
	@python3 -c 'import hashlib, lzma, shutil, site, sysconfig, tarfile' 2>/dev/null || \
	{ echo 'make: this needs Python 3 with its standard library (Debian: apt install python3)' >&2; exit 1; }

install: python
	@tools/install

uninstall: python
	@tools/install --remove

packages: python
	@tools/packages

deb tarball wheel npm crate: python
	@tools/packages --$@

.PHONY: help python install uninstall packages deb tarball wheel npm crate
