# Installs the proved program, which `./acquire` or `.ci/run` has built: nothing is built here.
#
# make install PREFIX=/usr/local [DESTDIR=FOLDER]      and uninstall
.POSIX:
PREFIX = /usr/local
DESTDIR =

install:
	@tools/install.sh "$(DESTDIR)" "$(PREFIX)"

uninstall:
	@tools/install.sh --remove "$(DESTDIR)" "$(PREFIX)"

.PHONY: install uninstall
