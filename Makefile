# For packagers. Nothing is built: the program of dist/ is installed as it was proved. Don't strip it, or it is another file than
# dist/sources names.
PREFIX = /usr/local
export PREFIX DESTDIR

all: # shows the program that is installed
	@share/which-build
install:
	@share/install "$$PREFIX"
uninstall:
	@share/install --uninstall "$$PREFIX"
release:
	@share/release
wheel: # packages for pip
	@share/wheel
pages: # the definitions to print, docs/definitions.html
	@python3 docs/definitions.py
films: # the films of docs/films
	@python3 -m tests.films
vsix: # VS Code's extension
	@share/vsix
deb: # a package for Debian
	@share/deb
npm: # a package for Node
	@share/npm
check: # all that needs only a program
	@./check --program
.PHONY: all install uninstall release wheel pages films vsix deb npm check
