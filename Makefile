# Installs clpq and clpq-lint, and makes a Debian package of them. The programs are those that .ci/run has proved and built.
#
#   make install [PREFIX=/usr/local] [DESTDIR=]
#   make uninstall [PREFIX=/usr/local] [DESTDIR=]
#   make deb                                       out/clpq_VERSION_ARCHITECTURE.deb
#
# PROGRAM=PATH and LINT=PATH take other builds. No licence is chosen yet, so the package has no copyright file and must not be passed on as free
# software.

PREFIX = /usr/local
DESTDIR =
PROGRAM = crates/clpq/out/clpq
LINT = crates/lint/out/lint

to = $(DESTDIR)$(PREFIX)
doc = $(to)/share/doc/clpq
# where Debian's Python looks under /usr; elsewhere it is to be named in PYTHONPATH
site = $(to)/lib/python3/dist-packages/clpq
pages = REFERENCE.md GUIDE.md FROM-SWI.md PYTHON.md SCALE.md

.PHONY: install uninstall deb

$(PROGRAM) $(LINT):
	@echo "$@ does not stand here: .ci/run proves and builds it" >&2; exit 1

install: $(PROGRAM) $(LINT)
	install -D -m 755 $(PROGRAM) $(to)/bin/clpq
	install -D -m 755 $(LINT) $(to)/bin/clpq-lint
	install -D -m 644 docs/clpq.1 $(to)/share/man/man1/clpq.1
	install -D -m 644 docs/clpq-lint.1 $(to)/share/man/man1/clpq-lint.1
	install -d $(to)/share/clpq/lib $(doc)/docs $(doc)/examples
	install -m 644 lib/*.pl $(to)/share/clpq/lib
	install -m 644 README.md CHANGELOG.md $(doc)
	install -m 644 $(addprefix docs/,$(pages)) $(doc)/docs
	install -m 644 examples/README.md examples/*.pl examples/*.in examples/*.out $(doc)/examples
	ln -sfn ../../clpq/lib $(doc)/lib
	install -d $(doc)/docs/pictures $(site)
	install -m 644 docs/pictures/*.svg $(doc)/docs/pictures
	install -m 644 python/clpq/*.py python/clpq/py.typed $(site)
	install -D -m 644 editors/clpq.vim $(to)/share/vim/vimfiles/syntax/clpq.vim
	install -D -m 644 editors/clpq.bash $(to)/share/bash-completion/completions/clpq
	ln -sfn clpq $(to)/share/bash-completion/completions/clpq-lint

uninstall:
	rm -f $(to)/bin/clpq $(to)/bin/clpq-lint $(to)/share/man/man1/clpq.1 $(to)/share/man/man1/clpq-lint.1 $(to)/share/vim/vimfiles/syntax/clpq.vim
	rm -f $(to)/share/bash-completion/completions/clpq $(to)/share/bash-completion/completions/clpq-lint
	rm -rf $(to)/share/clpq $(doc) $(site)

date = $(shell git log -1 --format=%cd --date=format:%Y%m%d)
version = 0~$(date).$(shell git log -1 --format=%h --abbrev=8)-1
architecture = $(shell dpkg --print-architecture)
maintainer = $(shell git log -1 --format='%an <%ae>')
# the newest version of the C library that the programs name
libc = $(shell objdump -T $(PROGRAM) $(LINT) | grep -o 'GLIBC_[0-9.]*' | sort -Vu | tail -n 1 | cut -d_ -f2)
tree = out/deb
package = out/clpq_$(version)_$(architecture).deb

define control
Package: clpq
Version: $(version)
Architecture: $(architecture)
Maintainer: $(maintainer)
Installed-Size: @SIZE@
Depends: libc6 (>= $(libc))
Recommends: python3
Suggests: python3-matplotlib
Section: math
Priority: optional
Description: Prolog with exact rational linear constraints
 clpq answers queries over clauses and linear constraints between fractions,
 forwards, backwards and with unknowns. Every number is exact, and the program
 is proved to write what its definitions say.
 .
 The package has the program, clpq-lint, which finds mistakes in programs
 without running them, their manual pages, a guide, a reference, worked
 examples, a library of common predicates in /usr/share/clpq/lib, and a
 module for Python.
endef

define changes
clpq ($(version)) unstable; urgency=medium

  * Made of the sources of this day; /usr/share/doc/clpq/CHANGELOG.md says
    what changed.

 -- $(maintainer)  $(shell git log -1 --format=%cD)
endef

deb: export CONTROL = $(control)
deb: export CHANGES = $(changes)
deb: $(PROGRAM) $(LINT)
	rm -rf $(tree)
	$(MAKE) --no-print-directory install DESTDIR=$(tree) PREFIX=/usr
	strip --strip-unneeded $(tree)/usr/bin/clpq $(tree)/usr/bin/clpq-lint
	gzip -9n $(tree)/usr/share/man/man1/clpq.1 $(tree)/usr/share/man/man1/clpq-lint.1
	echo "$$CHANGES" | gzip -9n > $(tree)/usr/share/doc/clpq/changelog.Debian.gz
	install -d $(tree)/DEBIAN
	echo "$$CONTROL" | sed "s/@SIZE@/$$(du -sk $(tree)/usr | cut -f1)/" > $(tree)/DEBIAN/control
	cd $(tree) && find usr -type f -print0 | sort -z | xargs -0 md5sum > DEBIAN/md5sums
	dpkg-deb --root-owner-group --build $(tree) $(package)
