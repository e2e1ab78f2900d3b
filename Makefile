# What users take, for x86-64: the program galoxumi, and the library for C and Rust. tool/make does the work, and says what is
# missing where something is.
#   make            builds the program, the archive and the shared object
#   make archive    builds the archive alone, target/staticlib/libgaloxumi.a
#   make install    installs them with the header, the pkg-config file and the man page, under PREFIX
#   make uninstall  removes what was installed there
#   make release    writes target/release: the archive, the header, the program, and release.toml, which says what they are of
PREFIX = /usr/local
DESTDIR =

build archive install uninstall release:
	@PREFIX='$(PREFIX)' DESTDIR='$(DESTDIR)' tool/make $@

.PHONY: build archive install uninstall release
