# make: the archive, target/staticlib/liblattrugone.a. make install: it, the header and lattrugone.pc below PREFIX. make dist: these
# with the examples, the Rust crate and how to use them, packed in target/dist. Where bindings/archives finds an archive out of date,
# it is made first, which wants the Rattle toolchain.
SHELL = /bin/bash
PREFIX = /usr/local
DESTDIR =

.PHONY: library install dist

library:
	bindings/library

install: library
	bindings/install "$(DESTDIR)$(PREFIX)"

dist: library
	bindings/dist
