# make            the library and the tool, in target/
# make test       tests of the tool and of what is built around the library (tests/desk); tests/run has all tests of what is built
# make check      the gate: every proof that this machine has not passed yet, then all tests
# make install    to PREFIX, below DESTDIR if that is given
# make release    one tar with the static tool, library, header, man page and page, and its checksum, in target/release
# make deb        the same as a Debian package, in target/deb
# make page       the page for a browser: target/page/zealfs.html
# make words      after an edit of words/numbers.txt

PREFIX ?= /usr/local
VERSION := $(shell sed -n 's/^version = "\(.*\)"/\1/p' rust/zealfs-tool/Cargo.toml)
RELEASE := zealfs-$(VERSION)-x86_64-linux
# one for each version of cartridges
ARCHIVES := target/staticlib/libzealfs_c.a target/staticlib/libzealfs2_c.a
TOOL := target/desk/release/zealfs
# Static, so that the tool runs wherever Linux does.
CARGO := RUSTFLAGS='-C target-feature=+crt-static' CARGO_TARGET_DIR=target/desk cargo

.PHONY: build archive library tool man page words test check install release deb clean

build: library tool man

archive: $(ARCHIVES)

target/staticlib/lib%.a: crates.txt $(shell find crates \( -path '*/must-fail' -o -path '*/out' \) -prune -o \( -name '*.rt' -o -name '*.antt' \) -print)
	@command -v rt > /dev/null || { echo "make: there is no rt: the Rattle toolchain proves and builds the library; a release needs none" >&2; exit 1; }
	tools/build $*
	touch $@

library: $(ARCHIVES)
	tools/library

tool: library
	$(CARGO) build --release --offline -j1 --manifest-path rust/Cargo.toml

man: target/zealfs.1

target/zealfs.1: docs/zealfs.1 rust/zealfs/Cargo.toml tools/manpage
	@mkdir -p target
	tools/manpage > $@

page: target/page/zealfs.html

target/page/zealfs2_c.bc: $(ARCHIVES)
	tools/module
	touch $@

target/page/zealfs.html: target/page/zealfs2_c.bc include/zealfs.h tools/page.py tools/image.py tools/words.py words/numbers.txt rust/zealfs/Cargo.toml $(wildcard web/*)
	tools/page.py

words:
	tools/words.py

test:
	tests/desk

check:
	.ci/run

install: build page
	PREFIX='$(PREFIX)' DESTDIR='$(DESTDIR)' VERSION='$(VERSION)' tools/install

release: build page
	rm -rf target/release
	PREFIX='' DESTDIR='target/release/$(RELEASE)' PC_PREFIX='$${pcfiledir}/../..' VERSION='$(VERSION)' tools/install
	tar -C target/release --sort=name --mtime=@0 --owner=0 --group=0 --numeric-owner -cf - $(RELEASE) | gzip -9n > target/release/$(RELEASE).tar.gz
	cd target/release && sha256sum $(RELEASE).tar.gz > $(RELEASE).tar.gz.sha256
	rm -rf target/release/$(RELEASE)

deb: build page
	VERSION='$(VERSION)' tools/deb

# what make made; the proofs' results stay
clean:
	rm -rf target/deb target/desk target/lib target/page target/release target/zealfs.1
