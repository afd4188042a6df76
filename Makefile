# make            ./run: proves, builds, and says where things are; then the shared library
# make test       ./test: the gate
# make install    [PREFIX=/usr/local] [DESTDIR=]: headers, archive, shared library, zaqnuti.pc, the program displacement, the command
#                 zaqnuti where it has been built (cargo build --release in bindings/rust), manual pages, licences, the kit's
#                 identity, checksums
# make uninstall  removes what that has put there
# make dist       target/dist/zaqnuti-VERSION-x86_64-linux.tar.gz: the same tree, which works wherever it is unpacked, with the
#                 library for every other target that `packaging/box` has made of the sources as they are
# make arm        target/aarch64/libzaqnuti.a, for 64-bit ARM on Linux: needs Debian's gcc-aarch64-linux-gnu
# make arm-test   [N=1000000]: runs it under qemu-aarch64 (Debian's qemu-user) beside the one for x86-64, with N answers of the
#                 Rust of each kind; with a million about 20 minutes of a processor
# make boxes      the library for every target of docs/BOXES.md whose packages are installed
# make deb        target/deb/*.deb: libzaqnuti0.MINOR, libzaqnuti-dev, zaqnuti, python3-zaqnuti; `packaging/deb test` tries them,
#                 `packaging/deb test --fresh` in a fresh system by debootstrap
# make web        target/web/zaqnuti.html, one file for a browser, with the library as WebAssembly in it: needs Debian's nodejs
# make clean      removes target/

PREFIX = /usr/local
DESTDIR =
# The libraries for other targets, where they are packed: lib/TARGET/libzaqnuti.a, lib/wasm32/zaqnuti.wasm.
BOXES =
# The page for a browser, where it is packed: $(doc)/zaqnuti.html.
PAGE =
N = 1000000
# What zaqnuti.pc has as its prefix.
PC_PREFIX = $(PREFIX)
INSTALL = install

version := $(shell sed -n 's/.*ZAQNUTI_VERSION "\(.*\)"/\1/p' include/zaqnuti.h)
name = zaqnuti-$(version)-x86_64-linux
archive = target/staticlib/libzaqnuti.a
program = target/bin/displacement
# Before 1.0 a minor version may change a call, so that it is part of the shared library's name.
soname = libzaqnuti.so.$(basename $(version))
shared = target/lib/libzaqnuti.so.$(version)
# The command, where cargo has built it.
command := $(wildcard bindings/rust/target/release/zaqnuti)
to = $(DESTDIR)$(PREFIX)
doc = share/doc/zaqnuti
papers = LICENSE-MIT LICENSE-APACHE NOTICE KIT CHANGELOG.md docs/REFUSALS.md docs/LINE_FORM.md docs/TRUST.md docs/BOXES.md \
	examples/easy.c examples/firmware.c
links = lib/$(soname) lib/libzaqnuti.so
installed = include/zaqnuti.h include/zaqnuti_easy.h lib/libzaqnuti.a lib/$(notdir $(shared)) lib/pkgconfig/zaqnuti.pc lib/pkgconfig/zaqnuti-shared.pc bin/displacement \
	$(if $(command),bin/zaqnuti) share/man/man1/displacement.1 share/man/man1/zaqnuti.1 share/man/man3/zaqnuti.3 \
	$(addprefix $(doc)/,$(notdir $(papers))) $(BOXES) $(PAGE)

.PHONY: all test shared install uninstall dist deb arm arm-test boxes web clean

all:
	./run
	$(MAKE) --no-print-directory shared

test:
	./test

# What is there is installed as it is, so that root needs no kit; `make` brings it up to date.
$(archive) $(program):
	./run

shared: $(shared)

# The functions are those of the proved archive; only they are exported. The other names are no links that point, since rt ci takes none
# in the repository.
$(shared): $(archive) packaging/exports.map
	mkdir -p $(dir $@)
	$(CC) -shared -Wl,-soname,$(soname) -Wl,--version-script=packaging/exports.map -Wl,-z,now -Wl,-z,noexecstack \
		-Wl,--whole-archive $(archive) -Wl,--no-whole-archive -o $@
	ln -f $@ target/lib/$(soname)
	ln -f $@ target/lib/libzaqnuti.so

install: $(archive) $(program) $(shared)
	$(INSTALL) -d '$(to)/include' '$(to)/lib/pkgconfig' '$(to)/bin' '$(to)/share/man/man1' '$(to)/share/man/man3' '$(to)/$(doc)'
	$(INSTALL) -m 644 include/zaqnuti.h include/zaqnuti_easy.h '$(to)/include'
	$(INSTALL) -m 644 $(archive) $(shared) '$(to)/lib'
	ln -sf $(notdir $(shared)) '$(to)/lib/$(soname)'
	ln -sf $(soname) '$(to)/lib/libzaqnuti.so'
	$(INSTALL) -m 755 $(program) $(command) '$(to)/bin'
	for name in zaqnuti zaqnuti-shared; do \
		sed -e 's|@PREFIX@|$(PC_PREFIX)|' -e 's|@VERSION@|$(version)|' packaging/$$name.pc.in >"$(to)/lib/pkgconfig/$$name.pc" || exit 1; done
	sed 's|@VERSION@|$(version)|' packaging/displacement.1 >'$(to)/share/man/man1/displacement.1'
	sed 's|@VERSION@|$(version)|' packaging/zaqnuti.1 >'$(to)/share/man/man1/zaqnuti.1'
	sed 's|@VERSION@|$(version)|' packaging/zaqnuti.3 >'$(to)/share/man/man3/zaqnuti.3'
	$(INSTALL) -m 644 $(papers) '$(to)/$(doc)'
	for file in $(BOXES); do $(INSTALL) -d "$(to)/$$(dirname $$file)" && $(INSTALL) -m 644 "target/$${file#lib/}" "$(to)/$$file" || exit 1; done
	for file in $(PAGE); do $(INSTALL) -m 644 target/web/zaqnuti.html "$(to)/$$file" || exit 1; done
	cd '$(to)' && sha256sum $(installed) >$(doc)/SHA256SUMS
	@echo "Zaqnuti $(version) is in $(to); '(cd $(to) && sha256sum -c $(doc)/SHA256SUMS)' checks it"

uninstall:
	cd '$(to)' && rm -f $(installed) $(links) bin/zaqnuti $(doc)/SHA256SUMS
	-rmdir '$(to)/$(doc)'

# The times of the files are those of the last commit, so that the same tree gives the same bytes.
dist: $(archive) $(program) $(shared)
	rm -rf target/dist
	boxes=$$(for target in $$(packaging/box targets); do packaging/box $$target fresh && packaging/box $$target file | sed 's|^target/|lib/|'; done); \
	[ -n "$$boxes" ] || echo 'without libraries for other targets: none is of these sources (make boxes)'; \
	page=; case $$boxes in *zaqnuti.wasm*) \
		[ ! -f target/web/zaqnuti.html ] || [ -n "$$(find web target/wasm32/zaqnuti.wasm -newer target/web/zaqnuti.html)" ] || page=$(doc)/zaqnuti.html ;; esac; \
	[ -n "$$page" ] || echo 'without the page for a browser: none is of these sources (make web)'; \
	$(MAKE) --no-print-directory install DESTDIR=target/dist PREFIX=/$(name) PC_PREFIX='$$$${pcfiledir}/../..' BOXES="$$(echo $$boxes)" PAGE="$$page"
	when=$$(git log -1 --format=%ct 2>/dev/null || echo 0); \
	tar -C target/dist --sort=name --owner=0 --group=0 --numeric-owner --mtime="@$$when" -cf target/dist/$(name).tar $(name)
	gzip -9n target/dist/$(name).tar
	cd target/dist && sha256sum $(name).tar.gz >$(name).tar.gz.sha256 && rm -rf $(name)
	@cat target/dist/$(name).tar.gz.sha256

deb: $(archive) $(program) $(shared)
	packaging/deb

arm:
	packaging/box aarch64 archive

arm-test:
	packaging/box aarch64 test $(N)

boxes:
	for target in $$(packaging/box targets); do packaging/box $$target archive; status=$$?; [ $$status -eq 0 ] || [ $$status -eq 3 ] || exit 1; done

web:
	packaging/box wasm32 fresh || packaging/box wasm32 archive
	web/build target/wasm32/zaqnuti.wasm target/web/zaqnuti.html

clean:
	rm -rf target
