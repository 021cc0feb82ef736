# libaltair and the command altair-close, from the proved archive.
#
#   make                              target/altair: libaltair.a, libaltair.so.5, altair-close
#   make run                          closes the sample record and prints its statement
#   make install PREFIX=/usr/local    and below DESTDIR, where that is given; `make uninstall` takes the same words
#   make release                      target/release: an archive to hand on and its sha256 sum, the same bytes each time
#   make wheel                        target/release: the Python wheel, which carries the shared library, and its sha256 sum
#   make deb                          target/release: Debian packages of library, development files, Python package and commands
#   make programs                     target/bin: the proved programs, close_record and try_outage
#   make test                         tests/run
#   make clean                        removes target/
#
# The proved functions are the archive that packaging/archive writes; PROVED=FILE names one that was made elsewhere. The proved program
# that altair-outage runs is target/bin/try_outage, which `make programs` writes; PROGRAMS=FOLDER names another folder.
VERSION := 5.0.0
INTERFACE := $(firstword $(subst ., ,$(VERSION)))
PREFIX ?= /usr/local
DESTDIR ?=
CFLAGS ?= -O2
release := altair-$(VERSION)-x86_64-linux
wheel := altair_close-$(VERSION)-py3-none-linux_x86_64.whl

out := target/altair
stage := target/stage/$(release)
manifest := share/doc/altair/SHA256SUMS
shared := libaltair.so.$(VERSION)
PROVED ?= crates/exports/out/libexports.a
PROGRAMS ?= target/bin
# every file of tools/ that can be run is installed as altair-NAME; tools/crates reads the repository's own sources
commands := $(filter-out crates,$(notdir $(shell find tools -maxdepth 1 -type f -perm -u=x | LC_ALL=C sort)))
python := share/altair/python
# no path and no date of this machine in what is built
compile := $(CC) -std=c11 -Wall -Wextra -fPIC -ffile-prefix-map=$(CURDIR)=. $(CFLAGS) -I bindings/c
link := $(CC) $(LDFLAGS) -Wl,--build-id=none

# without what rt makes there
sources = crates.txt $(shell find crates -path '*/out' -prune -o -name '*.rt' -print)
programs := close_record try_outage

.PHONY: all programs run install uninstall stage release wheel deb test clean
all: $(out)/libaltair.a $(out)/$(shared) $(out)/altair-close

rt_is_here = @command -v rt >/dev/null || { echo 'make: no rt on the PATH: the Rattle toolchain proves and writes $@' >&2; exit 1; }
ifeq ($(origin PROVED),file)
$(PROVED): $(sources)
	$(rt_is_here)
	packaging/archive
	touch $@
endif
programs: $(programs:%=$(PROGRAMS)/%)
ifeq ($(origin PROGRAMS),file)
# `rt ci` leaves a program in its crate's folder, and so does `rt run`, which runs it too
crates/close_record/out/close_record crates/try_outage/out/try_outage: $(sources)
	$(rt_is_here)
	rm -f $@
	cd $(dir $(@D)) && { rt run <stdin >/dev/null; test -x out/$(@F); }
	touch $@
$(PROGRAMS)/close_record: crates/close_record/out/close_record
$(PROGRAMS)/try_outage: crates/try_outage/out/try_outage
$(programs:%=$(PROGRAMS)/%):
	mkdir -p $(@D)
	cp $< $@.new && mv -f $@.new $@
endif

run: all
	mkdir -p target/run
	tools/record write samples/example.json target/run/example.record
	$(out)/altair-close --amounts target/run/example.record

# Each is made beside its name and moved there at the end: where a step fails, the file of before stays.
$(out)/altair.o: bindings/c/altair.c bindings/c/altair.h bindings/c/checked.h Makefile
	mkdir -p $(out)
	$(compile) -c -o $@ $<

$(out)/libaltair.a: $(PROVED) $(out)/altair.o
	rm -rf $(out)/members $@.new && mkdir $(out)/members
	cd $(out)/members && ar x $(abspath $(PROVED))
	ar rcsD $@.new $(out)/members/*.o $(out)/altair.o
	rm -rf $(out)/members && mv -f $@.new $@

$(out)/$(shared): $(out)/libaltair.a packaging/exported
	$(link) -shared -Wl,-soname,libaltair.so.$(INTERFACE) -Wl,--version-script=packaging/exported -Wl,--no-undefined \
	    -o $@.new -Wl,--whole-archive $< -Wl,--no-whole-archive
	mv -f $@.new $@
	ln -sf $(shared) $(out)/libaltair.so.$(INTERFACE)
	ln -sf libaltair.so.$(INTERFACE) $(out)/libaltair.so

$(out)/altair-close: command/altair-close.c bindings/c/altair.h $(out)/libaltair.a
	$(compile) -DVERSION='"$(VERSION)"' $(LDFLAGS) -Wl,--build-id=none -o $@.new $< $(out)/libaltair.a
	mv -f $@.new $@

# -- Installing: what is installed is what stands below $(stage), and the manifest names it

fill = sed 's/@VERSION@/$(VERSION)/g; s/@INTERFACE@/$(INTERFACE)/g'
installed = sed -f packaging/installed.sed
stage: all $(PROGRAMS)/try_outage
	rm -rf $(stage)
	install -d $(stage)/lib/pkgconfig $(stage)/lib/cmake/altair $(stage)/share/doc/altair/samples $(stage)/share/altair/rust $(stage)/$(python)
	install -D -t $(stage)/bin $(out)/altair-close
	install -D -t $(stage)/libexec/altair $(PROGRAMS)/try_outage
	install -D -m 644 -t $(stage)/lib $(out)/libaltair.a $(out)/$(shared)
	ln -s $(shared) $(stage)/lib/libaltair.so.$(INTERFACE)
	ln -s libaltair.so.$(INTERFACE) $(stage)/lib/libaltair.so
	mkdir $(stage)/include && $(installed) bindings/c/altair.h >$(stage)/include/altair.h
	$(fill) packaging/altair.pc >$(stage)/lib/pkgconfig/altair.pc
	$(fill) packaging/altair-config.cmake >$(stage)/lib/cmake/altair/altair-config.cmake
	$(fill) packaging/altair-config-version.cmake >$(stage)/lib/cmake/altair/altair-config-version.cmake
	$(fill) packaging/README.md >$(stage)/share/doc/altair/README.md
	for file in CHANGELOG.md docs/RECORD_FILE.md docs/POOLS.md; do $(installed) $$file >$(stage)/share/doc/altair/$${file##*/} || exit; done
	install -m 644 -t $(stage)/share/doc/altair LICENSE.md NOTICE
	install -m 644 -t $(stage)/share/doc/altair/samples samples/example.json samples/electra.json samples/*.txt
	cp -R bindings/rust/Cargo.lock bindings/rust/build.rs bindings/rust/src bindings/rust/examples $(stage)/share/altair/rust
	sed 's#\.\./\.\./LICENSE#../../doc/altair/LICENSE#' bindings/rust/Cargo.toml >$(stage)/share/altair/rust/Cargo.toml
	$(installed) -i $(stage)/share/altair/rust/examples/*.rs
	cd bindings/python && find altair_close \( -name '*.py' -o -name py.typed \) -exec cp --parents -t $(CURDIR)/$(stage)/$(python) {} +
	cd tools && find . -mindepth 2 -name '*.py' -exec cp --parents -t $(CURDIR)/$(stage)/$(python) {} +
	find $(stage)/$(python) -name '*.py' -exec $(installed) -i {} +
	ln -s ../../../../lib/libaltair.so.$(INTERFACE) $(stage)/$(python)/altair_close/libaltair.so
	for name in $(commands); do $(installed) tools/$$name >$(stage)/bin/altair-$$name && chmod 755 $(stage)/bin/altair-$$name || exit; done
	packaging/manual $(stage) $(VERSION)
	chmod -R u=rwX,go=rX $(stage)
	cd $(stage) && find . ! -type d | LC_ALL=C sort | xargs sha256sum >$(CURDIR)/target/stage/sums
	mv target/stage/sums $(stage)/$(manifest)

install: stage
	mkdir -p "$(DESTDIR)$(PREFIX)"
	tar -C $(stage) -cf - . | tar -C "$(DESTDIR)$(PREFIX)" --no-same-owner --no-overwrite-dir -xf -

uninstall:
	@packaging/uninstall "$(DESTDIR)$(PREFIX)" $(manifest)

release: stage
	mkdir -p target/release
	tar -C target/stage --sort=name --mtime=@0 --owner=0 --group=0 --numeric-owner -cf - $(release) | gzip -9n \
	    >target/release/$(release).tar.gz.new
	mv -f target/release/$(release).tar.gz.new target/release/$(release).tar.gz
	cd target/release && sha256sum $(release).tar.gz | tee $(release).tar.gz.sha256

wheel: all
	python3 -B bindings/python/build_wheel.py target/release
	cd target/release && sha256sum $(wheel) | tee $(wheel).sha256

deb: stage
	packaging/deb $(stage) $(VERSION) target/release

test:
	tests/run

clean:
	rm -rf target
