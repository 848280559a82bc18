# make                       the shared library, linked from the proved archives, for Python and for programs that load it; mm2mx and mx2mm
# make install PREFIX=DIR    header, archive, shared library, pkg-config file and Python package under DIR (/usr/local)
# make bundle                all of these with examples and documents in one file, for those who have no Rattle toolchain, with checksums
# make check                 the examples and tests of C, Rust and Python (.ci/library)
# make version               the number of the file VERSION, written wherever it is shown

.DEFAULT_GOAL := all
PREFIX ?= /usr/local
DESTDIR ?=
PYTHON ?= python3
VERSION := $(shell cat VERSION)
SONAME := libmultigrid_c.so.$(basename $(VERSION))
LIBRARY := target/lib/libmultigrid_c.so
BUNDLE := hifewugbe-$(VERSION)-x86_64-linux
DOCUMENTS := README.md CHANGELOG.md LICENSE-APACHE LICENSE-MIT NOTICE VERSION docs/CONTROLS.md docs/REFUSALS.md docs/FOR-THE-TANK-MAKER.md docs/MATRIX-MARKET.md

# The folder of the archives libmultigrid_c.a and libmatrix_market_c.a; where it is not named, they are proved here.
ifeq ($(HIFEWUGBE_LIB_DIR),)
ARCHIVE := target/staticlib/libmultigrid_c.a
CONVERSIONS := target/staticlib/libmatrix_market_c.a
$(ARCHIVE) $(CONVERSIONS): target/staticlib/lib%.a: $(shell find crates.txt crates -name out -prune -o -type f -print)
	.ci/prove archive $*
# One run of rt at a time.
$(CONVERSIONS): $(ARCHIVE)
else
ARCHIVE := $(HIFEWUGBE_LIB_DIR)/libmultigrid_c.a
CONVERSIONS := $(HIFEWUGBE_LIB_DIR)/libmatrix_market_c.a
endif
PROGRAMS := target/programs/mm2mx target/programs/mx2mm

# Where the Python beside PREFIX looks for packages; else where one of its kind would.
FOLDER = import sys, sysconfig; at = sysconfig.get_path("purelib"); own = at.startswith(sys.argv[1] + "/"); \
	print(at if own else sysconfig.get_path("purelib", "posix_prefix", {"base": sys.argv[1]}))
PYTHONDIR ?= $(shell $(PYTHON) -c '$(FOLDER)' '$(PREFIX)')

.PHONY: all install bundle check version clean
all: $(LIBRARY) $(PROGRAMS)

$(PROGRAMS): target/programs/%: programs/%.c programs/convert.h include/matrix_market.h include/multigrid.h $(CONVERSIONS)
	@mkdir -p $(@D)
	$(CC) -O2 -Wall -Wextra -o $@ $< $(CONVERSIONS)

# It needs memcpy and memset of the C library, and has no start code.
$(LIBRARY): $(ARCHIVE) $(CONVERSIONS)
	@mkdir -p $(@D)
	$(CC) -shared -nostartfiles -o $@ -Wl,-soname,$(SONAME),-z,defs,-z,text,-z,noexecstack -Wl,--whole-archive $^ -Wl,--no-whole-archive

install: all
	install -d '$(DESTDIR)$(PREFIX)/include' '$(DESTDIR)$(PREFIX)/lib/pkgconfig' '$(DESTDIR)$(PYTHONDIR)/hifewugbe'
	install -m 644 include/multigrid.h include/matrix_market.h '$(DESTDIR)$(PREFIX)/include'
	install -m 644 $(ARCHIVE) $(CONVERSIONS) '$(DESTDIR)$(PREFIX)/lib'
	install -d '$(DESTDIR)$(PREFIX)/bin'
	install -m 755 $(PROGRAMS) '$(DESTDIR)$(PREFIX)/bin'
	install -m 755 $(LIBRARY) '$(DESTDIR)$(PREFIX)/lib/libmultigrid_c.so.$(VERSION)'
	ln -sf libmultigrid_c.so.$(VERSION) '$(DESTDIR)$(PREFIX)/lib/$(SONAME)'
	ln -sf $(SONAME) '$(DESTDIR)$(PREFIX)/lib/libmultigrid_c.so'
	sed 's/@VERSION@/$(VERSION)/' include/hifewugbe.pc.in >'$(DESTDIR)$(PREFIX)/lib/pkgconfig/hifewugbe.pc'
	install -m 644 python/hifewugbe/*.py '$(DESTDIR)$(PYTHONDIR)/hifewugbe'
	install -m 755 $(LIBRARY) '$(DESTDIR)$(PYTHONDIR)/hifewugbe/libmultigrid_c.so'
	@echo 'installed under $(DESTDIR)$(PREFIX); the Python package in $(DESTDIR)$(PYTHONDIR)'

bundle: all
	rm -rf target/bundle
	$(MAKE) --no-print-directory install DESTDIR=target/bundle PREFIX=/$(BUNDLE) PYTHONDIR=/$(BUNDLE)/python
	cp -R examples target/bundle/$(BUNDLE)
	mkdir target/bundle/$(BUNDLE)/python/examples && cp python/examples/*.py target/bundle/$(BUNDLE)/python/examples
	mkdir target/bundle/$(BUNDLE)/rust && cp -R $(addprefix rust/,Cargo.toml Cargo.lock build.rs src examples tests) target/bundle/$(BUNDLE)/rust
	cp --parents $(DOCUMENTS) target/bundle/$(BUNDLE)
	cd target/bundle/$(BUNDLE) && find . -type f ! -name SHA256SUMS | LC_ALL=C sort | xargs sha256sum >SHA256SUMS
	tar -C target/bundle --sort=name --mtime=@0 --owner=0 --group=0 --numeric-owner -czf target/$(BUNDLE).tar.gz $(BUNDLE)
	cd target && sha256sum $(BUNDLE).tar.gz | tee $(BUNDLE).tar.gz.sha256

check: all
	.ci/library

version:
	.ci/version

clean:
	rm -rf target/lib target/programs target/bundle target/$(BUNDLE).tar.gz target/$(BUNDLE).tar.gz.sha256
