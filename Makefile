# Build, test and install the archives for C.
#
#     make              prove every crate and build the archives and runlist; needs the program rt of the Rattle kit
#     make test         tests/run
#     make install      headers, archives, pkg-config files and a CMake package; needs no kit once the archives are there
#     make uninstall    remove what install put there
#     make clean        remove what was built
#
# install and uninstall go by PREFIX, LIBDIR, INCLUDEDIR and DESTDIR.

PREFIX ?= /usr/local
LIBDIR ?= $(PREFIX)/lib
INCLUDEDIR ?= $(PREFIX)/include
DESTDIR ?=
RT = rt
BUILT = target/staticlib

LIBRARIES = lagumtay lagumtay_queue
HEADERS = lagumtay.h lagumtay_helpers.h lagumtay_queue.h lagumtay_base.h
ARCHIVES = $(LIBRARIES:%=lib%.a)
PKGCONFIGS = $(LIBRARIES:%=%.pc)
CMAKES = lagumtay-config.cmake lagumtay-config-version.cmake

DESCRIPTION_lagumtay = One shared page of digits, one writer, up to 16 readers, in single steps
DESCRIPTION_lagumtay_queue = A queue of parcels from one sender to one receiver, in single steps

# The header has the version, and nothing else does.
NUMBERS := $(shell sed -n 's/^.define LAGUMTAY_VERSION_[A-Z]* \([0-9]*\)$$/\1/p' include/lagumtay_base.h)
MAJOR_MINOR := $(word 1,$(NUMBERS)).$(word 2,$(NUMBERS))
VERSION := $(MAJOR_MINOR).$(word 3,$(NUMBERS))

headers_to = $(DESTDIR)$(INCLUDEDIR)
archives_to = $(DESTDIR)$(LIBDIR)
pkgconfigs_to = $(DESTDIR)$(LIBDIR)/pkgconfig
cmakes_to = $(DESTDIR)$(LIBDIR)/cmake/lagumtay

# What is below the prefix moves with it.
below_prefix = $(patsubst $(PREFIX)/%,$${prefix}/%,$(1))
include_from_cmake = $(shell realpath -ms --relative-to='$(LIBDIR)/cmake/lagumtay' '$(INCLUDEDIR)')

# A template, the file that is made of it, and the library that it is for.
fill = sed -e 's|@NAME@|$(3)|' -e 's|@DESCRIPTION@|$(DESCRIPTION_$(3))|' -e 's|@PREFIX@|$(PREFIX)|' \
    -e 's|@LIBDIR@|$(call below_prefix,$(LIBDIR))|' -e 's|@INCLUDEDIR@|$(call below_prefix,$(INCLUDEDIR))|' \
    -e 's|@INCLUDE_FROM_HERE@|$(include_from_cmake)|' -e 's|@VERSION@|$(VERSION)|' \
    -e 's|@MAJOR_MINOR@|$(MAJOR_MINOR)|' 'packaging/$(1)' > '$(2)'

.PHONY: all test install uninstall clean kit paths built

all: kit
	$(RT) all check
	RT='$(RT)' tools/build

test: kit
	tests/run

kit:
	@command -v '$(RT)' >/dev/null || { \
	    echo "make: no program '$(RT)': install the Rattle kit, whose rt proves the crates and builds the archives" >&2; \
	    exit 1; }

install: paths built
	install -d '$(headers_to)' '$(archives_to)' '$(pkgconfigs_to)' '$(cmakes_to)'
	install -m 644 $(HEADERS:%=include/%) '$(headers_to)'
	install -m 644 $(ARCHIVES:%='$(BUILT)/%') '$(archives_to)'
	$(foreach library,$(LIBRARIES),$(call fill,library.pc.in,$(pkgconfigs_to)/$(library).pc,$(library)) &&) true
	$(foreach file,$(CMAKES),$(call fill,$(file).in,$(cmakes_to)/$(file)) &&) true
	chmod 644 $(PKGCONFIGS:%='$(pkgconfigs_to)/%') $(CMAKES:%='$(cmakes_to)/%')

uninstall: paths
	rm -f $(HEADERS:%='$(headers_to)/%') $(ARCHIVES:%='$(archives_to)/%') $(PKGCONFIGS:%='$(pkgconfigs_to)/%')
	rm -f $(CMAKES:%='$(cmakes_to)/%')
	test ! -d '$(cmakes_to)' || rmdir --ignore-fail-on-non-empty '$(cmakes_to)'

# The paths go into files that pkg-config and CMake read.
paths:
	@for path in '$(PREFIX)' '$(LIBDIR)' '$(INCLUDEDIR)'; do \
	    case "$$path" in \
	    *[!A-Za-z0-9_./+,=@:~-]*) why="have only letters, digits and any of _./+,=@:~-";; \
	    /*) continue;; \
	    *) why="begin with /";; \
	    esac; \
	    echo "make: PREFIX, LIBDIR and INCLUDEDIR must $$why; '$$path' does not" >&2; \
	    exit 1; \
	done

built:
	@for archive in $(ARCHIVES:%='$(BUILT)/%'); do test -f "$$archive" || { \
	    echo "make: no archive $$archive to install: 'make all' builds it, with the Rattle kit" >&2; exit 1; }; \
	done

clean:
	rm -rf target crates/*/out bindings/rust/target bench/target tests/no_std/target
