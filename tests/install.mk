# make shared                target/shared/libweightrose.so.N, made of the proved archive alone
# make install PREFIX=..     archive, shared library, header and pkg-config files
# make uninstall PREFIX=..
#
# Included from the repository's root. PREFIX is where the files will be used, DESTDIR a folder to
# put before it while packaging. The version is the header's.

WEIGHTROSE_LIB ?= target/staticlib/libweightrose.a
WEIGHTROSE_VERSION := $(shell sed -n 's/^.define WEIGHTROSE_VERSION "\(.*\)"/\1/p' include/weightrose.h)
PREFIX ?= /usr/local
DESTDIR ?=

INSTALL_LIB := $(DESTDIR)$(PREFIX)/lib
INSTALL_INCLUDE := $(DESTDIR)$(PREFIX)/include

# What a ledger that was linked asks for is the soname; it changes when an entry is taken away or
# gets another meaning for its arguments, which no release has done.
SHARED_NAME := libweightrose.so.$(firstword $(subst ., ,$(WEIGHTROSE_VERSION)))
SHARED_OUT := target/shared
SHARED_LIB := $(SHARED_OUT)/$(SHARED_NAME)
# Those of every release: ldconfig would go on with the latest one that it finds.
INSTALLED_SHARED = $(INSTALL_LIB)/libweightrose.so $(INSTALL_LIB)/libweightrose.so.[0-9]*

.PHONY: shared install uninstall

shared: $(SHARED_LIB)

# No start files and no library but C's, whose memset the archive calls.
$(SHARED_LIB): $(WEIGHTROSE_LIB) tests/exports.map
	mkdir -p $(SHARED_OUT)
	$(CC) -shared -nostartfiles -nodefaultlibs -Wl,-soname,$(SHARED_NAME) \
	    -Wl,--version-script=tests/exports.map -Wl,-z,defs,-z,now,-z,relro,-z,noexecstack \
	    -Wl,--whole-archive $(WEIGHTROSE_LIB) -Wl,--no-whole-archive -lc -o $@

install: $(WEIGHTROSE_LIB) $(SHARED_LIB)
	mkdir -p $(INSTALL_LIB)/pkgconfig $(INSTALL_INCLUDE)
	install -m 644 $(WEIGHTROSE_LIB) $(INSTALL_LIB)/libweightrose.a
	rm -f $(INSTALLED_SHARED)
	install -m 755 $(SHARED_LIB) $(INSTALL_LIB)/libweightrose.so.$(WEIGHTROSE_VERSION)
	ln -sf libweightrose.so.$(WEIGHTROSE_VERSION) $(INSTALL_LIB)/$(SHARED_NAME)
	ln -sf $(SHARED_NAME) $(INSTALL_LIB)/libweightrose.so
	install -m 644 include/weightrose.h $(INSTALL_INCLUDE)/weightrose.h
	for file in weightrose weightrose-shared; do \
	    sed -e 's|@PREFIX@|$(PREFIX)|' -e 's|@VERSION@|$(WEIGHTROSE_VERSION)|' $$file.pc.in \
	        > $(INSTALL_LIB)/pkgconfig/$$file.pc || exit 1; \
	done

uninstall:
	rm -f $(INSTALL_LIB)/libweightrose.a $(INSTALLED_SHARED) $(INSTALL_INCLUDE)/weightrose.h \
	    $(INSTALL_LIB)/pkgconfig/weightrose.pc $(INSTALL_LIB)/pkgconfig/weightrose-shared.pc
