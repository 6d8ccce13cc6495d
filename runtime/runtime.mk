# libhsa-runtime64.so.1 over the library for C, which is linked into it: docs/hsa.md leads through it. It wants Debian's libhsa-runtime-dev
# for its headers. The top Makefile includes this file; `make -f runtime/runtime.mk` does as well.
RUNTIME_ARCHIVE ?= build/libhobbydresser.a
RUNTIME_OUT ?= build/hsa
RUNTIME_TOOLCHAIN ?= $(dir $(realpath $(shell command -v rt)))..
RUNTIME_FLAGS ?= -O2 -g
RUNTIME_SOURCES = $(wildcard runtime/src/*.c)
RUNTIME_HEADERS = $(wildcard runtime/src/*.h) include/hobbydresser.h
RUNTIME_LIBRARY = $(RUNTIME_OUT)/libhsa-runtime64.so.1
RUNTIME_EXAMPLES = $(patsubst %.c,%,$(wildcard examples/hsa/*.c))
RUNTIME_STRICT = -std=c11 -D_GNU_SOURCE -Wall -Wextra -Wpedantic -Werror -Iruntime/src -Iinclude
PREFIX ?= /usr/local
RUNTIME_TO = $(DESTDIR)$(PREFIX)/lib/hobbydresser

runtime: $(RUNTIME_LIBRARY) $(RUNTIME_EXAMPLES)

# The top Makefile builds the archive without proofs.
build/libhobbydresser.a:
	$(MAKE) library

$(RUNTIME_LIBRARY): $(RUNTIME_SOURCES) $(RUNTIME_HEADERS) runtime/hsa.map $(RUNTIME_ARCHIVE)
	@mkdir -p $(RUNTIME_OUT)
	$(CC) $(RUNTIME_FLAGS) $(RUNTIME_STRICT) -fPIC -fvisibility=hidden -shared -Wl,-soname,libhsa-runtime64.so.1 -Wl,-Bsymbolic \
	  -Wl,--version-script=runtime/hsa.map -o $@ $(RUNTIME_SOURCES) $(RUNTIME_ARCHIVE) $(RUNTIME_TOOLCHAIN)/c/liblibc_c.a -lpthread
	ln -sf libhsa-runtime64.so.1 $(RUNTIME_OUT)/libhsa-runtime64.so

# The examples are programs of hsa.h alone.
examples/hsa/%: examples/hsa/%.c $(RUNTIME_LIBRARY)
	$(CC) -std=c11 -O2 -Wall -Wextra -o $@ $< -L$(RUNTIME_OUT) -lhsa-runtime64 -lpthread

# Into a folder of its own, never over a system's library: a program finds it by LD_LIBRARY_PATH or an rpath.
install-runtime: $(RUNTIME_LIBRARY)
	install -d $(RUNTIME_TO) $(DESTDIR)$(PREFIX)/lib/pkgconfig
	install -m 755 $(RUNTIME_LIBRARY) $(RUNTIME_TO)
	ln -sf libhsa-runtime64.so.1 $(RUNTIME_TO)/libhsa-runtime64.so
	sed 's|^prefix=.*|prefix=$(PREFIX)|' runtime/hobbydresser-hsa.pc > $(DESTDIR)$(PREFIX)/lib/pkgconfig/hobbydresser-hsa.pc

.PHONY: runtime install-runtime
