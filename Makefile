# make             builds libluossavin.a and libluossavin.so of the assembly in proved/ and of lib/, by a C compiler and ar alone
# make tool        builds the tool and the opener, by cargo
# make crate       puts the cargo package together, in target/rust: what it takes of the repository, and nothing else
# make install     puts library, header, tool, opener and package below PREFIX; DESTDIR stands in front of every path, for who makes a package
# make uninstall   takes away what `make install` put there
# make dist        writes target/luossavin-VERSION-ARCH-linux.tar.gz for x86_64 and aarch64, each of which installs by the two above
# make proved      writes proved/ anew; it takes the Rattle kit, and minutes, since the proof comes first
#
# CC=x86_64-linux-gnu-gcc AR=x86_64-linux-gnu-ar builds for another machine; what is built stands in target/ARCH. In a folder that
# `make dist` wrote all is built: there `make` holds the files to their sums.

PREFIX = /usr/local
LIBDIR = $(PREFIX)/lib
DESTDIR =

CC = cc
CARGO = cargo
VERSION := $(shell cat VERSION)

ifneq ($(wildcard SHA256SUMS),)

ARCH := $(firstword $(wildcard x86_64 aarch64))

all tool crate:
	@sha256sum -c --quiet SHA256SUMS

else

ARCH := $(shell $(CC) -dumpmachine | cut -d - -f 1)

assembly_x86_64 = proved/x86_64.s proved/x86_64-v3.s lib/choose-x86_64.s
assembly_aarch64 = proved/aarch64.s
assembly = $(assembly_$(ARCH))
ifeq ($(assembly),)
$(error there is no assembly for '$(ARCH)' in proved/: the library is for x86_64 and aarch64)
endif

built = target/$(ARCH)
objects = $(patsubst %.s,$(built)/%.o,$(notdir $(assembly))) $(built)/luossavin.o
# the first number of the version is that of the calls and layouts
soname = libluossavin.so.$(firstword $(subst ., ,$(VERSION)))

all: $(built)/libluossavin.a $(built)/libluossavin.so

vpath %.s proved lib

$(built)/%.o: %.s | $(built)
	$(CC) -c $< -o $@

$(built)/luossavin.o: lib/luossavin.c include/luossavin.h | $(built)
	$(CC) -std=c11 -O2 -Wall -Wextra -fPIC -Iinclude -c $< -o $@

$(built)/libluossavin.a: $(objects)
	rm -f $@
	$(AR) rcsD $@ $(objects)

$(built)/libluossavin.so: $(objects) VERSION
	$(CC) -shared -Wl,-soname,$(soname) -Wl,-z,now -Wl,-z,text -Wl,--no-undefined -Wl,--build-id=none $(objects) -o $@
	cp $@ $(built)/$(soname)

$(built):
	mkdir -p $@

# cargo knows by itself what has changed. The tool says what tool/about says of it.
rust_target = $(ARCH)-unknown-linux-gnu
cargo_linker = CARGO_TARGET_$(shell echo $(rust_target) | tr a-z- A-Z_)_LINKER

tool: | $(built)
	@command -v $(CARGO) >/dev/null || { echo "cargo is needed to build the tool: Debian has it as the package cargo" >&2; exit 1; }
	LUOSSAVIN_ABOUT="$$(tool/about)" $(cargo_linker)=$(CC) $(CARGO) build --quiet --release --offline --locked \
	    --manifest-path rust/Cargo.toml -p luossavin-tool -p luossavin-opener --target $(rust_target) --target-dir $(built)/cargo
	cp $(built)/cargo/$(rust_target)/release/luossavin $(built)/cargo/$(rust_target)/release/luossavin-opener $(built)

# where `make crate` puts the package
package = target/rust

# Without the tool, which is a member of its workspace; with what cargo asks of a folder of packages.
crate:
	rm -rf $(package)
	mkdir -p $(package)
	cp -R rust/src rust/asm rust/README.md rust/LICENSE rust/NOTICE $(package)
	sed '/^# The tool/,$$d' rust/Cargo.toml >$(package)/Cargo.toml
	echo '{"files":{}}' >$(package)/.cargo-checksum.json

endif

install: all tool crate
	@tool/install put '$(DESTDIR)' '$(PREFIX)' '$(LIBDIR)' '$(ARCH)'

uninstall:
	@tool/install take '$(DESTDIR)' '$(PREFIX)'

dist:
	@tool/dist

proved:
	@proved/make

clean:
	rm -rf $(built)

.PHONY: all tool crate install uninstall dist proved clean
