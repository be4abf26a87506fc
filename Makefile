# What can be made, and by which command: make help.
#
# These words may be given to each make, also to make install:
#
#   CPU=x86-64-v3     the level of x86-64 to build for. The default is x86-64-v2, and x86-64 for
#                     what is taken to other machines: make static, dist, image and wheel.
#   TARGET=aarch64    builds for ARM: make its archive and its wheel, make image its image.
#   CC, CPPFLAGS, CFLAGS, LDFLAGS    compile and link the C code, in place of the flags below. If
#                     they differ from those of the last make, it is compiled and linked again.
#   PREFIX, LIBDIR, DESTDIR    where make install puts what it installs.
PREFIX ?= /usr/local
LIBDIR ?= $(PREFIX)/lib
RT ?= rt
CPU =
TARGET =

# The flags by which Debian hardens C, which runs as root here.
CPPFLAGS ?= -Wdate-time -D_FORTIFY_SOURCE=2
BRANCHES = $(if $(CROSS),-mbranch-protection=standard,-fcf-protection)
CFLAGS ?= -g -O2 '-ffile-prefix-map=$(CURDIR)=.' -fstack-protector-strong \
	-fstack-clash-protection -Wformat -Werror=format-security $(BRANCHES)
LDFLAGS ?= -Wl,-z,relro -Wl,-z,now

.DEFAULT_GOAL := all
.PHONY: help all run static lib web npm pictures install uninstall test lint layers gate check \
	bench soak fuzz evidence specification site dist wheel image deb sums clean FORCE
.DELETE_ON_ERROR .SECONDARY:
# rt takes all cores for itself.
.NOTPARALLEL:

# Lists each target, with the comment above it that begins with two number signs.
help:
	@awk '/^## / { text = text substr($$0, 4) "\n                      "; next } \
		text && /^[a-z]+:/ { sub(/:.*/, ""); sub(/ +$$/, "", text); \
			printf "make %-16s %s", $$0, text } \
		{ text = "" }' Makefile


# ---- What there is to build

SOURCES := crates.txt $(shell find crates -path '*/out' -prune \
	-o \( -name '*.rt' -o -name '*.antt' \) -print)
PAM_SOURCES := $(wildcard c/pam/*.c)
PAM_HEADERS := $(wildcard c/pam/*.h)
VERSION := $(shell tools/version)

# Where the build for this machine is, and what the archive, the wheel and the image are built for.
OWN = build/$(or $(CPU),x86-64-v2)
FOR = $(or $(TARGET),$(CPU),x86-64)
ARCHIVE ?= mkpasswd-$(VERSION)-$(subst -,_,$(FOR))-linux.tar.gz

# The scripts take these from the environment, whatever characters they have. Earlier, this line
# would give ARCHIVE an empty value, which `?=` keeps.
export DESTDIR PREFIX LIBDIR ARCHIVE RT

# These are built where Debian's packages for them are installed: the web pages need pandoc and
# mandoc, the page that hashes needs binaryen, the PAM module PAM's headers. Archives and packages
# always have them.
SITE := $(shell tools/site --check 2> /dev/null && echo build/site/index.html)
WEB := $(shell tools/web --check 2> /dev/null && echo build/mkpasswd.html build/mkpasswd.mjs)
PAM := $(if $(wildcard /usr/include/security/pam_modules.h),pam_mkpasswd.so)
HAS_ARM = $(findstring /,$(shell aarch64-linux-gnu-gcc -print-file-name=libc.a 2> /dev/null))

NPM = $(addprefix build/npm/,package.json README.md mkpasswd.mjs mkpasswd.d.ts)
COMPLETIONS = build/completions/mkpasswd.bash
# What make writes for the Python package: its errors, and for its build the version.
MODULES = python/src/mkpasswd/_reasons.py python/src/mkpasswd_version.py
INSTALLED = mkpasswd $(COMPLETIONS) lib build/x86-64-v3/libmkpasswd.so.3 $(WEB) \
	build/SPECIFICATION.md $(SITE)
PACKED = $(addprefix build/$(FOR)/,mkpasswd libmkpasswd.a libmkpasswd.so.3) $(COMPLETIONS) $(WEB) \
	build/SPECIFICATION.md \
	$(if $(TARGET),,$(addprefix build/$(FOR)/,$(PAM)) build/x86-64-v3/libmkpasswd.so.3) $(MODULES)
ARM = $(addprefix build/aarch64/,mkpasswd libmkpasswd.a libmkpasswd.so.3)
TESTED = $(INSTALLED) $(PACKED) $(if $(WEB),$(NPM)) $(if $(HAS_ARM),$(ARM))


# ---- The program and the libraries

## builds ./mkpasswd, the proved program (with TARGET=aarch64: its archive and wheel)
all: $(if $(TARGET),dist wheel,mkpasswd)

## builds it, and hashes a first password
run: mkpasswd
	@./mkpasswd -m md5crypt -S xxxxxxxx password

## builds build/x86-64/mkpasswd, which needs nothing of the system but the kernel
static: build/$(FOR)/mkpasswd

## builds the C libraries and, with Debian's libpam0g-dev, the PAM module
lib: libmkpasswd.a libmkpasswd.so.3 $(PAM) $(MODULES)

libmkpasswd.a libmkpasswd.so.3 pam_mkpasswd.so: %: $(OWN)/% build/cpu
	cp $< $@

python/src/mkpasswd/_reasons.py: c/mkpasswd.h tools/reasons
	tools/reasons python > $@

python/src/mkpasswd_version.py: crates/crypt_core/src/version.rt tools/version
	echo 'VERSION = "$(VERSION)"' > $@

# The processor of the last build. A build for another one rewrites this file, and so all that
# depends on it.
ifneq ($(file < build/cpu),$(CPU))
build/cpu: FORCE
endif
build/cpu:
	@mkdir -p build
	@echo '$(CPU)' > $@

# The C compiler and the flags of the last build. A build with others rewrites this file, and so
# compiles all C code again. It proves nothing again, since rt uses no such flags.
FLAGS = $(CC) $(CPPFLAGS) $(CFLAGS) $(LDFLAGS)
ifneq ($(file < build/flags),$(FLAGS))
build/flags: FORCE
endif
build/flags: export FLAGS := $(FLAGS)
build/flags:
	@mkdir -p build
	@printf '%s\n' "$$FLAGS" > $@

# What is proved, as an object for a processor: the program, and the calls for C.
build/%/program.o: $(SOURCES) tools/for-cpu
	tools/for-cpu $* $(@F)

build/%/libcrypt_c.a: $(SOURCES) tools/for-cpu
	tools/for-cpu $* $(@F)

# A file below build/aarch64 is made by the compiler and the binutils for ARM.
CROSS = $(if $(filter build/aarch64/%,$@),aarch64-linux-gnu-)
STANDARD = c99
# Without link-time optimization, since ld and objcopy join machine code to that of rt.
COMPILE = $(if $(CROSS),$(CROSS)gcc,$(CC)) -std=$(STANDARD) -Wall -Wextra -Ic $(CPPFLAGS) \
	$(CFLAGS) -fno-lto
LINK = $(if $(CROSS),$(CROSS)gcc,$(CC)) $(CFLAGS) $(LEVEL) $(LDFLAGS)
# The level of x86-64 that a file needs, so that glibc refuses it on a lesser processor.
LEVEL = $(addprefix -Wl$(comma)-z$(comma),$(NEEDED))
NEEDED = $(filter x86-64-v%,$(subst /, ,$(if $(filter build/%,$@),$@,$(OWN))))
comma := ,

# How memory is allocated: a program of one thread keeps its last large block, a library none.
build/%/heap-of-program.o: c/heap.c build/flags
	@mkdir -p $(@D)
	$(COMPILE) -DKEEPS=1 -fPIE -c -o $@ $<

build/%/heap-of-library.o: c/heap.c build/flags
	@mkdir -p $(@D)
	$(COMPILE) -DKEEPS=0 -fPIC -c -o $@ $<

build/aarch64/runtime.o: c/runtime.c build/flags
	@mkdir -p $(@D)
	$(COMPILE) -fPIE -c -o $@ $<

build/%/calls.o: c/calls.c c/mkpasswd.h build/flags
	@mkdir -p $(@D)
	$(COMPILE) -fPIC -c -o $@ $<

# What else the program calls. The toolchain has it for x86-64 alone.
RUNTIME = $(if $(CROSS),build/aarch64/runtime.o,$$(dirname $$($(RT) doc))/c/libos_c.a)

# The program that takes the system's C library, and the one that brings its own.
mkpasswd: $(OWN)/program.o $(OWN)/heap-of-program.o build/cpu build/flags
	$(LINK) -fPIE -pie -Wl,--gc-sections -o $@ $(filter %.o,$^) $(RUNTIME)

build/%/mkpasswd: build/%/program.o build/%/heap-of-program.o build/flags
	$(LINK) -fPIE -static-pie -s -Wl,--gc-sections -o $@ \
		$(filter %/program.o %/heap-of-program.o,$^) $(RUNTIME)

build/aarch64/mkpasswd: build/aarch64/runtime.o

# The library as one object: the proved calls, and the C code that draws a salt, allocates and
# wipes. It offers what the version script lists.
build/%/mkpasswd.o: build/%/libcrypt_c.a build/%/calls.o build/%/heap-of-library.o c/libmkpasswd.map
	cd $(@D) && $(CROSS)ar x libcrypt_c.a crypt_c.o
	$(CROSS)ld -r $(addprefix -z ,$(NEEDED)) -o $@ $(@D)/crypt_c.o $(filter %.o,$^)
	sed -n 's/^ *\(mkpasswd_[a-z_]*\);$$/\1/p' c/libmkpasswd.map > $(@D)/calls
	$(CROSS)objcopy --keep-global-symbols=$(@D)/calls $@

build/%/libmkpasswd.a: build/%/mkpasswd.o
	rm -f $@
	$(CROSS)ar rcsD $@ $<

build/%/libmkpasswd.so.3: build/%/mkpasswd.o c/libmkpasswd.map build/flags
	$(LINK) -shared -Wl,-soname,$(@F) -Wl,--version-script=c/libmkpasswd.map \
		-Wl,--no-undefined-version -Wl,-z,defs -o $@ $<

# The module has the library in it, and offers nothing to the service that loads it but PAM's calls.
# It is compiled and linked at once, so LDFLAGS could turn on link-time optimization, too.
build/%/pam_mkpasswd.so: STANDARD = gnu11
build/%/pam_mkpasswd.so: build/%/libmkpasswd.a $(PAM_SOURCES) $(PAM_HEADERS) c/pam/module.map \
		c/mkpasswd.h build/flags
	$(COMPILE) -fPIC -shared $(LEVEL) $(LDFLAGS) -fno-lto -Wl,--version-script=c/pam/module.map \
		-Wl,--no-undefined-version -Wl,-z,defs -o $@ $(PAM_SOURCES) $< -lpam

# The completions, from the help of a program that runs on this machine.
$(COMPLETIONS): mkpasswd libmkpasswd.so.3 bin/pwhash python/src/pwhash/cli.py tools/completions
	@mkdir -p $(@D)
	tools/completions ./mkpasswd bin/pwhash $(@D)


# ---- JavaScript

## builds build/mkpasswd.html, a page that makes and checks hashes, and build/mkpasswd.mjs, for node
web:
	tools/web --check
	$(MAKE) build/mkpasswd.html build/mkpasswd.mjs

## builds build/npm, the same for npm pack
npm:
	tools/web --check
	$(MAKE) $(NPM)

build/wasm64/libcrypt_web.a: $(SOURCES) tools/for-cpu
	tools/for-cpu wasm64 $(@F)

build/wasm64/mkpasswd.wasm: build/wasm64/libcrypt_web.a
	kit=$$(dirname $$($(RT) doc)) && $$kit/bin/rattle-link --target wasm64-unknown-unknown \
		--toolchain $$kit/toolchain -o $@ $<

# Not every browser has 64-bit memory. The arguments of the calls stay what they are.
build/mkpasswd.wasm: build/wasm64/mkpasswd.wasm
	wasm-opt --enable-memory64 --enable-bulk-memory --memory64-lowering --strip-debug \
		--strip-producers --strip-target-features $< -o $@

build/mkpasswd.html build/mkpasswd.mjs $(NPM): build/mkpasswd.wasm tools/web tools/reasons \
		c/mkpasswd.h $(wildcard web/*)
	@mkdir -p $(@D)
	tools/web $< $@


# ---- Checks

## runs every check there is: lint, layers, gate and test; with ANEW=1 the gate proves all anew, and
## with STRICT=1 a tool that is missing is a failure
check: lint layers gate $(TESTED)
	tools/test

## runs formatters and linters over all that isn't proved
lint: $(MODULES)
	tools/reasons check
	tools/lint

## checks which crate uses which, and that the specification can be written
layers: specification
	tools/test program/test_sources.py

# The gate leaves the object of the program that it proved, but none if all proofs were kept.
## proves all crates and their tests, and has every wrong body refused
gate:
	rm -f crates/program/out/program.o
	tools/gate $(if $(ANEW),--anew)
	[ -e crates/program/out/program.o ] || tools/for-cpu x86-64-v2 program.o
	install -D -m 644 -t build/x86-64-v2 crates/program/out/program.o

## tests what is built; ONLY='audit and not scrypt' chooses tests by name, as pytest -k does
test: $(TESTED)
	tools/test $(if $(ONLY),-k '$(ONLY)')

## answers LINES random lines of each kind, or of KIND (hash or hostile), by SEED, and compares with
## what the rules say
soak: mkpasswd
	tools/soak $(if $(KIND),--kind $(KIND)) $(if $(LINES),--lines $(LINES)) \
		$(if $(SEED),--seed $(SEED)) ./mkpasswd

FUZZERS := $(patsubst tests/c/fuzz_%.c,build/fuzz/%,$(wildcard tests/c/fuzz_*.c))

## makes random calls of the library and the PAM module, FUZZ_SECONDS of each kind; what they find
## interesting stays in build/fuzz, where the next run begins
fuzz: $(FUZZERS)
	for fuzzer in $(FUZZERS); do \
		$$fuzzer -max_total_time=$(or $(FUZZ_SECONDS),300) -max_len=1600 -timeout=20 \
			-print_final_stats=1 -artifact_prefix=$$fuzzer. $$fuzzer.corpus || exit 1; \
	done

build/fuzz/pam: FUZZED = $(PAM_SOURCES)

build/fuzz/%: tests/c/fuzz_%.c tests/c/fuzz.h $(PAM_SOURCES) $(PAM_HEADERS) c/mkpasswd.h \
		libmkpasswd.a
	@mkdir -p $@.corpus
	clang -std=gnu11 -Wall -Wextra -Werror -g -O1 -fsanitize=fuzzer,address,undefined \
		-fno-sanitize-recover=all -Ic $< $(FUZZED) libmkpasswd.a -Wl,--no-as-needed -lcrypt -o $@


# ---- Documents

## writes build/SPECIFICATION.md: what is proved, with every definition that it rests on
specification: build/SPECIFICATION.md

build/SPECIFICATION.md: tools/specification $(wildcard tools/spec_page/*.py) \
		tools/specification.md $(SOURCES)
	@mkdir -p build
	tools/specification > $@

## writes all documents and manuals as web pages, in build/site
site: build/site/index.html

build/site/index.html: tools/site tools/version $(wildcard *.md docs/*.* man/* c/* web/README.md) \
		$(WEB) $(SOURCES) build/SPECIFICATION.md
	rm -rf build/site && mkdir -p build/site
	tools/site build/site

## measures instructions, and times beside other programs, and writes docs/SPEED.md; BENCH has
## options of tools/bench
bench: mkpasswd libmkpasswd.a libmkpasswd.so.3 $(MODULES) build/x86-64/mkpasswd \
		build/x86-64-v3/libmkpasswd.so.3 build/mkpasswd.mjs
	tools/bench $(BENCH)

## makes the pictures in docs again: the page, a terminal, the plots
pictures: web
	tools/pictures
	tools/bench --page
	tools/terminal

## measures what has no result in docs/evidence that counts for the commit, as root, for hours, and
## writes docs/EVIDENCE.md; what is interrupted goes on the next time, also on another machine.
## JOBS=4 measures four parts side by side, where neither disturbs the other
evidence:
	tools/evidence $(if $(LINES),--lines $(LINES)) \
		$(if $(FUZZ_SECONDS),--fuzz-seconds $(FUZZ_SECONDS)) $(if $(JOBS),--jobs $(JOBS)) \
		$(if $(MIRROR),--mirror '$(MIRROR)')


# ---- Packages

## installs all of it below PREFIX (default /usr/local)
install: $(INSTALLED)
	tools/install

## removes what make install installs
uninstall:
	tools/install --remove

## packs an archive, to be unpacked into any prefix
dist:
	tools/site --check
	tools/web --check
	$(MAKE) $(PACKED) build/site/index.html
	tools/pack $(FOR)

## packs the Python package, as a wheel
wheel: build/$(FOR)/libmkpasswd.so.3 $(MODULES)
	tools/wheel --check
	tools/wheel $< .

## packs a container image
image: build/$(FOR)/mkpasswd
	tools/image $< mkpasswd:$(VERSION) mkpasswd-$(VERSION)-$(subst -,_,$(FOR))-image.tar

# They depend on sse4.2-support, which refuses processors that the default build is not for.
## packs Debian packages
deb:
	tools/deb --check
	$(MAKE) $(INSTALLED)
	tools/deb .

## writes SHA256SUMS, and an SBOM of each file that dist, wheel, image, deb and npm have packed
sums:
	tools/sums .

## removes all that was made here, but not the logs and artifacts of make evidence, whose results
## are in docs/evidence
clean:
	rm -rf mkpasswd libmkpasswd.a libmkpasswd.so.3 pam_mkpasswd.so crates/*/out $(MODULES) \
		mkpasswd-*-linux.tar.gz mkpasswd-*-image.tar mkpasswd-*.whl mkpasswd-*.tgz *.deb \
		SHA256SUMS *.spdx.json
	[ ! -d build ] || find build -mindepth 1 -maxdepth 1 ! -name evidence -exec rm -rf {} +
