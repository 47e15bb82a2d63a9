# Builds the program `kuzhenga` and the shared library, and installs them with the archive. GNU make.
#
#   make            the archive, the program and the shared library
#   make archive    just the archive, target/staticlib/libkuzhenga.a
#   make kuzhenga   just the program, target/kuzhenga/kuzhenga
#   make check      all tests: .ci/run
#   make install    copies all of it to PREFIX; what is not built yet is built first
#   make uninstall  removes what install copies, and nothing else
#   make clean      removes the program and the shared library; archive and proofs stay
#
# PREFIX=FOLDER       where to install, an absolute path (/usr/local)
# DESTDIR=FOLDER      goes before PREFIX while files are copied; no installed file names it
# ARCHIVE=FOLDER      takes the libkuzhenga.a of that folder; then nothing is proved, and the toolchain is not needed.
#                     KUZHENGA_ARCHIVES=FOLDER does the same
# CC, CFLAGS, LDFLAGS the C compiler (cc), its options (-O2) and the linker's (none)
#
# Give `make install` the same variables as `make`.

PREFIX ?= /usr/local
ARCHIVE ?= $(KUZHENGA_ARCHIVES)
CFLAGS ?= -O2
warnings := -Wall -Wextra -Wpedantic -Wconversion -Wsign-conversion -Werror

program := target/kuzhenga/kuzhenga
shared := target/lib/libkuzhenga.so
made_with := target/make/made_with
archive := $(if $(ARCHIVE),$(ARCHIVE),target/staticlib)/libkuzhenga.a

.DELETE_ON_ERROR:
.PHONY: all archive kuzhenga check install uninstall clean FORCE

all: $(program) $(shared)

archive: $(archive)

kuzhenga: $(program)

check:
	.ci/run

# ---- the archive

# `rt lib` looks at each crate below even if nothing changed. So it is called only if a file or folder of these crates is
# newer than the archive. The benchmark's archives are built by the same rule.
ifeq ($(ARCHIVE),)
archives := kuzhenga dshot_reply_bench dshot_bench dshot_bank_bench
crates = $(1)_c $(1) $(shell sed -n 's/^$(1): *//p' crates.txt)
proved = $(shell find $(wildcard $(foreach part,src specs proofs,$(addsuffix /$(part),$(addprefix crates/,$(crates))))))

define archive_rule
target/staticlib/lib$(1).a: crates.txt $(proved)
	@command -v rt >/dev/null || { echo 'rt, the toolchain, is not found; ARCHIVE=FOLDER does without it' >&2; exit 1; }
	cd crates/$(1)_c && rt lib --cpu x86-64
	@mkdir -p $$(@D)
	cp crates/$(1)_c/out/lib$(1)_c.a $$@
endef
$(foreach crate,$(archives),$(eval $(call archive_rule,$(crate))))

$(made_with): $(archive)
endif

# ---- the program and the shared library

# Tells which archive, compiler and options were used. It is written only if one of them is another.
$(made_with): export words = $(CC) $(CFLAGS) $(LDFLAGS)
$(made_with): FORCE
	@mkdir -p $(@D)
	@test -f '$(archive)' || { echo 'no libkuzhenga.a in $(ARCHIVE)' >&2; exit 1; }
	@{ printf '%s\n' "$$words" && sha256sum <'$(archive)'; } >$@.new
	@if cmp -s $@.new $@; then rm $@.new; else mv $@.new $@; fi

# The folder too: a file may have been removed from it.
$(program): $(wildcard tools/kuzhenga tools/kuzhenga/*.c tools/kuzhenga/*.h) include/kuzhenga.h $(made_with)
	@mkdir -p $(@D)
	$(CC) -std=c11 $(CFLAGS) $(warnings) -Iinclude $(LDFLAGS) -o $@ tools/kuzhenga/*.c '$(archive)'

# The archive's code is position independent: `-z text` refuses it if it is not.
$(shared): $(made_with)
	@mkdir -p $(@D)
	$(CC) -shared -Wl,-z,text -Wl,-z,defs -Wl,-soname,libkuzhenga.so $(LDFLAGS) -o $@ \
	    -Wl,--whole-archive '$(archive)' -Wl,--no-whole-archive

# ---- install

# The Python module is for every version of Python 3 from 3.8 on: $(PREFIX)/share/kuzhenga/python goes into PYTHONPATH.
to := $(DESTDIR)$(PREFIX)
captures := $(wildcard captures/*.capture captures/*.line)
documents := LICENSE NOTICE
installed := bin/kuzhenga include/kuzhenga.h lib/libkuzhenga.a lib/libkuzhenga.so lib/pkgconfig/kuzhenga.pc \
    share/kuzhenga/python/kuzhenga.py $(captures:%=share/kuzhenga/%) $(documents:%=share/doc/kuzhenga/%)
# The folders that hold nothing but these files, the inner ones first.
own_folders := share/kuzhenga/python/__pycache__ share/kuzhenga/python share/kuzhenga/captures share/kuzhenga \
    share/doc/kuzhenga

space := $(subst ,, )
version = $(subst $(space),.,$(shell sed -n 's/^.define KUZHENGA_VERSION_[A-Z]* \([0-9]*\).*/\1/p' include/kuzhenga.h))

# The prefix is written to kuzhenga.pc, where a relative path would mean another folder.
absolute = $(if $(filter /%,$(firstword $(PREFIX))),,$(error PREFIX is not an absolute path))

install: all
	$(absolute)
	install -d $(foreach folder,$(sort $(dir $(installed))),'$(to)/$(folder)')
	install -m 755 $(program) '$(to)/bin'
	install -m 644 include/kuzhenga.h '$(to)/include'
	install -m 644 '$(archive)' $(shared) '$(to)/lib'
	sed -e 's|@PREFIX@|$(PREFIX)|' -e 's|@VERSION@|$(version)|' tools/kuzhenga.pc.in >'$(to)/lib/pkgconfig/kuzhenga.pc'
	chmod 644 '$(to)/lib/pkgconfig/kuzhenga.pc'
	install -m 644 $(captures) '$(to)/share/kuzhenga/captures'
	install -m 644 python/kuzhenga.py '$(to)/share/kuzhenga/python'
	install -m 644 $(documents) '$(to)/share/doc/kuzhenga'

# Python leaves a compiled copy of the module beside it.
uninstall:
	$(absolute)
	rm -f $(foreach file,$(installed),'$(to)/$(file)')
	rm -f '$(to)'/share/kuzhenga/python/__pycache__/kuzhenga.*.pyc
	for folder in $(own_folders); do rmdir '$(to)'/"$$folder" 2>/dev/null || true; done

clean:
	rm -rf target/kuzhenga target/lib target/make
