# Needs GNU make 4, a POSIX shell and the kit's `rt`. `make help` says what there is to make.
BUILD := build
IMAGE :=
PREFIX ?= /usr/local
LIBDIR ?= $(PREFIX)/lib
INCLUDEDIR ?= $(PREFIX)/include
CFLAGS ?= -O2 -Wall -Wextra

LIBRARY := $(BUILD)/libgrzelotka.a
VERSION := $(shell sed -n 's/^.define GRZELOTKA_VERSION "\(.*\)"/\1/p' include/grzelotka.h)
PROGRAMS := $(foreach program,packets makeimage play,crates/$(program)/out/$(program))
# what library and programs are made of; the folders in a crate are among it, so that a file taken away is seen too
SOURCES := crates.txt $(shell find crates -mindepth 2 \( -name must-fail -o -name out \) -prune -o -print)
EXAMPLES := $(wildcard examples/*.c)
HEADERS := include/grzelotka.h include/grzelotka_record.h
# Where the machine has no C compiler, the kit's own tools compile and link; `make CC=` has them do so anywhere.
COMPILER := $(if $(shell command -v $(CC) 2>/dev/null),$(CC),bin/cc86)

.PHONY: all programs test demo bench install uninstall clean help always
all: $(LIBRARY)

$(LIBRARY): $(SOURCES)
	@command -v rt >/dev/null || { echo "make: the kit's command, rt, is not in PATH: it proves and compiles the library" >&2; exit 2; }
	@echo "Proving the library's crates and compiling it; the first time this takes some minutes."
	@mkdir -p $(BUILD)
	@(cd crates/grzelotka && rt lib) >$(BUILD)/rt.log 2>&1 || { cat $(BUILD)/rt.log; exit 1; }
	@cp crates/grzelotka/out/libgrzelotka.a $@
	@echo "$@ is built."

# the programs of the bench; bin/makeimage and bin/play run theirs. The gate builds them too.
programs: $(PROGRAMS)
	@echo "bin/makeimage, bin/play and crates/packets/out/packets are built."

# rt run proves and builds a program, and runs it: with no words and no input, each has nothing to do
$(PROGRAMS): $(SOURCES)
	@command -v rt >/dev/null || { echo "make: the kit's command, rt, is not in PATH: it proves and compiles the programs" >&2; exit 2; }
	@echo "Proving the program $(@F) and what it stands on; the first time this takes some minutes."
	@mkdir -p $(BUILD)
	@(cd $(@D)/.. && rt run </dev/null) >$(BUILD)/$(@F).log 2>&1 || { cat $(BUILD)/$(@F).log; exit 1; }
	@touch $@

test:
	.ci/run

demo: $(BUILD)/demo
	$(strip $(BUILD)/demo $(IMAGE))

$(BUILD)/demo: $(EXAMPLES) $(wildcard examples/*.h) $(HEADERS) $(LIBRARY) $(BUILD)/compiler
	$(COMPILER) $(CFLAGS) -std=c11 -Iinclude -o $@ $(EXAMPLES) $(LIBRARY)

# the words that compile: another compiler, another demo
$(BUILD)/compiler: always
	@mkdir -p $(BUILD)
	@echo '$(COMPILER) $(CFLAGS)' | cmp -s - $@ || echo '$(COMPILER) $(CFLAGS)' >$@

bench:
	bench/leaves
	bench/host/run

# a folder as it is found once it is installed
installed = $(abspath $(1))
# the same below DESTDIR, where it is put
put = $(DESTDIR)$(call installed,$(1))

install: $(LIBRARY)
	mkdir -p $(call put,$(LIBDIR))/pkgconfig $(call put,$(INCLUDEDIR))
	cp $(LIBRARY) $(call put,$(LIBDIR))/libgrzelotka.a
	cp $(HEADERS) $(call put,$(INCLUDEDIR))
	printf '%s\n' 'prefix=$(call installed,$(PREFIX))' 'libdir=$(call installed,$(LIBDIR))' 'includedir=$(call installed,$(INCLUDEDIR))' '' \
	    'Name: grzelotka' 'Description: stand-in for the firmware upgrade services of the STM32WB' 'Version: $(VERSION)' \
	    'Cflags: -I$${includedir}' 'Libs: -L$${libdir} -lgrzelotka' >$(call put,$(LIBDIR))/pkgconfig/grzelotka.pc

uninstall:
	rm -f $(call put,$(LIBDIR))/libgrzelotka.a $(addprefix $(call put,$(INCLUDEDIR))/,$(notdir $(HEADERS))) \
	    $(call put,$(LIBDIR))/pkgconfig/grzelotka.pc

clean:
	rm -rf $(BUILD)

help:
	@echo 'make                       $(LIBRARY): the library, proved and compiled'
	@echo 'make programs              bin/makeimage, bin/play and crates/packets/out/packets, proved and compiled'
	@echo 'make demo                  an updater plays an upgrade, with damaged commands and with the power cut in every store'
	@echo 'make demo IMAGE=FILE       the same with this image as the new stack'
	@echo 'make test                  the gate: every proof, every must-fail edit, every test'
	@echo 'make bench                 the library beside plain C'
	@echo 'make install PREFIX=DIR    library, headers and pkg-config file; DESTDIR, LIBDIR and INCLUDEDIR are heeded; make uninstall'
	@echo 'make clean                 removes $(BUILD); what is proved stays in crates/*/out'
	@echo 'make .. CC=COMPILER        another C compiler for the demo; with CC= it is the tools of the kit (bin/cc86)'
