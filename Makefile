# make            the proved program, at build/flatc; what the proof says is in build/check.log
# make try        a first look: runs the program's demo without any proof ('proved=no'); it isn't kept, and isn't for use
# make demo       the main job: converts the shipped ELF file and shows the bytes of the flat file, and runs two programs in one memory
# make check      the gate: every proof, must-fail edit, test, program and case, and the repository's papers, over a copy of the tree
#                 without what was built in it
# make cases      tries the cases with the built program
# make papers     the papers alone: names, links, paths and exit statuses agree
# make kit        compares the toolchain with the one that the proofs were checked with
# make sdk        builds newlib and the kit for C programs in build/sdk, if the Debian packages that it names are installed
# make kernel     builds Linux 6.1 for RV32 without an MMU in build/kernel, if the Debian packages that it names are installed
# make device     builds BusyBox from Debian's source over the kit, and in build/device a romfs image of it that a kernel boots
# make real       builds the example programs with the GNU tools for RISC-V, if they are installed, and checks, converts and runs
#                 them; with `make kernel` it runs the flat files on that kernel too
# make install    copies the program and flatc-where to $(PREFIX)/bin, and the man page to $(PREFIX)/share/man/man1

PREFIX ?= /usr/local

SOURCES := crates.txt $(shell find crates -path '*/out' -prune -o -type f \( -name '*.rt' -o -name '*.antt' \) -print)

build/flatc: $(SOURCES)
	@echo 'flatc is proved before it is built: 15 to 25 minutes on four cores the first time, and later what changed.'
	@tools/build

.PHONY: try demo check cases papers kit sdk kernel device real install

try:
	@echo 'Nothing is proved here: this is the program as it stands in the sources, for a first look.'
	cd crates/flatc && rt try -- demo 3

demo: build/flatc
	cp crates/flatc/data/a.elf build/a.elf
	cd build && ./flatc convert a.elf a.flt
	od -A d -t x1 build/a.flt
	cd build && ./flatc demo 2

check:
	tools/check

cases: build/flatc
	tools/make-caller --check
	tools/run-cases

papers:
	tools/check-papers

# `rt version` prints the kit's number and a sum over its logic. The proofs rest on the logic: with the same sum a kit of
# another number checks the same statements by the same rules. With another sum the proofs have to be checked anew.
kit:
	@now=$$(rt version) && want=$$(cat KIT) && case "$$now" in \
	*" $$want") echo "$$now: the same logic as in the file KIT" ;; \
	*) echo "$$now: the file KIT says '$$want'."; \
	   echo "The proofs were checked with another logic: run 'make check'. If it passes, put the new sum into KIT."; \
	   exit 1 ;; \
	esac

sdk:
	@$(MAKE) --no-print-directory -f sdk/Makefile

kernel:
	@$(MAKE) --no-print-directory -f tools/kernel/Makefile

device: build/flatc sdk
	@examples/busybox/real --device

real: build/flatc sdk
	examples/real
	examples/c/real
	examples/refused/real
	examples/makedoc/real
	examples/where/real
	examples/romfs/real
	examples/programs/real
	examples/busybox/real

install: build/flatc
	install -D -m 755 build/flatc $(DESTDIR)$(PREFIX)/bin/flatc
	install -D -m 755 tools/flatc-where $(DESTDIR)$(PREFIX)/bin/flatc-where
	install -D -m 644 flatc.1 $(DESTDIR)$(PREFIX)/share/man/man1/flatc.1
