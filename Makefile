# Windhawker for C programs. All that is made stands under target/.
#
#   make            the library, static and shared, its man pages, the lab's programs and the class sheet
#   make lab        the lab's programs, in target/lab/
#   make test       everything proved from nothing, and the C tests
#   make demo       a logbook onto cards and back
#   make install    headers, libraries, man pages and windhawker.pc, below PREFIX
#   make uninstall  removes what install put there
#   make board      the library for a microcontroller, BOARD=cortex-m3 by default; see docs/BOARDS.md
#   make board-test      every board in QEMU
#   make board-figures   measure every board
#   make clean      remove target/

PREFIX  = /usr/local
BOARD   = cortex-m3
CFLAGS  = -std=c99 -O2 $(WARNINGS)

HEADERS = include/windhawker.h include/windhawker_limits.h
ARCHIVE = target/staticlib/libwindhawker.a
SONAME  = libwindhawker.so.3
SHARED  = target/shared/$(SONAME)
PAGES   = target/man/windhawker.3
PC      = target/windhawker.pc
LAB     = $(patsubst lab/%.c,target/lab/%,$(wildcard lab/*.c)) target/lab/cards
PROOFS  = $(shell find crates crates.txt -name out -prune -o -type f ! -path '*/must-fail/*' ! -name stdout -print 2>/dev/null)
VERSION = $(shell sed -n 's/^.define WH_VERSION "\(.*\)"/\1/p' include/windhawker.h)

# The library is for x86-64. tools/machine.sh knows how any machine compiles for that.
CC       = $(shell . tools/machine.sh && echo $${prefix}gcc)
LDFLAGS  = $(shell . tools/machine.sh && echo $$link)
WARNINGS = $(shell . tools/compilers.sh && echo $$warnings)

all: $(ARCHIVE) $(SHARED) $(PAGES) lab target/class_sheet

lab: $(LAB)

# rt proves the library before it makes the archive, which takes a few minutes.
$(ARCHIVE): $(PROOFS)
	tools/build archive

# The archive's object is position independent. The linker says no to it if it ever were not.
$(SHARED): $(ARCHIVE) windhawker.map
	@mkdir -p $(@D)
	$(CC) -shared -Wl,-soname,$(SONAME),--version-script=windhawker.map,-z,text,-z,defs \
	    -Wl,--whole-archive $(ARCHIVE) -Wl,--no-whole-archive -o $@

# The page of the whole interface, and those of all the calls beside it.
$(PAGES): include/windhawker.h docs/BOARDS.md tools/man tools/man.awk
	tools/man $(@D)

target/lab/%: lab/%.c $(wildcard lab/*.h) $(HEADERS) $(ARCHIVE)
	@mkdir -p $(@D)
	$(CC) $(CFLAGS) -Iinclude $(LDFLAGS) $< $(ARCHIVE) -o $@

target/lab/cards: target/lab/5_cards
	cp -f $< $@

# The class sheet's program, proved by rt; the archive first, so that rt does not run twice at once.
target/class_sheet: $(PROOFS) | $(ARCHIVE)
	tools/build class_sheet

test:
	./test

demo:
	./demo

# A program finds the shared library by itself below /usr and /usr/local; elsewhere windhawker.pc has
# the linker tell it where.
SYSTEM = $(filter /usr /usr/local,$(patsubst %/,%,$(PREFIX)))
RPATH  = $(if $(SYSTEM),, -Wl,-rpath,$${libdir})

# Made anew each time, because PREFIX may be another.
$(PC): windhawker.pc.in always
	@mkdir -p $(@D)
	@rm -f $@
	sed -e 's|@PREFIX@|$(PREFIX)|' -e 's|@VERSION@|$(VERSION)|' -e 's|@RPATH@|$(RPATH)|' $< > $@

PLACE     = $(DESTDIR)$(PREFIX)
INSTALLED = $(HEADERS) $(addprefix lib/,$(notdir $(ARCHIVE)) $(SONAME) libwindhawker.so) \
            lib/pkgconfig/windhawker.pc $(addprefix share/man/man3/,$(shell tools/man))

install: $(ARCHIVE) $(SHARED) $(PAGES) $(PC)
	install -d '$(PLACE)/include' '$(PLACE)/lib/pkgconfig' '$(PLACE)/share/man/man3'
	install -m 644 $(HEADERS) '$(PLACE)/include'
	install -m 644 $(ARCHIVE) $(SHARED) '$(PLACE)/lib'
	ln -sf $(SONAME) '$(PLACE)/lib/libwindhawker.so'
	install -m 644 target/man/*.3 '$(PLACE)/share/man/man3'
	install -m 644 $(PC) '$(PLACE)/lib/pkgconfig'
	$(if $(SYSTEM),$(if $(DESTDIR),,-ldconfig))

# With the PREFIX of the install.
uninstall:
	cd '$(PLACE)' && rm -f $(INSTALLED)

board:
	board/make $(BOARD)

board-test:
	board/test

board-figures:
	board/figures

clean:
	rm -rf target

.PHONY: all lab test demo install uninstall board board-test board-figures clean always
