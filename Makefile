# The section unit: the commands a reader needs. `make` alone lists them.
.PHONY: help test controls bench run sheet lib install fmt clean

# The book that `make run` and `make sheet` read, the record that is drawn, and where `make install` puts what it installs.
BOOK ?= crates/booklines/stdin
RECORD ?= 0
PREFIX ?= /usr/local
export BOOK RECORD PREFIX DESTDIR

help:
	@echo 'make test                  prove every crate, then test the library from C and from Rust, and these commands'
	@echo 'make controls              prove the control of each must-fail edit that has one: the right program of its shape'
	@echo 'make bench                 time the list of depths, the first depth and the shear against plain C'
	@echo 'make run [BOOK=file]       print the lines of a book, the sample book if none is named'
	@echo 'make sheet [BOOK=file] [RECORD=number]'
	@echo '                           draw a record in target/sheet.svg, the first if none is named'
	@echo 'make lib                   leave the static library in target/staticlib/libpanel.a'
	@echo 'make install [PREFIX=dir]  install the header, the library and its pkg-config file, below /usr/local if nothing is named'
	@echo 'make fmt                   lay out the Rattle and the Rust files'
	@echo 'make clean                 remove what was built'

test:
	@tests/run

controls:
	@tests/controls

bench:
	@bench/run

# `rt run` proves and builds the program where something has changed, and runs it: here on no book.
run:
	@[ -r "$$BOOK" ] && [ ! -d "$$BOOK" ] || { echo "no book to read: $$BOOK" >&2; exit 1; }
	@mkdir -p target
	@[ -x target/booklines ] || echo 'proving and building the book program' >&2
	@(cd crates/booklines && rt run) </dev/null >target/booklines.log 2>&1 || { cat target/booklines.log >&2; exit 1; }
	@tests/start target/booklines crates/booklines/out/booklines
	@target/booklines <"$$BOOK"

# A refused book or record has its sheet too. Where none can be drawn, none that was drawn before is left.
sheet: target/panel/sheet
	@target/panel/sheet "$$BOOK" "$$RECORD" >target/sheet.svg || \
	{ [ $$? -eq 1 ] && echo 'refused: target/sheet.svg says why' >&2 || rm target/sheet.svg; exit 1; }

target/panel/sheet: target/staticlib/libpanel.a include/fordwhistle.h $(wildcard panel/*)
	@tests/cc -O2 $@ panel/*.c >target/panel.log 2>&1 || { cat target/panel.log >&2; exit 1; }

# Its code is in src/ alone.
target/staticlib/libpanel.a: crates.txt $(wildcard crates/*/src/*.rt)
	@mkdir -p target
	@echo 'proving and building the library' >&2
	@$(MAKE) -s --no-print-directory lib >target/staticlib.log 2>&1 || { cat target/staticlib.log >&2; exit 1; }

lib:
	@cd crates/panel_c && rt lib
	@mkdir -p target/staticlib
	@cp crates/panel_c/out/libpanel_c.a target/staticlib/libpanel.a

install: lib
	@set -e; prefix=$$(realpath -ms "$$PREFIX"); to=$$DESTDIR$$prefix; \
	install -d "$$to/include" "$$to/lib/pkgconfig"; \
	install -m 644 include/fordwhistle.h "$$to/include"; \
	install -m 644 target/staticlib/libpanel.a "$$to/lib"; \
	{ printf 'prefix=%s\n' "$$prefix"; cat fordwhistle.pc.in; } >target/fordwhistle.pc; \
	install -m 644 target/fordwhistle.pc "$$to/lib/pkgconfig"

fmt:
	@for crate in crates/*; do (cd $$crate && rt fmt) || exit 1; done
	@cargo fmt --manifest-path tests/rust/Cargo.toml

clean:
	@rm -rf target crates/*/out
