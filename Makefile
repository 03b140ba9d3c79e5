# make                       proves and builds the library and the list program, where missing or older than crates/
# make install PREFIX=DIR    puts them, the header, the pkg-config file and the sources of the Rust binding under DIR
#                            (under DESTDIR/DIR if that is given)
# make uninstall PREFIX=DIR  takes them away again
# make examples              runs the examples and compares what they print
# make check                 the gate
PREFIX ?= /usr/local
VERSION = 0.8.0

library = target/staticlib/libimurraqi.a
program = target/bin/stack_list
# Where the binding's sources go, under PREFIX. Its build.rs looks for the library in ../../../lib from there.
binding = share/imurraqi/rust
# What a proof reads. What is built of it lies in crates/NAME/out, copies of sources too.
sources := crates.txt $(shell find crates/*/src crates/*/specs crates/*/proofs -name '*.rt' -o -name '*.antt')

# The C interface by subject.
subjects = c_values c_descriptors c_fields c_lines c_colors c_cards c_history c_pictures
archives = $(foreach subject,$(subjects),crates/$(subject)/out/lib$(subject).a)

# In a shell: PREFIX with its whole path, and the directory that is written to.
places = set -e; prefix=$$(realpath -ms -- '$(PREFIX)'); to='$(DESTDIR)'$$prefix

all: $(library) $(program)

# A static library of each subject, and their objects side by side in one. In each all but the functions for C are local, so
# that no two objects share a name, and a program gets only the objects of the subjects that it uses.
$(library): $(sources)
	set -e; for subject in $(subjects); do (cd crates/$$subject && rt lib); done
	mkdir -p $(@D)
	rm -f $@
	{ echo create $@; printf 'addlib %s\n' $(archives); echo save; echo end; } | ar -M

# rt builds a program only to run it: here on the stack that its crate has.
$(program): $(sources)
	cd crates/stack_list && rt run <stdin >/dev/null
	install -D crates/stack_list/out/stack_list $@

install: all
	$(places); \
	install -d "$$to/lib/pkgconfig" "$$to/include" "$$to/bin" "$$to/$(binding)/src"; \
	install -m 644 $(library) "$$to/lib"; \
	install -m 644 include/imurraqi.h "$$to/include"; \
	install -m 755 $(program) "$$to/bin"; \
	install -m 644 bindings/rust/Cargo.toml bindings/rust/build.rs "$$to/$(binding)"; \
	install -m 644 bindings/rust/src/*.rs "$$to/$(binding)/src"; \
	{ printf 'prefix=%s\nversion=%s\n' "$$prefix" '$(VERSION)'; cat imurraqi.pc.in; } \
	    >"$$to/lib/pkgconfig/imurraqi.pc"; \
	chmod 644 "$$to/lib/pkgconfig/imurraqi.pc"

uninstall:
	$(places); \
	rm -f "$$to/lib/libimurraqi.a" "$$to/lib/pkgconfig/imurraqi.pc" "$$to/include/imurraqi.h" "$$to/bin/stack_list"; \
	rm -rf "$$to/share/imurraqi"

examples: all
	examples/run

check:
	.ci/run

# Never two rt at a time.
.NOTPARALLEL:
.PHONY: all install uninstall examples check
