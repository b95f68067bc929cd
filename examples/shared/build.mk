# What the examples have in common: how to compile and run for x86-64, natively or with a cross compiler and qemu-x86_64, and where the
# archives come from. Included by a Makefile that sets top and out.
shared := $(top)/examples/shared
archives := $(top)/target/staticlib
headers := $(top)/include/kangirlo.h $(wildcard $(shared)/*.h *.h)
histories := $(sort $(wildcard $(top)/crates/histories/data/*.bench))
sources := $(wildcard $(top)/crates/*/src/*.rt $(top)/crates/*/specs/*.antt)
machine := $(shell uname -m)
flags := -std=c11 -O2 -Wall -Wextra -static -I$(top)/include -I$(shared)

ifeq ($(machine),x86_64)
compiler := gcc
emulator :=
else
compiler := x86_64-linux-gnu-gcc
emulator := qemu-x86_64
endif

# Rust's compiler, 1.63 or later; it links by the C compiler
RUSTC ?= rustc
rust_flags := --edition 2021 -O --target x86_64-unknown-linux-gnu -C linker=$(compiler)

$(archives)/lib%.a: $(sources)
	$(top)/archive $*

# a program is its own file, and the shared files and archives that its Makefile gives it
$(out)/%: %.c $(headers)
	mkdir -p $(out)
	$(compiler) $(flags) $(filter %.c,$^) $(filter %.a,$^) -o $@
