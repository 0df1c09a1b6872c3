#!/bin/sh
# objdump.sh FOLDER: builds msp430-elf-objdump 2.40 in an empty folder, of Debian's package binutils-source. It is then
# FOLDER/out/binutils/objdump, which expected/make.py takes as OBJDUMP.
set -e
cd "$1"
tar xf /usr/src/binutils/binutils-2.40.tar.xz
mkdir out
cd out
../binutils-2.40/configure --target=msp430-elf --disable-gas --disable-ld --disable-gprof --disable-gprofng --disable-nls \
    --disable-plugins --without-zstd --disable-werror
make MAKEINFO=true all-opcodes all-libctf configure-binutils
make -C binutils MAKEINFO=true objdump
