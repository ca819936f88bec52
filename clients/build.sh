#!/usr/bin/env bash
# Writes target/clients from the proved static libraries: the command, the shared library, which the Python module loads,
# and the file for pkg-config. The file VERSION says the version; its first number is the shared library's.
set -eu
cd "$(dirname "$0")/.."
[ -f target/staticlib/libcapi.a ] || bash clients/staticlib.sh capi
[ -f target/staticlib/libcommand.a ] || bash clients/staticlib.sh command
out=target/clients
version=$(<VERSION)
major=${version%%.*}
mkdir -p $out/pkgconfig
gcc -shared -o "$out/libbmp_writer.so.$version" -Wl,-soname,"libbmp_writer.so.$major" \
    -Wl,--whole-archive target/staticlib/libcapi.a -Wl,--no-whole-archive
ln -sf "libbmp_writer.so.$version" "$out/libbmp_writer.so.$major"
ln -sf "libbmp_writer.so.$major" $out/libbmp_writer.so
# With `pkg-config --static` and `cc -static` the same -lbmp_writer finds the archive.
ln -sf ../staticlib/libcapi.a $out/libbmp_writer.a
sed "s|@prefix@|$PWD|; s|@version@|$version|" clients/c/bmp_writer.pc.in >$out/pkgconfig/bmp_writer.pc
gcc -std=c11 -O2 -o $out/bmp_writer clients/c/command.c -Iclients/c target/staticlib/libcommand.a
