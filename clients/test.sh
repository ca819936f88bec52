#!/usr/bin/env bash
# Builds the libraries, the command, the clients' tests and the examples, and runs them all. Needs rt, gcc, g++, cargo,
# pkg-config and python3, and no network.
set -eu
cd "$(dirname "$0")/.."
bash clients/staticlib.sh capi
bash clients/staticlib.sh command
bash clients/build.sh
root=$PWD
work=$(mktemp -d)
trap 'rm -rf "$work"' EXIT
export BMP_WRITER_LIBRARY="$root/target/clients/libbmp_writer.so" BMP_WRITER_PROGRAM="$root/target/clients/bmp_writer"
export PYTHONDONTWRITEBYTECODE=1 PYTHONPATH="$root/clients/python"
strict="-Wall -Wextra -Werror -pedantic"

# Every language that the header is for; with packed structs each must refuse it.
for std in c99 c11 c17 c++98 c++11 c++17; do
    case $std in c++*) cc=g++ language=c++ test=clients/c/test.cpp ;; *) cc=gcc language=c test=clients/c/test.c ;; esac
    $cc -std=$std $strict -o "$work/tests_c" $test -Iclients/c target/staticlib/libcapi.a
    "$work/tests_c"
    if $cc -std=$std -fpack-struct -fsyntax-only -x $language clients/c/bmp_writer.h 2>"$work/log"; then exit 1; fi
    grep -q bmp_source "$work/log"
done
gcc -std=c99 $strict -o "$work/example_c" clients/c/example.c -Iclients/c target/staticlib/libcapi.a
gcc -std=c11 $strict -fsyntax-only clients/c/command.c -Iclients/c

# The shared library: ten functions and no more, its name, and pkg-config.
names=$(nm -D --defined-only target/clients/libbmp_writer.so | cut -d' ' -f3 | LC_ALL=C sort | tr '\n' ' ')
[ "$names" = "bmp_check_masks bmp_encode_into bmp_encode_into_with bmp_encode_with_starts bmp_encoded_size_bound \
bmp_encoded_size_bound_with bmp_read bmp_read_row bmp_read_sizes bmp_shade_quotes " ]
readelf -d target/clients/libbmp_writer.so | grep -q 'soname: \[libbmp_writer.so.1\]'
export PKG_CONFIG_PATH="$root/target/clients/pkgconfig"
[ "$(pkg-config --modversion bmp_writer)" = "$(cat VERSION)" ]
gcc -o "$work/example_shared" clients/c/example.c $(pkg-config --cflags --libs bmp_writer)
gcc -static -o "$work/example_static" clients/c/example.c $(pkg-config --static --cflags --libs bmp_writer)

# A refusal is said on standard error, with status 1.
sed 's/BMP_PAL8, SIDE/BMP_PAL8, 0/' clients/c/example.c >"$work/refused.c"
gcc -o "$work/refused" "$work/refused.c" -Iclients/c target/staticlib/libcapi.a
status=0
"$work/refused" >"$work/out" 2>"$work/log" || status=$?
[ $status = 1 ] && [ ! -s "$work/out" ] && [ "$(cat "$work/log")" = "refused, number 1: width or height is 0" ]

# The command, the Rust crate and the Python module. One version, and the command says it too.
[ "$("$BMP_WRITER_PROGRAM" --version)" = "bmp_writer $(cat VERSION)" ]
python3 clients/test_command.py
(cd clients/rust && cargo test --offline && cargo build --offline --example grid)
python3 clients/python/test_bmp_writer.py

# The examples write the same file, and so does the command on the same surface.
cd "$work"
for example in ./example_c "env LD_LIBRARY_PATH=$root/target/clients ./example_shared" ./example_static \
    "$root/target/cargo/debug/examples/grid" "python3 $root/clients/python/example.py"; do
    $example
    [ "$(cksum grid.bmp)" = "189915939 38784 grid.bmp" ]
    rm grid.bmp
done
python3 -c "import os; os.write(1, bytes((x - 110) ** 2 * 153 // (121 * (60 + y)) + y // 4 for y in range(200) for x in range(200)))" |
    "$BMP_WRITER_PROGRAM" --plane - --width 200 --height 200 --sample-palette --out grid.bmp
[ "$(cksum grid.bmp)" = "189915939 38784 grid.bmp" ]
python3 "$root/clients/python/example_quotes.py"
[ "$(cksum quotes.bmp)" = "647575826 7696 quotes.bmp" ]
echo "clients: all tests passed"
