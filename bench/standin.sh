#!/usr/bin/env bash
# bash bench/standin.sh SOURCE LIBRARY NAME..: a static library of Rust functions under names of the C interface.
set -euo pipefail
source=$1 library=$2
names=("${@:3}")
work=$(mktemp -d)
trap 'rm -rf "$work"' EXIT
rustc --edition 2024 -O -C codegen-units=1 -C panic=abort --crate-type staticlib --crate-name standin \
    -o "$work/whole.a" "$source"
# One object with these global names: nothing else in it can meet a name of the program that it is linked into. The core
# library's bit code goes, since another LLVM may be unable to read it.
ld -r --gc-sections "${names[@]/#/--undefined=}" -o "$work/standin.o" "$work/whole.a"
objcopy --strip-debug -R .llvmbc -R .llvmcmd "${names[@]/#/--keep-global-symbol=}" "$work/standin.o"
rm -f "$library"
ar rcs "$library" "$work/standin.o"
echo "built $library"
