#!/usr/bin/env bash
# bash bench/threads/build.sh: builds the benchmark of threads against target/staticlib/libcapi.a.
# OUT is where it goes, target/threads if it is not set. threads.py needs clients/build.sh and not this.
set -euo pipefail
here=$(cd "$(dirname "$0")" && pwd)
root=$(cd "$here/../.." && pwd)
build=${OUT:-$root/target/threads}
library=$root/target/staticlib
if [ ! -f "$library/libcapi.a" ]; then
    echo "target/staticlib/libcapi.a is missing: run 'bash clients/staticlib.sh capi' in the repository's root" >&2
    exit 2
fi
mkdir -p "$build"
rustc --edition 2024 -O --crate-name threads -L native="$library" -l static=capi -o "$build/threads" "$here/main.rs"
echo "built $build/threads"
