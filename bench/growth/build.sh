#!/usr/bin/env bash
# bash bench/growth/build.sh: builds the benchmark of the pictures' sizes against target/staticlib/libcapi.a.
# OUT is where it goes, target/growth if it is not set.
set -euo pipefail
here=$(cd "$(dirname "$0")" && pwd)
root=$(cd "$here/../.." && pwd)
build=${OUT:-$root/target/growth}
library=$root/target/staticlib
if [ ! -f "$library/libcapi.a" ]; then
    echo "target/staticlib/libcapi.a is missing: run 'bash clients/staticlib.sh capi' in the repository's root" >&2
    exit 2
fi
mkdir -p "$build"
rustc --edition 2024 -O --crate-name growth -L native="$library" -l static=capi -o "$build/growth" "$here/main.rs"
echo "built $build/growth"
