#!/usr/bin/env bash
# bash bench/quotes/build.sh: builds the driver and the benchmark against target/staticlib/libcapi.a.
# OUT is where they go, target/quotes if it is not set. With STANDIN=1 bmp_shade_quotes is the model's, in a library of
# its own, $OUT/libquotes_standin.a (/tmp/libquotes_standin.a if OUT is not set); the rest is still libcapi.a's.
set -euo pipefail
here=$(cd "$(dirname "$0")" && pwd)
root=$(cd "$here/../.." && pwd)
build=${OUT:-$root/target/quotes}
library=$root/target/staticlib
# One unit of code, so that nothing of the plain Rust in the benchmark fails to be inlined.
compile=(rustc --edition 2024 -O -C codegen-units=1)
mkdir -p "$build"

link=()
if [ -n "${STANDIN:-}" ]; then
    place=${OUT:-/tmp}
    bash "$here/../standin.sh" "$here/standin.rs" "$place/libquotes_standin.a" bmp_shade_quotes
    # The library may already have the name; the first one that is linked counts.
    link=(-L native="$place" -l static=quotes_standin -C link-arg=-Wl,--allow-multiple-definition)
fi
if [ ! -f "$library/libcapi.a" ]; then
    echo "target/staticlib/libcapi.a is missing: run 'bash clients/staticlib.sh capi' in the repository's root" >&2
    exit 2
fi

link+=(-L native="$library" -l static=capi)
"${compile[@]}" --crate-name quotes "${link[@]}" -o "$build/quotes" "$here/main.rs"
"${compile[@]}" --crate-name quotes_speed "${link[@]}" -o "$build/quotes_speed" "$here/speed.rs"
echo "built $build/quotes and $build/quotes_speed"
