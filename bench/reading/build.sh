#!/usr/bin/env bash
# bash bench/reading/build.sh: builds the damage driver and the benchmark against target/staticlib/libcapi.a.
# OUT is where they go, target/reading if it is not set. With STANDIN=1 the reading functions are the model's, in a
# library of their own, $OUT/libstandin.a (/tmp/libstandin.a if OUT is not set); the writer is still libcapi.a's.
set -euo pipefail
here=$(cd "$(dirname "$0")" && pwd)
root=$(cd "$here/../.." && pwd)
build=${OUT:-$root/target/reading}
library=$root/target/staticlib
# One unit of code: in several, which is rustc's default, the model's loops are not inlined and it is no fair measure.
compile=(rustc --edition 2024 -O -C codegen-units=1)
mkdir -p "$build"

link=()
if [ -n "${STANDIN:-}" ]; then
    place=${OUT:-/tmp}
    bash "$here/../standin.sh" "$here/standin.rs" "$place/libstandin.a" bmp_read bmp_read_sizes bmp_read_row
    # The library may already have the names; the first one that is linked counts.
    link=(-L native="$place" -l static=standin -C link-arg=-Wl,--allow-multiple-definition)
fi
if [ ! -f "$library/libcapi.a" ]; then
    echo "target/staticlib/libcapi.a is missing: run 'bash clients/staticlib.sh capi' in the repository's root" >&2
    exit 2
fi

link+=(-L native="$library" -l static=capi)
"${compile[@]}" --crate-name reading "${link[@]}" -o "$build/reading" "$here/main.rs"
"${compile[@]}" --crate-name reading_speed "${link[@]}" -o "$build/reading_speed" "$here/speed.rs"
echo "built $build/reading and $build/reading_speed"
