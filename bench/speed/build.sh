#!/usr/bin/env bash
# bash bench/speed/build.sh SOURCE_FOLDER
# SOURCE_FOLDER holds encoder.rs, error.rs, image.rs, options.rs and types.rs of OxideAV/oxideav-bmp at 4d59234051.
# Builds the original as bench/differential does, and the benchmark against it and target/staticlib/libcapi.a.
set -euo pipefail
here=$(cd "$(dirname "$0")" && pwd)
root=$(cd "$here/../.." && pwd)
build=$root/target/differential
bash "$root/bench/differential/build.sh" "$1"
# With STANDIN=1 the stand-in that this has built comes first.
link=()
if [ -n "${STANDIN:-}" ]; then
    link=(-L native="$build" -l static=starts_standin -C link-arg=-Wl,--allow-multiple-definition)
fi
rustc --edition 2024 -O --crate-name speed --extern oxideav_bmp="$build/liboxideav_bmp.rlib" \
    "${link[@]}" -L native="$root/target/staticlib" -l static=capi -o "$root/target/speed" "$here/main.rs"
echo "built target/speed"
