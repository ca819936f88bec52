#!/usr/bin/env bash
# bash bench/differential/build.sh SOURCE_FOLDER [BUILD_FOLDER]
# SOURCE_FOLDER holds encoder.rs, error.rs, image.rs, options.rs and types.rs of OxideAV/oxideav-bmp at 4d59234051.
# With STANDIN=1 the writing call with starts and the reader of one row are those of standin.rs, in a library of their
# own, BUILD_FOLDER/libstarts_standin.a; all else is still libcapi.a's.
set -euo pipefail

if [ $# -lt 1 ]; then
    sed -n 2,5p "$0" >&2
    exit 2
fi
here=$(cd "$(dirname "$0")" && pwd)
root=$(cd "$here/../.." && pwd)
source_folder=$1
build=${2:-$root/target/differential}
library=$root/target/staticlib

if [ ! -f "$library/libcapi.a" ]; then
    echo "target/staticlib/libcapi.a is missing: run 'bash clients/staticlib.sh capi' in the repository's root" >&2
    exit 2
fi

mkdir -p "$build/original"
for file in encoder error image options types; do
    cp "$source_folder/$file.rs" "$build/original/$file.rs"
    chmod u+w "$build/original/$file.rs"
done

link=()
if [ -n "${STANDIN:-}" ]; then
    bash "$here/../standin.sh" "$here/standin.rs" "$build/libstarts_standin.a" bmp_encode_with_starts bmp_read_row
    # The library may already have the two names; the first one that is linked counts.
    link=(-L native="$build" -l static=starts_standin -C link-arg=-Wl,--allow-multiple-definition)
fi
link+=(-L native="$library" -l static=capi)

cat "$here/append.rs.txt" >> "$build/original/encoder.rs"
printf 'pub mod %s;\n' encoder error image options types > "$build/original/lib.rs"

rustc --edition 2024 -O --cap-lints allow --crate-type rlib --crate-name oxideav_bmp \
    -o "$build/liboxideav_bmp.rlib" "$build/original/lib.rs"
rustc --edition 2024 -O --crate-name differential --extern oxideav_bmp="$build/liboxideav_bmp.rlib" \
    "${link[@]}" -o "$build/differential" "$here/main.rs"
echo "built $(basename "$build")/differential"
