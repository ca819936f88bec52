#!/usr/bin/env bash
# build.sh SOURCE_FOLDER: builds the original encoder from its five source files, runs it on the sample's
# cases and writes crates/replay/stdin. The folder holds encoder.rs, error.rs, image.rs, options.rs and
# types.rs of OxideAV/oxideav-bmp at 4d59234051; nothing in it is changed.
set -eu
if [ $# -ne 1 ]; then
    echo "usage: build.sh SOURCE_FOLDER" >&2
    exit 2
fi
here=$(cd "$(dirname "$0")" && pwd)
work=$(mktemp -d)
trap 'rm -rf "$work"' EXIT
for name in encoder error image options types; do
    cat "$1/$name.rs" > "$work/$name.rs"
done
# The plan, its sizes and its stream's length are private to the encoder's module, and `with_limit` is compiled for its
# tests only: `plan_at` has the same body.
cat >> "$work/encoder.rs" <<'END'

fn plan_at<'a>(src: &EncodeSource<'a>, options: &'a EncodeOptions, limit: u64) -> Result<Plan<'a>> {
    let mut plan = Plan::new(src, options)?;
    plan.sizes = Sizes::of(&plan.head, &plan.rows, limit)?;
    Ok(plan)
}

pub(crate) fn bound_at(src: &EncodeSource<'_>, options: &EncodeOptions, limit: u64) -> Result<u64> {
    Ok(plan_at(src, options, limit)?.sizes.bound)
}

pub(crate) fn encode_at(
    src: &EncodeSource<'_>,
    options: &EncodeOptions,
    limit: u64,
) -> Result<(Vec<u8>, EncodedBmpFormat)> {
    let mut out = Vec::new();
    let format = plan_at(src, options, limit)?.write_into(&mut out)?;
    Ok((out, format))
}

/// The bytes before the pixels, and those of the plain file.
pub(crate) fn sizes_of(src: &EncodeSource<'_>, options: &EncodeOptions) -> Option<(u64, u64)> {
    let sizes = Plan::new(src, options).ok()?.sizes;
    Some((sizes.head, sizes.file))
}

/// The whole length of the stream and of the raw rows, where a stream is planned.
pub(crate) fn stream_of(src: &EncodeSource<'_>, options: &EncodeOptions) -> Option<(usize, usize)> {
    let plan = Plan::new(src, options).ok()?;
    let Head::V3Indexed { rle: Some(rle), .. } = plan.head else { return None };
    let len = plan.rows.rle_len(rle, 1 << 40, &mut Vec::new())?;
    Some((len, plan.sizes.raw as usize))
}
END
cp "$here/generate.rs" "$work/generate.rs"
rustc --edition 2024 -O -A warnings -o "$work/generate" "$work/generate.rs"
"$work/generate" > "$work/sample"
mkdir -p "$here/../../crates/replay"
cp "$work/sample" "$here/../../crates/replay/stdin"
