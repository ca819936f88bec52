//! A smile-shaped surface of 200 x 200 shades, written to grid.bmp: cd clients/rust && cargo run --offline --example grid
use bmp_writer::{BmpPixelFormat, EncodeOptions, EncodeSource, encode};

/// Red, green and blue of every 64th palette entry, from dark violet to yellow.
const STOPS: [[usize; 3]; 5] = [[68, 1, 84], [59, 82, 139], [33, 145, 140], [94, 201, 98], [253, 231, 37]];

fn main() -> Result<(), Box<dyn std::error::Error>> {
    let side = 200i32;
    let shade = |x: i32, y: i32| ((x - 110).pow(2) * 153 / (121 * (60 + y)) + y / 4) as u8;
    let plane: Vec<u8> = (0..side * side).map(|k| shade(k % side, k / side)).collect();
    let entry = |k: usize| {
        let (n, f) = (k / 64, k % 64);
        let channel = |c: usize| ((STOPS[n][c] * (64 - f) + STOPS[n + 1][c] * f) / 64) as u8;
        [channel(0), channel(1), channel(2), 255]
    };
    let palette: Vec<u8> = (0..256).flat_map(entry).collect();
    let src = EncodeSource {
        format: BmpPixelFormat::Pal8,
        width: 200,
        height: 200,
        stride: 200,
        plane: &plane,
        palette: Some(&palette),
        icc: None,
    };
    let (file, written) = encode(&src, &EncodeOptions::new())?;
    std::fs::write("grid.bmp", &file)?;
    println!("{written:?} {} bytes", file.len());
    Ok(())
}
