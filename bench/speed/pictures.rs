//! The pictures that the benchmarks write.

/// The bytes of a cell in each layout, by its number.
pub const BYTES: [usize; 10] = [4, 3, 4, 3, 2, 2, 1, 1, 1, 1];
pub const PAL8: usize = 6;
pub const INDEXED4: usize = 7;

#[derive(Clone, Copy)]
pub enum Cells {
    Surface,
    Random,
    Solid,
    Runs,
}

/// The rows of a picture without gaps.
pub fn plane(format: usize, width: usize, height: usize, cells: Cells) -> Vec<u8> {
    let n = width * BYTES[format] * height;
    let mut seed = 88172645463325252u64;
    let mut next = || {
        seed ^= seed << 13;
        seed ^= seed >> 7;
        seed ^= seed << 17;
        (seed >> 24) as u8
    };
    match cells {
        Cells::Random => (0..n).map(|_| next()).collect(),
        Cells::Solid => vec![7; n],
        Cells::Surface => {
            let (rows, columns) = (height as f64, width as f64);
            (0..n)
                .map(|k| ((k % width) as f64 / columns, (k / width) as f64 / rows))
                .map(|(x, y)| ((x - 0.5) * (x - 0.5) * 400.0 / (0.4 + y) + y * 60.0) as u8)
                .collect()
        }
        Cells::Runs => {
            let mut cells = Vec::with_capacity(n);
            while cells.len() < n {
                let (value, run) = (next(), 2 + next() as usize % 9);
                cells.resize((cells.len() + run).min(n), value);
            }
            cells
        }
    }
}
