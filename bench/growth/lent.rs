//! A picture with all that a writing call is lent, and what a reading call fills.

use crate::pictures::{self, BYTES, Cells, PAL8};
use crate::port::{self, Answer, Lent, Options, Source};
use crate::reader;

/// A picture of bench/speed, as long as it is wide.
pub struct Picture {
    source: Source,
    options: Options,
    plane: Vec<u8>,
    palette: Vec<u8>,
}

impl Picture {
    pub fn new(format: usize, side: usize, cells: Cells, rle: bool) -> Self {
        let source = Source {
            format: format as u32,
            width: side as u32,
            height: side as u32,
            has_palette: format >= PAL8,
            stride: (side * BYTES[format]) as u64,
            ..Source::default()
        };
        let options = Options { rle, embed_icc: true, rendering_intent: 4, ..Options::default() };
        let palette = (0..=255).flat_map(|k| [k, 255 - k, 128, 255]).collect();
        Self { source, options, plane: pictures::plane(format, side, side, cells), palette }
    }

    fn lent(&self) -> Lent<'_> {
        Lent { plane: &self.plane, palette: &self.palette, icc: &[], linked_icc: &[] }
    }

    /// The bytes that the writing call asks for.
    pub fn bound(&self) -> usize {
        port::size_bound(self.source, self.options, self.lent()).bytes as usize
    }

    pub fn write(&self, out: &mut [u8]) -> Answer {
        port::encode_into(self.source, self.options, self.lent(), out, 0)
    }

    /// The file alone.
    pub fn written(&self) -> Vec<u8> {
        let mut file = vec![0; self.bound()];
        let answer = self.write(&mut file);
        assert_eq!(answer.refusal, 0);
        file.truncate(answer.bytes as usize);
        file
    }
}

/// The memory of a reading call.
#[derive(Clone, PartialEq)]
pub struct Filled {
    head: Vec<u8>,
    table: Vec<u8>,
    cells: Vec<u32>,
}

impl Filled {
    /// As long as the file asks for.
    pub fn new(file: &[u8]) -> Self {
        let sizes = reader::read_sizes(file);
        assert_eq!(sizes.refusal, 0);
        Self {
            head: vec![0; sizes.head_bytes as usize],
            table: vec![0; sizes.table_bytes as usize],
            cells: vec![u32::MAX; sizes.cell_numbers as usize],
        }
    }

    /// 0, or the number.
    pub fn read(&mut self, file: &[u8]) -> u32 {
        reader::read(file, &mut self.head, &mut self.table, &mut self.cells).refusal
    }

    /// The cells are the picture's; alpha is not stored, and 0.
    pub fn shows(&self, picture: &Picture) -> bool {
        let is_alpha = |k: usize| !picture.source.has_palette && k % 4 == 3;
        let expected = |k: usize| if is_alpha(k) { 0 } else { u32::from(picture.plane[k]) };
        self.cells.len() == picture.plane.len() && self.cells.iter().enumerate().all(|(k, cell)| *cell == expected(k))
    }
}
