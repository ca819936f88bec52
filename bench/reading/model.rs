//! A reader of BMP files in safe Rust, written from the words of requests A.1 and A.7 with its own arithmetic. It is
//! what the library is compared with, and what its speed is measured against.
//!
//! Nothing wraps: the largest width (2^31 - 1), height (2^31) and depth (32) take 2^64 - 2^33 bytes of rows and as many
//! numbers of cells, which a u64 holds, also with a pixel offset on top.

pub const BUFFER_TOO_SHORT: u32 = 15;
pub const NEVER_WRITTEN: u32 = 17;
pub const OUTSIDE_THE_FILE: u32 = 18;
pub const BAD_STREAM: u32 = 19;

#[repr(C)]
#[derive(Clone, Copy, Debug, Default, PartialEq, Eq)]
pub struct Reading {
    pub profile_at: u64,
    pub profile_bytes: u64,
    pub refusal: u32,
    pub width: u32,
    pub height: u32,
    pub depth: u32,
}

#[repr(C)]
#[derive(Clone, Copy, Debug, Default, PartialEq, Eq)]
pub struct Sizes {
    pub head_bytes: u64,
    pub table_bytes: u64,
    pub cell_numbers: u64,
    pub refusal: u32,
    pub width: u32,
    pub height: u32,
    pub depth: u32,
}

const _: () = assert!(size_of::<Reading>() == 32 && size_of::<Sizes>() == 40);

const EMBEDDED: u32 = 0x4D42_4544;
const LINKED: u32 = 0x4C49_4E4B;

// Fields: none where a byte of the field lies outside the file.

fn bytes<const N: usize>(file: &[u8], at: usize) -> Option<[u8; N]> {
    file.get(at..)?.first_chunk().copied()
}

fn word(file: &[u8], at: usize) -> Option<u16> {
    bytes(file, at).map(u16::from_le_bytes)
}

fn dword(file: &[u8], at: usize) -> Option<u32> {
    bytes(file, at).map(u32::from_le_bytes)
}

fn long(file: &[u8], at: usize) -> Option<i32> {
    bytes(file, at).map(i32::from_le_bytes)
}

/// Red, green, blue, alpha of compression 3 or 6; compression 3 has no alpha, whatever the header's size.
fn masks(file: &[u8], compression: u32) -> Option<[u32; 4]> {
    let alpha = if compression == 6 { dword(file, 66)? } else { 0 };
    Some([dword(file, 54)?, dword(file, 58)?, dword(file, 62)?, alpha])
}

/// A part of the file.
fn part(file: &[u8], at: u64, bytes: u64) -> Option<&[u8]> {
    let end = at.checked_add(bytes)?;
    file.get(usize::try_from(at).ok()?..usize::try_from(end).ok()?)
}

// 17.

fn is_coded(compression: u32) -> bool {
    matches!(compression, 1 | 2)
}

fn is_masked(compression: u32) -> bool {
    matches!(compression, 3 | 6)
}

fn is_pair(depth: u16, compression: u32) -> bool {
    match compression {
        1 => depth == 8,
        2 => depth == 4,
        3 | 6 => matches!(depth, 16 | 32),
        _ => true,
    }
}

/// Refusals 7 to 10 of the writer.
fn are_masks_bad(depth: u16, masks: [u32; 4]) -> bool {
    let mut earlier = 0;
    for mask in masks.into_iter().filter(|mask| *mask != 0) {
        let run = mask >> mask.trailing_zeros();
        if depth == 16 && mask > 0xFFFF || run & run.wrapping_add(1) != 0 || mask & earlier != 0 {
            return true;
        }
        earlier |= mask;
    }
    masks[..3] == [0; 3]
}

/// Each test is made where its own fields lie whole in the file.
fn is_never_written(file: &[u8]) -> bool {
    let (height, depth) = (long(file, 22), word(file, 28));
    let (compression, colours) = (dword(file, 30), dword(file, 46));
    bytes(file, 0).is_some_and(|mark: [u8; 2]| mark != *b"BM")
        || dword(file, 14).is_some_and(|size| !matches!(size, 40 | 108 | 124))
        || long(file, 18).is_some_and(|width| width < 1)
        || height == Some(0)
        || depth.is_some_and(|depth| !matches!(depth, 1 | 2 | 4 | 8 | 16 | 24 | 32))
        || compression.is_some_and(|compression| !matches!(compression, 0 | 1 | 2 | 3 | 6))
        || depth.zip(compression).is_some_and(|(depth, compression)| !is_pair(depth, compression))
        || height.zip(compression).is_some_and(|(height, compression)| height < 0 && is_coded(compression))
        || depth.zip(colours).is_some_and(|(depth, colours)| depth <= 8 && colours > 1 << depth)
        || depth.zip(compression).is_some_and(|(depth, compression)| {
            is_masked(compression) && masks(file, compression).is_some_and(|masks| are_masks_bad(depth, masks))
        })
}

// 18.

/// Where everything lies.
struct Layout<'a> {
    head: &'a [u8],
    table: &'a [u8],
    /// The stored rows, or everything from the pixel offset on where a stream begins there.
    pixels: &'a [u8],
    profile_at: u64,
    profile_bytes: u64,
    width: u32,
    height: u32,
    is_top_first: bool,
    depth: u32,
    compression: u32,
    masks: [u32; 4],
    row_bytes: u64,
}

impl Layout<'_> {
    fn numbers_a_cell(&self) -> u64 {
        if self.depth <= 8 { 1 } else { 4 }
    }

    fn cell_numbers(&self) -> u64 {
        self.numbers_a_cell() * u64::from(self.width) * u64::from(self.height)
    }
}

/// Place and size of the profile, both 0 where there is none or where it has no byte.
fn profile(file: &[u8], header_bytes: u32) -> Option<(u64, u64)> {
    if header_bytes != 124 || !matches!(dword(file, 70)?, EMBEDDED | LINKED) {
        return Some((0, 0));
    }
    let (at, bytes) = (14 + u64::from(dword(file, 126)?), u64::from(dword(file, 130)?));
    if bytes == 0 {
        return Some((0, 0));
    }
    part(file, at, bytes).map(|_| (at, bytes))
}

/// Everything but pixels and profile; none where a byte of header, masks or table lies outside the file.
fn frame(file: &[u8]) -> Option<Layout<'_>> {
    let head = part(file, 0, 14 + u64::from(dword(file, 14)?))?;
    let (width, height) = (dword(file, 18)?, long(file, 22)?);
    let (depth, compression) = (u32::from(word(file, 28)?), dword(file, 30)?);
    let entries = match dword(file, 46)? {
        _ if depth > 8 => 0,
        0 => 1 << depth,
        count => u64::from(count),
    };
    Some(Layout {
        head,
        table: part(file, head.len() as u64, 4 * entries)?,
        pixels: &[],
        profile_at: 0,
        profile_bytes: 0,
        width,
        height: height.unsigned_abs(),
        is_top_first: height < 0,
        depth,
        compression,
        masks: if is_masked(compression) { masks(file, compression)? } else { [0; 4] },
        row_bytes: (u64::from(width) * u64::from(depth)).div_ceil(32) * 4,
    })
}

/// The stored rows from a place on, or everything from there on if it is a stream. A stream that begins past the end has
/// no byte, and then does not fill its first row.
fn pixels<'a>(file: &'a [u8], frame: &Layout<'_>, at: u64) -> Option<&'a [u8]> {
    if is_coded(frame.compression) {
        return Some(usize::try_from(at).ok().and_then(|at| file.get(at..)).unwrap_or(&[]));
    }
    part(file, at, frame.row_bytes * u64::from(frame.height))
}

/// None where a byte of header, masks, table, plain rows or profile lies outside the file.
fn layout(file: &[u8]) -> Option<Layout<'_>> {
    let mut layout = frame(file)?;
    (layout.profile_at, layout.profile_bytes) = profile(file, dword(file, 14)?)?;
    layout.pixels = pixels(file, &layout, dword(file, 10)?.into())?;
    Some(layout)
}

/// The same for one row that begins at a place; there is no profile.
fn row_layout(file: &[u8], start: u64) -> Option<Layout<'_>> {
    let mut layout = Layout { height: 1, ..frame(file)? };
    layout.pixels = pixels(file, &layout, start)?;
    Some(layout)
}

fn checked_layout(file: &[u8]) -> Result<Layout<'_>, u32> {
    if is_never_written(file) {
        return Err(NEVER_WRITTEN);
    }
    layout(file).ok_or(OUTSIDE_THE_FILE)
}

// Plain rows.

fn widen(bytes: &[u8], cells: &mut [u32]) {
    for (cell, byte) in cells.iter_mut().zip(bytes) {
        *cell = u32::from(*byte);
    }
}

/// Indices of 1, 2 or 4 bits, the high bits of a byte first.
fn unpack<const DEPTH: usize>(bytes: &[u8], cells: &mut [u32]) {
    let index = |byte: u8, k: usize| u32::from(byte) >> (8 - DEPTH - k * DEPTH) & ((1 << DEPTH) - 1);
    let in_a_byte = 8 / DEPTH;
    let whole = cells.len() / in_a_byte;
    let (groups, rest) = cells.split_at_mut(whole * in_a_byte);
    for (group, byte) in groups.chunks_exact_mut(in_a_byte).zip(bytes) {
        for (k, cell) in group.iter_mut().enumerate() {
            *cell = index(*byte, k);
        }
    }
    for (k, cell) in rest.iter_mut().enumerate() {
        *cell = index(bytes[whole], k);
    }
}

/// Cells of whole bytes, as four numbers each.
fn colours<const BYTES: usize>(row: &[u8], cells: &mut [u32], colour: impl Fn([u8; BYTES]) -> [u32; 4]) {
    for (cell, bytes) in cells.as_chunks_mut().0.iter_mut().zip(row.as_chunks().0) {
        *cell = colour(*bytes);
    }
}

fn five_bits(bytes: [u8; 2]) -> [u32; 4] {
    let word = u32::from(u16::from_le_bytes(bytes));
    [word >> 10 & 31, word >> 5 & 31, word & 31, 0]
}

/// The bits under each mask, moved down to bit 0. A zero mask has no lowest bit, and leaves nothing to move.
fn under(masks: [u32; 4]) -> impl Fn(u32) -> [u32; 4] {
    let shifts = masks.map(|mask| if mask == 0 { 0 } else { mask.trailing_zeros() });
    move |cell| [0, 1, 2, 3].map(|k| (cell & masks[k]) >> shifts[k])
}

/// Hands each stored row to `fill` with its place among the cells.
fn each_row(layout: &Layout<'_>, cells: &mut [u32], fill: impl Fn(&[u8], &mut [u32])) {
    let stored = layout.pixels.chunks_exact(layout.row_bytes as usize);
    let shown = cells.chunks_exact_mut(layout.width as usize * layout.numbers_a_cell() as usize);
    if layout.is_top_first {
        stored.zip(shown).for_each(|(row, cells)| fill(row, cells));
    } else {
        stored.rev().zip(shown).for_each(|(row, cells)| fill(row, cells));
    }
}

fn fill_rows(layout: &Layout<'_>, cells: &mut [u32]) {
    let under = under(layout.masks);
    match (layout.depth, layout.compression) {
        (1, _) => each_row(layout, cells, unpack::<1>),
        (2, _) => each_row(layout, cells, unpack::<2>),
        (4, _) => each_row(layout, cells, unpack::<4>),
        (8, _) => each_row(layout, cells, widen),
        (16, 0) => each_row(layout, cells, |row, cells| colours(row, cells, five_bits)),
        (16, _) => each_row(layout, cells, |row, cells| {
            colours(row, cells, |bytes| under(u32::from(u16::from_le_bytes(bytes))))
        }),
        (24, _) => each_row(layout, cells, |row, cells| {
            colours(row, cells, |[blue, green, red]| [red.into(), green.into(), blue.into(), 0])
        }),
        (_, 0) => each_row(layout, cells, |row, cells| {
            colours(row, cells, |[blue, green, red, _]| [red.into(), green.into(), blue.into(), 0])
        }),
        _ => each_row(layout, cells, |row, cells| colours(row, cells, |bytes| under(u32::from_le_bytes(bytes)))),
    }
}

// Streams.

/// What a code fills cells with.
enum Code<'a> {
    Run(u8),
    Packed(&'a [u8]),
}

/// Goes through the stream up to the last cell, and tells `fill` the place of each code's first cell, the count and the
/// code. What is left of the stream is answered. None is 19.
fn walk<'a, const DEPTH: usize>(layout: &Layout<'a>, mut fill: impl FnMut(usize, usize, Code<'_>)) -> Option<&'a [u8]> {
    let width = layout.width as usize;
    let mut rest = layout.pixels;
    for row in (0..layout.height as usize).rev() {
        let (mut place, end) = (row * width, row * width + width);
        while place < end {
            let (&[first, second], behind) = rest.split_first_chunk()?;
            let count = usize::from(if first == 0 { second } else { first });
            if first == 0 && second < 3 || count > end - place {
                return None;
            }
            rest = behind;
            if first == 0 {
                let taken = (count * DEPTH).div_ceil(8);
                fill(place, count, Code::Packed(behind.get(..taken)?));
                // Behind the last cell the padding may be missing.
                rest = behind.get(taken.next_multiple_of(2)..).unwrap_or(&[]);
            } else {
                fill(place, count, Code::Run(second));
            }
            place += count;
        }
        if row > 0 {
            rest = rest.strip_prefix(&[0, 0])?;
        }
    }
    Some(rest)
}

fn fill_run<const DEPTH: usize>(value: u8, cells: &mut [u32]) {
    if DEPTH == 8 {
        cells.fill(u32::from(value));
    } else {
        let halves = [u32::from(value >> 4), u32::from(value & 15)];
        for (k, cell) in cells.iter_mut().enumerate() {
            *cell = halves[k % 2];
        }
    }
}

fn fill_stream<const DEPTH: usize>(layout: &Layout<'_>, cells: &mut [u32]) -> Option<()> {
    walk::<DEPTH>(layout, |place, count, code| {
        let cells = &mut cells[place..place + count];
        match code {
            Code::Run(value) => fill_run::<DEPTH>(value, cells),
            Code::Packed(bytes) if DEPTH == 8 => widen(bytes, cells),
            Code::Packed(bytes) => unpack::<4>(bytes, cells),
        }
    })
    .map(|_| ())
}

/// A refused stream must leave the cells as they were, so it is walked through before the first one is filled.
fn fill(layout: &Layout<'_>, cells: &mut [u32]) -> Result<(), u32> {
    match layout.compression {
        1 => walk::<8>(layout, |_, _, _| {}).and_then(|_| fill_stream::<8>(layout, cells)).ok_or(BAD_STREAM),
        2 => walk::<4>(layout, |_, _, _| {}).and_then(|_| fill_stream::<4>(layout, cells)).ok_or(BAD_STREAM),
        _ => {
            fill_rows(layout, cells);
            Ok(())
        }
    }
}

// The three calls.

/// The first part of a lent buffer, as long as what goes there.
fn room<T>(buffer: &mut [T], len: u64) -> Result<&mut [T], u32> {
    usize::try_from(len).ok().and_then(|len| buffer.get_mut(..len)).ok_or(BUFFER_TOO_SHORT)
}

fn try_read(file: &[u8], head: &mut [u8], table: &mut [u8], cells: &mut [u32]) -> Result<Reading, u32> {
    let layout = checked_layout(file)?;
    let head = room(head, layout.head.len() as u64)?;
    let table = room(table, layout.table.len() as u64)?;
    let cells = room(cells, layout.cell_numbers())?;
    fill(&layout, cells)?;
    head.copy_from_slice(layout.head);
    table.copy_from_slice(layout.table);
    Ok(Reading {
        profile_at: layout.profile_at,
        profile_bytes: layout.profile_bytes,
        refusal: 0,
        width: layout.width,
        height: layout.height,
        depth: layout.depth,
    })
}

pub fn read(file: &[u8], head: &mut [u8], table: &mut [u8], cells: &mut [u32]) -> Reading {
    try_read(file, head, table, cells).unwrap_or_else(|refusal| Reading { refusal, ..Reading::default() })
}

pub fn read_sizes(file: &[u8]) -> Sizes {
    match checked_layout(file) {
        Ok(layout) => Sizes {
            head_bytes: layout.head.len() as u64,
            table_bytes: layout.table.len() as u64,
            cell_numbers: layout.cell_numbers(),
            refusal: 0,
            width: layout.width,
            height: layout.height,
            depth: layout.depth,
        },
        Err(refusal) => Sizes { refusal, ..Sizes::default() },
    }
}

fn try_read_row(file: &[u8], start: u64, cells: &mut [u32]) -> Result<(), u32> {
    if is_never_written(file) {
        return Err(NEVER_WRITTEN);
    }
    let layout = row_layout(file, start).ok_or(OUTSIDE_THE_FILE)?;
    let cells = room(cells, layout.cell_numbers())?;
    fill(&layout, cells)
}

/// The row that begins at a place of the file: 0, or the number.
pub fn read_row(file: &[u8], start: u64, cells: &mut [u32]) -> u32 {
    try_read_row(file, start, cells).err().unwrap_or(0)
}

/// The numbers that a row's cells take, and where its stored bytes end if it is plain; none where 17 or 18 comes first,
/// but for 18 of the row itself.
pub fn row_needs(file: &[u8], start: u64) -> Option<(u64, Option<u64>)> {
    let frame = frame(file).filter(|_| !is_never_written(file))?;
    let end = if is_coded(frame.compression) { None } else { Some(start.saturating_add(frame.row_bytes)) };
    Some((Layout { height: 1, ..frame }.cell_numbers(), end))
}

/// Where stored row k begins in a file that is read, or in a stream as far as it can be read; none past the last row.
pub fn row_start(file: &[u8], k: u32) -> Option<u64> {
    let layout = checked_layout(file).ok().filter(|layout| k < layout.height)?;
    if !is_coded(layout.compression) {
        return Some(u64::from(dword(file, 10)?) + layout.row_bytes * u64::from(k));
    }
    let mut row = Layout { height: 1, ..layout };
    for _ in 0..k {
        let rest = if row.compression == 1 { walk::<8>(&row, |_, _, _| {}) } else { walk::<4>(&row, |_, _, _| {}) };
        row.pixels = rest?.strip_prefix(&[0, 0])?;
    }
    Some((file.len() - row.pixels.len()) as u64)
}
