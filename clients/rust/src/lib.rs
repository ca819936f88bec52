//! A BMP writer whose every byte is proved, for Rust, over its C interface: types and names as the original encoder has them.
//! `read` takes a file apart again, `read_row` one row of it from a place that `encode_with_starts` gives, and `shade_quotes`
//! paints a plane from prices.
//! `build.rs` links `libcapi.a` (`bash clients/staticlib.sh capi`).

/// The layout of the lent plane.
#[derive(Clone, Copy, Debug, PartialEq, Eq)]
pub enum BmpPixelFormat {
    Rgba,
    Rgb24,
    Bgra,
    Bgr24,
    Rgb555,
    Rgb565,
    Pal8,
    Indexed4,
    Indexed2,
    Indexed1,
}

/// What a file was written as.
#[derive(Clone, Copy, Debug, PartialEq, Eq)]
pub enum EncodedBmpFormat {
    Rgb32,
    Rgb24,
    Rgb16Rgb,
    Rgb16Bitfields,
    Indexed8,
    Indexed4,
    Indexed2,
    Rle8,
    Rle4,
    Indexed1,
    Bitfields,
    AlphaBitfields,
}

const WRITTEN: [EncodedBmpFormat; 12] = [
    EncodedBmpFormat::Rgb32,
    EncodedBmpFormat::Rgb24,
    EncodedBmpFormat::Rgb16Rgb,
    EncodedBmpFormat::Rgb16Bitfields,
    EncodedBmpFormat::Indexed8,
    EncodedBmpFormat::Indexed4,
    EncodedBmpFormat::Indexed2,
    EncodedBmpFormat::Rle8,
    EncodedBmpFormat::Rle4,
    EncodedBmpFormat::Indexed1,
    EncodedBmpFormat::Bitfields,
    EncodedBmpFormat::AlphaBitfields,
];

impl TryFrom<u32> for EncodedBmpFormat {
    type Error = BmpError;

    /// The C interface's number. One that is not listed, as from a later library, is an error and no panic.
    fn try_from(number: u32) -> Result<Self> {
        WRITTEN.get(number as usize).copied().ok_or(BmpError { kind: BmpErrorKind::UnknownFormat, number })
    }
}

/// What the number of an error is of.
#[derive(Clone, Copy, Debug, PartialEq, Eq)]
pub enum BmpErrorKind {
    /// The call is refused; no byte of the buffer has changed.
    Refused,
    /// The file is written, but as something that this wrapper does not know.
    UnknownFormat,
    /// The file asks for more memory than there is to lend. The number is 15: every buffer that can be lent is too short.
    OutOfMemory,
}

/// A call without an answer, and the C interface's number for it.
#[derive(Clone, Copy, PartialEq, Eq)]
pub struct BmpError {
    pub kind: BmpErrorKind,
    pub number: u32,
}

impl BmpError {
    /// The error of a refusal's number.
    pub fn refused(number: u32) -> Self {
        Self { kind: BmpErrorKind::Refused, number }
    }

    /// The cause in words, for a refusal as in the C header.
    pub fn text(&self) -> &'static str {
        match self.kind {
            BmpErrorKind::Refused => {}
            BmpErrorKind::UnknownFormat => return "unknown number of a written format",
            BmpErrorKind::OutOfMemory => return "there is no memory for the cells",
        }
        match self.number {
            0 => "not refused",
            1 => "width or height is 0",
            2 => "width or height is over 2147483647",
            3 => "an indexed format needs a palette",
            4 => "the palette's bytes are not a multiple of 4",
            5 => "more than one of masks, calibrated colour and a profile",
            6 => "the masks' depth is neither 16 nor 32",
            7 => "a mask has a bit above the depth",
            8 => "a mask's ones are not one run",
            9 => "a mask shares a bit with an earlier one",
            10 => "the masks of red, green and blue are all 0",
            11 => "masks are for Rgba, Rgb24, Bgra and Bgr24 alone",
            12 => "the plane is shorter than stride times height",
            13 => "the stride is below width times the bytes of a pixel",
            14 => "the file would have more bytes than the limit",
            15 => "a lent buffer or list is too short",
            16 => "neither the stream nor the plain file is within the limit",
            17 => "the head is one that the writer never writes",
            18 => "a byte of header, masks, table, rows or profile lies outside the file",
            19 => "the stream steps over a row's end, ends too early or uses a delta code",
            20 => "the limit is over 4294967295",
            21 => "a resolution is negative",
            22 => "the edges are not 1 to 254 numbers, each above the one before",
            23 => "a cell's low or high is not a number, or the low is above the high",
            24 => "the list of row starts is shorter than the height",
            255 => "the format's number is none of those listed",
            _ => "unknown refusal number",
        }
    }
}

impl std::fmt::Display for BmpError {
    fn fmt(&self, f: &mut std::fmt::Formatter<'_>) -> std::fmt::Result {
        write!(f, "{}: {}", self.number, self.text())
    }
}

/// The words as well: a `main` that returns the error prints it in this form.
impl std::fmt::Debug for BmpError {
    fn fmt(&self, f: &mut std::fmt::Formatter<'_>) -> std::fmt::Result {
        write!(f, "BmpError({self})")
    }
}

impl std::error::Error for BmpError {}

pub type Result<T> = std::result::Result<T, BmpError>;

/// Explicit masks: depth 16 or 32; the alpha mask may be 0. A sample's 8 bits, repeated from the top down, fill its mask:
/// the top ones of a short mask, and 255 is any mask's top value.
#[derive(Clone, Copy, Debug, PartialEq, Eq)]
pub struct BmpBitfields {
    pub bpp: u16,
    pub r: u32,
    pub g: u32,
    pub b: u32,
    pub a: u32,
}

impl BmpBitfields {
    /// The mask check: 6 to 10 where it refuses.
    pub fn validate(&self) -> Result<()> {
        accepted(unsafe { bmp_check_masks(self.bpp, self.r, self.g, self.b, self.a) })
    }
}

/// Nine endpoints (FXPT2DOT30) and three gammas (16.16).
#[derive(Clone, Copy, Debug, PartialEq, Eq)]
pub struct CalibratedRgb {
    pub endpoints: [i32; 9],
    pub gamma: [u32; 3],
}

/// The original's options and defaults, and the settings of the screen that shows the file.
#[derive(Clone, Debug, PartialEq, Eq)]
pub struct EncodeOptions {
    pub top_down: bool,
    pub minimal_palette: bool,
    pub rle: bool,
    pub bitfields: Option<BmpBitfields>,
    pub embed_icc: bool,
    pub linked_icc: Option<Vec<u8>>,
    pub rendering_intent: u32,
    pub calibrated_rgb: Option<CalibratedRgb>,
    /// Bytes that a file may have, at most 4,294,967,295, which is the default: 20 where it is more.
    pub limit: u64,
    /// Cells in a metre across, 2835 by default, which is 72 to the inch: 21 where it is negative.
    pub x_pels_per_meter: i32,
    /// The same down.
    pub y_pels_per_meter: i32,
}

impl Default for EncodeOptions {
    fn default() -> Self {
        Self {
            top_down: false,
            minimal_palette: false,
            rle: true,
            bitfields: None,
            embed_icc: true,
            linked_icc: None,
            rendering_intent: 4,
            calibrated_rgb: None,
            limit: 0xFFFF_FFFF,
            x_pels_per_meter: 2835,
            y_pels_per_meter: 2835,
        }
    }
}

impl EncodeOptions {
    pub fn new() -> Self {
        Self::default()
    }

    pub fn with_top_down(mut self, top_down: bool) -> Self {
        self.top_down = top_down;
        self
    }

    pub fn with_minimal_palette(mut self, minimal_palette: bool) -> Self {
        self.minimal_palette = minimal_palette;
        self
    }

    pub fn with_rle(mut self, rle: bool) -> Self {
        self.rle = rle;
        self
    }

    pub fn with_bitfields(mut self, bitfields: impl Into<Option<BmpBitfields>>) -> Self {
        self.bitfields = bitfields.into();
        self
    }

    pub fn with_embed_icc(mut self, embed_icc: bool) -> Self {
        self.embed_icc = embed_icc;
        self
    }

    pub fn with_linked_icc(mut self, path: impl Into<Option<Vec<u8>>>) -> Self {
        self.linked_icc = path.into();
        self
    }

    pub fn with_rendering_intent(mut self, intent: u32) -> Self {
        self.rendering_intent = intent;
        self
    }

    pub fn with_calibrated_rgb(mut self, calibrated: impl Into<Option<CalibratedRgb>>) -> Self {
        self.calibrated_rgb = calibrated.into();
        self
    }

    pub fn with_limit(mut self, limit: u64) -> Self {
        self.limit = limit;
        self
    }

    pub fn with_x_pels_per_meter(mut self, pels: i32) -> Self {
        self.x_pels_per_meter = pels;
        self
    }

    pub fn with_y_pels_per_meter(mut self, pels: i32) -> Self {
        self.y_pels_per_meter = pels;
        self
    }
}

/// The picture, borrowed. A palette entry is four bytes: red, green, blue, alpha.
#[derive(Clone, Copy, Debug)]
pub struct EncodeSource<'a> {
    pub format: BmpPixelFormat,
    pub width: u32,
    pub height: u32,
    /// Bytes from one row of the plane to the next.
    pub stride: usize,
    pub plane: &'a [u8],
    pub palette: Option<&'a [u8]>,
    pub icc: Option<&'a [u8]>,
}

/// What a file asks for, and the size that it shows.
#[derive(Clone, Copy, Debug, PartialEq, Eq)]
pub struct ReadingSizes {
    pub width: u32,
    pub height: u32,
    /// Bits of a stored cell: 1, 2, 4, 8, 16, 24 or 32.
    pub depth: u32,
    /// What `head` must have: 54, 122 or 138 bytes.
    pub head_bytes: usize,
    /// What `table` must have: at most 1024 bytes, and none above depth 8.
    pub table_bytes: usize,
    /// What `cells` must have. The few bytes of a stream can ask for nearly 2^62 numbers.
    pub cell_numbers: u64,
}

/// What is answered beside the filled buffers.
#[derive(Clone, Copy, Debug, PartialEq, Eq)]
pub struct Reading<'a> {
    pub width: u32,
    /// Rows, also of a file whose height is negative.
    pub height: u32,
    pub depth: u32,
    /// The part of the file that is its profile; empty where there is none.
    pub profile: &'a [u8],
}

/// A file that was read.
#[derive(Clone, Debug, PartialEq, Eq)]
pub struct Picture<'a> {
    pub width: u32,
    pub height: u32,
    pub depth: u32,
    /// The first 14 bytes and the header.
    pub head: Vec<u8>,
    /// Four bytes an entry, as filed: blue, green, red, 0.
    pub table: Vec<u8>,
    /// Row by row from the top: up to depth 8 an index a cell, above it four numbers, red, green, blue and alpha. Alpha is 0
    /// but for compression 6, and a channel whose mask is 0 is 0.
    pub cells: Vec<u32>,
    pub profile: &'a [u8],
}

#[repr(C)]
#[derive(Clone, Copy)]
struct RawOptions {
    top_down: bool,
    minimal_palette: bool,
    rle: bool,
    embed_icc: bool,
    has_bitfields: bool,
    has_calibrated: bool,
    bitfields_bpp: u16,
    bitfields_masks: [u32; 4],
    rendering_intent: u32,
    endpoints: [i32; 9],
    gamma: [u32; 3],
}

#[repr(C)]
#[derive(Clone, Copy)]
struct RawSettings {
    limit: u64,
    x_pels_per_meter: i32,
    y_pels_per_meter: i32,
}

#[repr(C)]
#[derive(Clone, Copy)]
struct RawSource {
    format: u32,
    width: u32,
    height: u32,
    has_palette: bool,
    has_icc: bool,
    has_linked_icc: bool,
    stride: u64,
}

#[repr(C)]
struct RawAnswer {
    bytes: u64,
    refusal: u32,
    format: u32,
}

#[repr(C)]
struct RawReading {
    profile_at: u64,
    profile_bytes: u64,
    refusal: u32,
    width: u32,
    height: u32,
    depth: u32,
}

#[repr(C)]
struct RawReadingSizes {
    head_bytes: u64,
    table_bytes: u64,
    cell_numbers: u64,
    refusal: u32,
    width: u32,
    height: u32,
    depth: u32,
}

#[rustfmt::skip]
unsafe extern "C" {
    fn bmp_encode_into_with(
        source: RawSource, options: RawOptions, settings: RawSettings, plane: *const u8, plane_len: usize, palette: *const u8,
        palette_len: usize, icc: *const u8, icc_len: usize, linked_icc: *const u8, linked_icc_len: usize, out: *mut u8,
        out_len: usize, offset: usize,
    ) -> RawAnswer;
    fn bmp_encoded_size_bound_with(
        source: RawSource, options: RawOptions, settings: RawSettings, plane: *const u8, plane_len: usize, palette: *const u8,
        palette_len: usize, icc: *const u8, icc_len: usize, linked_icc: *const u8, linked_icc_len: usize,
    ) -> RawAnswer;
    fn bmp_encode_with_starts(
        source: RawSource, options: RawOptions, settings: RawSettings, plane: *const u8, plane_len: usize, palette: *const u8,
        palette_len: usize, icc: *const u8, icc_len: usize, linked_icc: *const u8, linked_icc_len: usize, out: *mut u8,
        out_len: usize, offset: usize, starts: *mut u64, starts_len: usize,
    ) -> RawAnswer;
    fn bmp_check_masks(bpp: u16, red: u32, green: u32, blue: u32, alpha: u32) -> u32;
    fn bmp_read(
        file: *const u8, file_len: usize, head: *mut u8, head_len: usize, table: *mut u8, table_len: usize,
        cells: *mut u32, cells_len: usize,
    ) -> RawReading;
    fn bmp_read_sizes(file: *const u8, file_len: usize) -> RawReadingSizes;
    fn bmp_read_row(file: *const u8, file_len: usize, start: u64, cells: *mut u32, cells_len: usize) -> u32;
    fn bmp_shade_quotes(
        edges: *const f64, edges_len: usize, lows: *const f64, lows_len: usize, highs: *const f64, highs_len: usize,
        plane: *mut u8, plane_len: usize,
    ) -> u32;
}

fn raw_source(src: &EncodeSource<'_>, options: &EncodeOptions) -> RawSource {
    RawSource {
        format: src.format as u32,
        width: src.width,
        height: src.height,
        has_palette: src.palette.is_some(),
        has_icc: src.icc.is_some(),
        has_linked_icc: options.linked_icc.is_some(),
        stride: src.stride as u64,
    }
}

fn raw_options(options: &EncodeOptions) -> RawOptions {
    let masks = options.bitfields.unwrap_or(BmpBitfields { bpp: 0, r: 0, g: 0, b: 0, a: 0 });
    let calibrated = options.calibrated_rgb.unwrap_or(CalibratedRgb { endpoints: [0; 9], gamma: [0; 3] });
    RawOptions {
        top_down: options.top_down,
        minimal_palette: options.minimal_palette,
        rle: options.rle,
        embed_icc: options.embed_icc,
        has_bitfields: options.bitfields.is_some(),
        has_calibrated: options.calibrated_rgb.is_some(),
        bitfields_bpp: masks.bpp,
        bitfields_masks: [masks.r, masks.g, masks.b, masks.a],
        rendering_intent: options.rendering_intent,
        endpoints: calibrated.endpoints,
        gamma: calibrated.gamma,
    }
}

fn raw_settings(options: &EncodeOptions) -> RawSettings {
    RawSettings { limit: options.limit, x_pels_per_meter: options.x_pels_per_meter, y_pels_per_meter: options.y_pels_per_meter }
}

fn accepted(refusal: u32) -> Result<()> {
    match refusal {
        0 => Ok(()),
        number => Err(BmpError::refused(number)),
    }
}

/// How many bytes a writing call asks for; no file is longer.
#[rustfmt::skip]
pub fn encoded_size_bound(src: &EncodeSource<'_>, options: &EncodeOptions) -> Result<usize> {
    let (palette, icc) = (src.palette.unwrap_or(&[]), src.icc.unwrap_or(&[]));
    let linked = options.linked_icc.as_deref().unwrap_or(&[]);
    // Each pointer goes with the length of its slice, and the call reads no further.
    let answer = unsafe {
        bmp_encoded_size_bound_with(
            raw_source(src, options), raw_options(options), raw_settings(options), src.plane.as_ptr(), src.plane.len(),
            palette.as_ptr(), palette.len(), icc.as_ptr(), icc.len(), linked.as_ptr(), linked.len(),
        )
    };
    accepted(answer.refusal)?;
    Ok(answer.bytes as usize)
}

/// Appends the file at the offset of a lent buffer; a refused call changes no byte of it.
#[rustfmt::skip]
pub fn encode_into(src: &EncodeSource<'_>, options: &EncodeOptions, out: &mut [u8], offset: usize) -> Result<(usize, EncodedBmpFormat)> {
    let (palette, icc) = (src.palette.unwrap_or(&[]), src.icc.unwrap_or(&[]));
    let linked = options.linked_icc.as_deref().unwrap_or(&[]);
    // The same, and `out` is borrowed alone, so it overlaps no input.
    let answer = unsafe {
        bmp_encode_into_with(
            raw_source(src, options), raw_options(options), raw_settings(options), src.plane.as_ptr(), src.plane.len(),
            palette.as_ptr(), palette.len(), icc.as_ptr(), icc.len(), linked.as_ptr(), linked.len(), out.as_mut_ptr(), out.len(),
            offset,
        )
    };
    accepted(answer.refusal)?;
    Ok((answer.bytes as usize, answer.format.try_into()?))
}

/// The file in a buffer of its own.
pub fn encode(src: &EncodeSource<'_>, options: &EncodeOptions) -> Result<(Vec<u8>, EncodedBmpFormat)> {
    let mut out = vec![0; encoded_size_bound(src, options)?];
    let (bytes, format) = encode_into(src, options, &mut out, 0)?;
    out.truncate(bytes);
    Ok((out, format))
}

/// `encode_into`, which also fills `starts`: entry k is the place in the file, counted from its first byte, of the first byte of
/// stored row k, in a stream the first of its codes. Row 0 is the picture's bottom row, or its top row if it goes from the top.
///
/// 24 where the entries are fewer than the height, tested directly after 15. Entries past the height keep their values, and a
/// refused call changes neither the list nor the buffer.
///
/// ```
/// use bmp_writer::*;
/// let plane = [7, 7, 7, 7, 7, 1, 2, 3, 4, 5];
/// let (format, palette) = (BmpPixelFormat::Pal8, Some(&[][..]));
/// let src = EncodeSource { format, width: 5, height: 2, stride: 5, plane: &plane, palette, icc: None };
/// let (mut out, mut starts) = ([0; 2000], [0; 2]);
/// let (bytes, _) = encode_into_with_starts(&src, &EncodeOptions::new(), &mut out, 0, &mut starts)?;
/// assert_eq!(read_row(&out[..bytes], starts[1])?, [7, 7, 7, 7, 7]);
/// # Ok::<(), BmpError>(())
/// ```
#[rustfmt::skip]
pub fn encode_into_with_starts(
    src: &EncodeSource<'_>, options: &EncodeOptions, out: &mut [u8], offset: usize, starts: &mut [u64],
) -> Result<(usize, EncodedBmpFormat)> {
    let (palette, icc) = (src.palette.unwrap_or(&[]), src.icc.unwrap_or(&[]));
    let linked = options.linked_icc.as_deref().unwrap_or(&[]);
    // The same, and `out` and `starts` are borrowed alone.
    let answer = unsafe {
        bmp_encode_with_starts(
            raw_source(src, options), raw_options(options), raw_settings(options), src.plane.as_ptr(), src.plane.len(),
            palette.as_ptr(), palette.len(), icc.as_ptr(), icc.len(), linked.as_ptr(), linked.len(), out.as_mut_ptr(), out.len(),
            offset, starts.as_mut_ptr(), starts.len(),
        )
    };
    accepted(answer.refusal)?;
    Ok((answer.bytes as usize, answer.format.try_into()?))
}

/// The file in a buffer of its own, and the start of each stored row in a lent list.
#[rustfmt::skip]
pub fn encode_with_starts(
    src: &EncodeSource<'_>, options: &EncodeOptions, starts: &mut [u64],
) -> Result<(Vec<u8>, EncodedBmpFormat)> {
    let mut out = vec![0; encoded_size_bound(src, options)?];
    let (bytes, format) = encode_into_with_starts(src, options, &mut out, 0, starts)?;
    out.truncate(bytes);
    Ok((out, format))
}

/// How much a reading call asks for: 17 or 18 where it is refused with that.
pub fn read_sizes(file: &[u8]) -> Result<ReadingSizes> {
    // The pointer goes with the length of its slice, and the call reads no further.
    let answer = unsafe { bmp_read_sizes(file.as_ptr(), file.len()) };
    accepted(answer.refusal)?;
    Ok(ReadingSizes {
        width: answer.width,
        height: answer.height,
        depth: answer.depth,
        head_bytes: answer.head_bytes as usize,
        table_bytes: answer.table_bytes as usize,
        cell_numbers: answer.cell_numbers,
    })
}

/// The call, on cells that need not be initialised, since nothing that it answers or fills depends on what was there.
///
/// # Safety
/// So many numbers can be written from `cells` on, and nothing else refers to them.
#[rustfmt::skip]
unsafe fn read_raw<'a>(file: &'a [u8], head: &mut [u8], table: &mut [u8], cells: *mut u32, numbers: usize) -> Result<Reading<'a>> {
    // The same, and `head` and `table` are borrowed alone, so nothing overlaps.
    let answer = unsafe {
        bmp_read(file.as_ptr(), file.len(), head.as_mut_ptr(), head.len(), table.as_mut_ptr(), table.len(), cells, numbers)
    };
    accepted(answer.refusal)?;
    let profile = &file[answer.profile_at as usize..][..answer.profile_bytes as usize];
    Ok(Reading { width: answer.width, height: answer.height, depth: answer.depth, profile })
}

/// Reads the file into lent buffers, which `Picture` describes: 17, 18, 15 or 19, in this order, where it is refused. A refused
/// call changes no buffer, and values past those filled stay.
pub fn read_into<'a>(file: &'a [u8], head: &mut [u8], table: &mut [u8], cells: &mut [u32]) -> Result<Reading<'a>> {
    // The cells too are borrowed alone.
    unsafe { read_raw(file, head, table, cells.as_mut_ptr(), cells.len()) }
}

/// The file in buffers of its own: 17, 18 or 19 where it is refused, and `OutOfMemory` where the buffers cannot be had.
pub fn read(file: &[u8]) -> Result<Picture<'_>> {
    let sizes = read_sizes(file)?;
    let mut cells = Vec::new();
    let lent = usize::try_from(sizes.cell_numbers).ok().filter(|numbers| cells.try_reserve_exact(*numbers).is_ok());
    let numbers = lent.ok_or(BmpError { kind: BmpErrorKind::OutOfMemory, number: 15 })?;
    let (mut head, mut table) = (vec![0; sizes.head_bytes], vec![0; sizes.table_bytes]);
    // As many are reserved. They are not filled first, so that a short stream which asks for gigabytes is refused without them.
    let reading = unsafe { read_raw(file, &mut head, &mut table, cells.as_mut_ptr(), numbers)? };
    // An accepted call has filled as many as the sizes say.
    unsafe { cells.set_len(numbers) };
    let Reading { width, height, depth, profile } = reading;
    Ok(Picture { width, height, depth, head, table, cells, profile })
}

/// Reads the one row whose first byte stands at `start` into lent cells, in the numbers of `Picture`: as many as the width up to
/// depth 8, above it four times as many. Of the pixels no byte of another row is looked at, and any start inside the file is read
/// as it stands. 17, 18, 15 or 19, in this order, where it is refused, as for the whole file but for this row alone. A refused call
/// changes no cell, and cells past those filled stay.
pub fn read_row_into(file: &[u8], start: u64, cells: &mut [u32]) -> Result<()> {
    // Each pointer goes with the length of its slice, and `cells` is borrowed alone.
    accepted(unsafe { bmp_read_row(file.as_ptr(), file.len(), start, cells.as_mut_ptr(), cells.len()) })
}

/// The row in cells of its own: 17, 18 or 19 where it is refused, and `OutOfMemory` where the cells cannot be had.
pub fn read_row(file: &[u8], start: u64) -> Result<Vec<u32>> {
    // Without cells the call is refused with 17, 18 or 15; the last says that the head's fields can be relied on.
    match read_row_into(file, start, &mut []) {
        Err(error) if error.number == 15 => {}
        other => return other.map(|()| Vec::new()),
    }
    let field = |at: usize| u32::from_le_bytes([file[at], file[at + 1], file[at + 2], file[at + 3]]) as usize;
    let numbers = if file[28] <= 8 { field(18) } else { 4 * field(18) };
    let mut cells = Vec::new();
    cells.try_reserve_exact(numbers).map_err(|_| BmpError { kind: BmpErrorKind::OutOfMemory, number: 15 })?;
    // As many are reserved; the call reads none of them, and an accepted one has filled them all.
    accepted(unsafe { bmp_read_row(file.as_ptr(), file.len(), start, cells.as_mut_ptr(), numbers) })?;
    unsafe { cells.set_len(numbers) };
    Ok(cells)
}

/// The index of a cell whose ends have different shades.
pub const HATCH: u8 = 255;

/// Paints a `Pal8` plane from prices, an index a cell. A price's shade is the count of edges at or below it. The ends of cell k
/// are `lows[k]` and `highs[k]`: it gets their shade if both have the same, else `HATCH`. -0 and 0 are one price; the infinities
/// are prices, also as edges.
///
/// 15 where the highs or the plane are shorter than the lows, 22 where the edges are no scale, 23 where a cell is no quote, in
/// this order; a refused call changes no byte. Bytes past the count of lows never change, and highs past it are not looked at.
///
/// ```
/// let mut plane = [0; 3];
/// bmp_writer::shade_quotes(&[100.0, 101.0], &[99.0, 100.5, 100.5], &[99.5, 100.75, 101.0], &mut plane)?;
/// assert_eq!(plane, [0, 1, bmp_writer::HATCH]);
/// # Ok::<(), bmp_writer::BmpError>(())
/// ```
#[rustfmt::skip]
pub fn shade_quotes(edges: &[f64], lows: &[f64], highs: &[f64], plane: &mut [u8]) -> Result<()> {
    // Each pointer goes with the length of its slice, and `plane` is borrowed alone.
    accepted(unsafe {
        bmp_shade_quotes(
            edges.as_ptr(), edges.len(), lows.as_ptr(), lows.len(), highs.as_ptr(), highs.len(), plane.as_mut_ptr(), plane.len(),
        )
    })
}

#[cfg(test)]
mod layout {
    use super::*;
    use std::mem::{offset_of, size_of};

    /// A struct's assertions, as the C header writes them.
    macro_rules! places {
        ($name:literal, $raw:ty: $($field:ident),+) => {
            vec![$(format!("BMP_PLACE({}, {}, {});", $name, stringify!($field), offset_of!($raw, $field)),)+
                format!("BMP_BYTES({}, {});", $name, size_of::<$raw>())]
        };
    }

    /// Every field and size here is where the C header asserts it, and the header asserts no other.
    #[test]
    fn the_structs_are_the_headers() {
        let mut here = places!("bmp_options", RawOptions: top_down, minimal_palette, rle, embed_icc, has_bitfields, has_calibrated,
            bitfields_bpp, bitfields_masks, rendering_intent, endpoints, gamma);
        here.extend(places!("bmp_settings", RawSettings: limit, x_pels_per_meter, y_pels_per_meter));
        here.extend(places!("bmp_source", RawSource: format, width, height, has_palette, has_icc, has_linked_icc, stride));
        here.extend(places!("bmp_answer", RawAnswer: bytes, refusal, format));
        here.extend(places!("bmp_reading", RawReading: profile_at, profile_bytes, refusal, width, height, depth));
        here.extend(places!("bmp_reading_sizes", RawReadingSizes: head_bytes, table_bytes, cell_numbers, refusal, width, height,
            depth));
        let header = include_str!("../../c/bmp_writer.h");
        let there: Vec<&str> = header.lines().filter(|l| l.starts_with("BMP_PLACE(") || l.starts_with("BMP_BYTES(")).collect();
        assert_eq!((here.len(), here), (43, there.into_iter().map(String::from).collect()));
    }
}
