//! The port, through its C interface (clients/c/bmp_writer.h).

#[repr(C)]
#[derive(Clone, Copy, Debug, Default)]
pub struct Options {
    pub top_down: bool,
    pub minimal_palette: bool,
    pub rle: bool,
    pub embed_icc: bool,
    pub has_bitfields: bool,
    pub has_calibrated: bool,
    pub bitfields_bpp: u16,
    pub bitfields_masks: [u32; 4],
    pub rendering_intent: u32,
    pub endpoints: [i32; 9],
    pub gamma: [u32; 3],
}

#[repr(C)]
#[derive(Clone, Copy, Debug, PartialEq, Eq)]
pub struct Settings {
    pub limit: u64,
    pub x_pels_per_meter: i32,
    pub y_pels_per_meter: i32,
}

/// What the functions without settings have.
impl Default for Settings {
    fn default() -> Self {
        Self { limit: 4_294_967_295, x_pels_per_meter: 2835, y_pels_per_meter: 2835 }
    }
}

#[repr(C)]
#[derive(Clone, Copy, Debug, Default)]
pub struct Source {
    pub format: u32,
    pub width: u32,
    pub height: u32,
    pub has_palette: bool,
    pub has_icc: bool,
    pub has_linked_icc: bool,
    pub stride: u64,
}

#[repr(C)]
#[derive(Clone, Copy, Debug, PartialEq, Eq)]
pub struct Answer {
    pub bytes: u64,
    pub refusal: u32,
    pub format: u32,
}

const _: () = assert!(size_of::<Options>() == 76 && size_of::<Source>() == 24 && size_of::<Answer>() == 16);
const _: () = assert!(size_of::<Settings>() == 16);

/// The lent slices.
#[derive(Clone, Copy)]
pub struct Lent<'a> {
    pub plane: &'a [u8],
    pub palette: &'a [u8],
    pub icc: &'a [u8],
    pub linked_icc: &'a [u8],
}

unsafe extern "C" {
    fn bmp_encode_into(
        source: Source,
        options: Options,
        plane: *const u8,
        plane_len: usize,
        palette: *const u8,
        palette_len: usize,
        icc: *const u8,
        icc_len: usize,
        linked_icc: *const u8,
        linked_icc_len: usize,
        out: *mut u8,
        out_len: usize,
        offset: usize,
    ) -> Answer;
    fn bmp_encoded_size_bound(
        source: Source,
        options: Options,
        plane: *const u8,
        plane_len: usize,
        palette: *const u8,
        palette_len: usize,
        icc: *const u8,
        icc_len: usize,
        linked_icc: *const u8,
        linked_icc_len: usize,
    ) -> Answer;
    fn bmp_encode_into_with(
        source: Source,
        options: Options,
        settings: Settings,
        plane: *const u8,
        plane_len: usize,
        palette: *const u8,
        palette_len: usize,
        icc: *const u8,
        icc_len: usize,
        linked_icc: *const u8,
        linked_icc_len: usize,
        out: *mut u8,
        out_len: usize,
        offset: usize,
    ) -> Answer;
    fn bmp_encoded_size_bound_with(
        source: Source,
        options: Options,
        settings: Settings,
        plane: *const u8,
        plane_len: usize,
        palette: *const u8,
        palette_len: usize,
        icc: *const u8,
        icc_len: usize,
        linked_icc: *const u8,
        linked_icc_len: usize,
    ) -> Answer;
    fn bmp_encode_with_starts(
        source: Source,
        options: Options,
        settings: Settings,
        plane: *const u8,
        plane_len: usize,
        palette: *const u8,
        palette_len: usize,
        icc: *const u8,
        icc_len: usize,
        linked_icc: *const u8,
        linked_icc_len: usize,
        out: *mut u8,
        out_len: usize,
        offset: usize,
        starts: *mut u64,
        starts_len: usize,
    ) -> Answer;
    fn bmp_check_masks(bpp: u16, red: u32, green: u32, blue: u32, alpha: u32) -> u32;
    fn bmp_read_row(file: *const u8, file_len: usize, start: u64, cells: *mut u32, cells_len: usize) -> u32;
}

/// NULL for an empty slice: the interface allows it.
fn start(bytes: &[u8]) -> *const u8 {
    if bytes.is_empty() { std::ptr::null() } else { bytes.as_ptr() }
}

fn start_mut<T>(values: &mut [T]) -> *mut T {
    if values.is_empty() { std::ptr::null_mut() } else { values.as_mut_ptr() }
}

pub fn encode_into(source: Source, options: Options, lent: Lent<'_>, out: &mut [u8], offset: usize) -> Answer {
    let Lent { plane, palette, icc, linked_icc } = lent;
    unsafe {
        bmp_encode_into(
            source,
            options,
            start(plane),
            plane.len(),
            start(palette),
            palette.len(),
            start(icc),
            icc.len(),
            start(linked_icc),
            linked_icc.len(),
            start_mut(out),
            out.len(),
            offset,
        )
    }
}

pub fn encode_into_with(
    source: Source,
    options: Options,
    settings: Settings,
    lent: Lent<'_>,
    out: &mut [u8],
    offset: usize,
) -> Answer {
    let Lent { plane, palette, icc, linked_icc } = lent;
    unsafe {
        bmp_encode_into_with(
            source,
            options,
            settings,
            start(plane),
            plane.len(),
            start(palette),
            palette.len(),
            start(icc),
            icc.len(),
            start(linked_icc),
            linked_icc.len(),
            start_mut(out),
            out.len(),
            offset,
        )
    }
}

pub fn encode_with_starts(
    source: Source,
    options: Options,
    settings: Settings,
    lent: Lent<'_>,
    out: &mut [u8],
    offset: usize,
    starts: &mut [u64],
) -> Answer {
    let Lent { plane, palette, icc, linked_icc } = lent;
    unsafe {
        bmp_encode_with_starts(
            source,
            options,
            settings,
            start(plane),
            plane.len(),
            start(palette),
            palette.len(),
            start(icc),
            icc.len(),
            start(linked_icc),
            linked_icc.len(),
            start_mut(out),
            out.len(),
            offset,
            start_mut(starts),
            starts.len(),
        )
    }
}

/// 0, or the number.
pub fn read_row(file: &[u8], at: u64, cells: &mut [u32]) -> u32 {
    unsafe { bmp_read_row(start(file), file.len(), at, start_mut(cells), cells.len()) }
}

pub fn size_bound(source: Source, options: Options, lent: Lent<'_>) -> Answer {
    let Lent { plane, palette, icc, linked_icc } = lent;
    unsafe {
        bmp_encoded_size_bound(
            source,
            options,
            start(plane),
            plane.len(),
            start(palette),
            palette.len(),
            start(icc),
            icc.len(),
            start(linked_icc),
            linked_icc.len(),
        )
    }
}

pub fn size_bound_with(source: Source, options: Options, settings: Settings, lent: Lent<'_>) -> Answer {
    let Lent { plane, palette, icc, linked_icc } = lent;
    unsafe {
        bmp_encoded_size_bound_with(
            source,
            options,
            settings,
            start(plane),
            plane.len(),
            start(palette),
            palette.len(),
            start(icc),
            icc.len(),
            start(linked_icc),
            linked_icc.len(),
        )
    }
}

pub fn check_masks(bpp: u16, masks: [u32; 4]) -> u32 {
    unsafe { bmp_check_masks(bpp, masks[0], masks[1], masks[2], masks[3]) }
}
