//! One case: the arguments of a call in the port's terms, and what they mean.

use crate::port::{Lent, Options, Settings, Source};
use crate::rule;

pub const FORMATS: [&str; 10] =
    ["Rgba", "Rgb24", "Bgra", "Bgr24", "Rgb555", "Rgb565", "Pal8", "Indexed4", "Indexed2", "Indexed1"];
pub const SOURCE_BYTES: [u64; 10] = [4, 3, 4, 3, 2, 2, 1, 1, 1, 1];
pub const DEPTHS: [u64; 10] = [32, 24, 32, 24, 16, 16, 8, 4, 2, 1];
pub const PAL8: u32 = 6;
pub const INDEXED4: u32 = 7;

/// What the flags ask for.
#[derive(Clone, Copy, Debug, PartialEq, Eq)]
pub enum Mode {
    None,
    Masks,
    Calibrated,
    Embedded,
    /// An embedded profile is given and embedding is off: no mode.
    EmbeddedOff,
    Linked,
    Both,
    /// Both profiles are given and embedding is off: linked.
    BothOff,
    Several,
}

pub const MODES: [Mode; 9] = [
    Mode::None,
    Mode::Masks,
    Mode::Calibrated,
    Mode::Embedded,
    Mode::EmbeddedOff,
    Mode::Linked,
    Mode::Both,
    Mode::BothOff,
    Mode::Several,
];

impl Mode {
    /// The plain header: no masks, no calibrated colour, no profile.
    pub fn is_plain(self) -> bool {
        matches!(self, Mode::None | Mode::EmbeddedOff)
    }
}

#[derive(Clone)]
pub enum Plane {
    Bytes(Vec<u8>),
    /// That many bytes of the sparse memory.
    Zeros(usize),
}

#[derive(Clone)]
pub struct Case {
    pub source: Source,
    pub options: Options,
    pub settings: Settings,
    pub plane: Plane,
    /// Absent slices may hold stray bytes; the flags in `source` say which count.
    pub palette: Vec<u8>,
    pub icc: Vec<u8>,
    pub linked_icc: Vec<u8>,
    /// Where the file goes, how many bytes the buffer has beyond the bound, and what it is filled with.
    pub offset: usize,
    pub slack: usize,
    pub salt: u8,
}

impl Case {
    pub fn format(&self) -> usize {
        self.source.format as usize
    }

    pub fn is_indexed(&self) -> bool {
        self.source.format >= PAL8
    }

    pub fn row_bytes(&self) -> u64 {
        u64::from(self.source.width) * SOURCE_BYTES[self.format()]
    }

    pub fn plane_len(&self) -> usize {
        match &self.plane {
            Plane::Bytes(bytes) => bytes.len(),
            Plane::Zeros(len) => *len,
        }
    }

    pub fn is_large(&self) -> bool {
        matches!(self.plane, Plane::Zeros(_))
    }

    pub fn plane<'a>(&'a self, zeros: &'a [u8]) -> &'a [u8] {
        match &self.plane {
            Plane::Bytes(bytes) => bytes,
            Plane::Zeros(len) => &zeros[..*len],
        }
    }

    pub fn lent<'a>(&'a self, zeros: &'a [u8]) -> Lent<'a> {
        Lent { plane: self.plane(zeros), palette: &self.palette, icc: &self.icc, linked_icc: &self.linked_icc }
    }

    pub fn mode(&self) -> Mode {
        let (source, options) = (&self.source, &self.options);
        let embedded = source.has_icc && options.embed_icc;
        let profile = embedded || source.has_linked_icc;
        let asked = [options.has_bitfields, options.has_calibrated, profile];
        if asked.iter().filter(|x| **x).count() > 1 {
            return Mode::Several;
        }
        match (options.has_bitfields, options.has_calibrated, source.has_linked_icc, source.has_icc, embedded) {
            (true, ..) => Mode::Masks,
            (_, true, ..) => Mode::Calibrated,
            (_, _, true, true, true) => Mode::Both,
            (_, _, true, true, false) => Mode::BothOff,
            (_, _, true, false, _) => Mode::Linked,
            (_, _, false, _, true) => Mode::Embedded,
            (_, _, false, true, false) => Mode::EmbeddedOff,
            (_, _, false, false, false) => Mode::None,
        }
    }

    /// Inside the domain of the comparison: 2, 20, 21, 4 and 15 don't apply and stride x height is below 2^64.
    pub fn in_domain(&self) -> bool {
        let s = &self.source;
        let quads = !self.is_indexed() || !s.has_palette || self.palette.len() % 4 == 0;
        let settings = rule::limit_refused(&self.settings) || rule::resolution_refused(&self.settings);
        !settings && !rule::dimension_refused(s) && quads && s.stride.checked_mul(u64::from(s.height)).is_some()
    }

    /// The settings are those of the functions without any.
    pub fn has_default_settings(&self) -> bool {
        self.settings == Settings::default()
    }

    /// Everything, to be read by a person.
    pub fn describe(&self) -> String {
        let plane = match &self.plane {
            Plane::Bytes(bytes) => hex(bytes),
            Plane::Zeros(len) => format!("{len} zeros"),
        };
        format!(
            "{} mode {:?}\n  {:?}\n  {:?}\n  {:?}\n  plane {}\n  palette {}\n  icc {}\n  linked {}\n  offset {} slack {} salt {}",
            FORMATS[self.format()],
            self.mode(),
            self.source,
            self.options,
            self.settings,
            plane,
            hex(&self.palette),
            hex(&self.icc),
            hex(&self.linked_icc),
            self.offset,
            self.slack,
            self.salt
        )
    }
}

fn hex(bytes: &[u8]) -> String {
    let digits: String = bytes.iter().map(|b| format!("{b:02x}")).collect();
    format!("[{} bytes] {digits}", bytes.len())
}
