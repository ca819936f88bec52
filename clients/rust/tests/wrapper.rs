//! Tests of the Rust wrapper: cd clients/rust && cargo test --offline
use bmp_writer::*;
use std::error::Error;

const HEADER: &str = include_str!("../../c/bmp_writer.h");

const M12: [u8; 62] = [
    0x42, 0x4D, 0x3E, 0, 0, 0, 0, 0, 0, 0, 0x3A, 0, 0, 0, 0x28, 0, 0, 0, 5, 0, 0, 0, 1, 0, 0, 0, 1, 0, 8, 0, 1, 0, 0, 0, 4, 0, 0, 0, 0x13,
    0x0B, 0, 0, 0x13, 0x0B, 0, 0, 1, 0, 0, 0, 0, 0, 0, 0, 0, 0, 0, 0, 5, 7, 0, 1,
];

fn picture(format: BmpPixelFormat, width: u32, stride: usize, plane: &[u8]) -> EncodeSource<'_> {
    EncodeSource { format, width, height: 1, stride, plane, palette: None, icc: None }
}

fn sevens<'a>(plane: &'a [u8], palette: &'a [u8]) -> EncodeSource<'a> {
    EncodeSource { palette: Some(palette), ..picture(BmpPixelFormat::Pal8, plane.len() as u32, plane.len(), plane) }
}

#[test]
fn the_specifications_file() {
    let options = EncodeOptions::new().with_minimal_palette(true);
    let src = sevens(&[7; 5], &[]);
    assert_eq!(encoded_size_bound(&src, &options), Ok(78));
    assert_eq!(encode(&src, &options), Ok((M12.to_vec(), EncodedBmpFormat::Rle8)));
    let tie = encode(&sevens(&[7; 4], &[]), &options).unwrap();
    assert_eq!((tie.0.len(), tie.1), (62, EncodedBmpFormat::Indexed8));
}

#[test]
fn other_bytes_stay() {
    let options = EncodeOptions::new().with_minimal_palette(true);
    let mut out = [0xAA; 100];
    assert_eq!(encode_into(&sevens(&[7; 5], &[]), &options, &mut out, 22), Ok((62, EncodedBmpFormat::Rle8)));
    assert_eq!((&out[22..84], out[..22].iter().all(|b| *b == 0xAA), out[84..].iter().all(|b| *b == 0xAA)), (&M12[..], true, true));
    let mut short = [0xAA; 99];
    let refused = encode_into(&sevens(&[7; 5], &[]), &options, &mut short, 22).unwrap_err();
    assert_eq!((refused.number, short.iter().all(|b| *b == 0xAA)), (15, true));
}

#[test]
fn refusals() {
    let number = |src: EncodeSource, options: &EncodeOptions| encode(&src, options).unwrap_err().number;
    let default = EncodeOptions::new();
    assert_eq!(number(picture(BmpPixelFormat::Rgba, 0, 0, &[]), &default), 1);
    assert_eq!(number(picture(BmpPixelFormat::Pal8, 1, 1, &[0]), &default), 3);
    assert_eq!(number(sevens(&[0], &[1, 2, 3]), &default), 4);
    assert_eq!(number(picture(BmpPixelFormat::Rgba, 1, 4, &[0; 3]), &default), 12);
    assert_eq!(number(picture(BmpPixelFormat::Rgba, 1, 3, &[0; 3]), &default), 13);
    let masks = BmpBitfields { bpp: 16, r: 0xF800, g: 0x7E0, b: 0x1F, a: 0 };
    let several = default.clone().with_bitfields(masks).with_linked_icc(vec![1]);
    assert_eq!(number(picture(BmpPixelFormat::Rgba, 1, 4, &[0; 4]), &several), 5);
    assert_eq!(masks.validate(), Ok(()));
    assert_eq!(BmpBitfields { r: 0xA00, ..masks }.validate().unwrap_err().to_string(), "8: a mask's ones are not one run");
    let refused = |r, g, b| BmpBitfields { bpp: 16, r, g, b, a: 0 }.validate().unwrap_err().number;
    assert_eq!((refused(0xA00, 0x50000, 0), refused(0x50000, 0xA00, 0)), (8, 7));
    assert_eq!((refused(0, 0xA00, 0x50000), refused(0, 0x50000, 0xA00)), (8, 7));
}

/// The header's texts, in its order, are the texts here.
#[test]
fn the_texts_are_the_headers() {
    let there: Vec<&str> = HEADER.split("return \"").skip(1).map(|rest| rest.split('"').next().unwrap()).collect();
    let here: Vec<&str> = (0..=24).chain([255, 25]).map(|number| BmpError::refused(number).text()).collect();
    assert_eq!(here, there);
}

#[test]
fn unknown_numbers_print_as_such() {
    assert_eq!(BmpError::refused(25).to_string(), "25: unknown refusal number");
    assert_eq!(BmpError::refused(u32::MAX).to_string(), "4294967295: unknown refusal number");
    assert_eq!(BmpError::refused(255).to_string(), "255: the format's number is none of those listed");
    assert_eq!(EncodedBmpFormat::try_from(11), Ok(EncodedBmpFormat::AlphaBitfields));
    for number in [12, 255, u32::MAX] {
        let error = EncodedBmpFormat::try_from(number).unwrap_err();
        assert_eq!((error.kind, error.number), (BmpErrorKind::UnknownFormat, number));
        assert_eq!(error.to_string(), format!("{number}: unknown number of a written format"));
    }
}

/// `?` carries the error out of a function that returns any error, and both ways of printing it say the cause.
#[test]
fn the_error_is_an_error() {
    fn run() -> std::result::Result<usize, Box<dyn Error>> {
        Ok(encode(&picture(BmpPixelFormat::Indexed4, 1, 1, &[0]), &EncodeOptions::new())?.0.len())
    }
    let error = run().unwrap_err();
    assert_eq!(error.downcast_ref(), Some(&BmpError::refused(3)));
    assert_eq!(error.to_string(), "3: an indexed format needs a palette");
    assert_eq!(format!("{error:?}"), "BmpError(3: an indexed format needs a palette)");
}

fn read_number(file: &[u8]) -> u32 {
    let error = read(file).unwrap_err();
    assert_eq!(error.kind, BmpErrorKind::Refused);
    error.number
}

/// Writes the picture and reads it back. The head and the table stand in front of the file, the size is the picture's, and
/// every byte is needed but for the end of a stream.
fn round(src: &EncodeSource, options: &EncodeOptions, written: EncodedBmpFormat) -> (u32, Vec<u8>, Vec<u32>, Vec<u8>) {
    let (file, format) = encode(src, options).unwrap();
    let picture = read(&file).unwrap();
    let heads = picture.head.len();
    assert_eq!((format, picture.width, picture.height), (written, src.width, src.height));
    assert_eq!((&picture.head[..], &picture.table[..]), (&file[..heads], &file[heads..heads + picture.table.len()]));
    let sizes = read_sizes(&file).unwrap();
    assert_eq!((sizes.width, sizes.height, sizes.depth), (picture.width, picture.height, picture.depth));
    assert_eq!((sizes.head_bytes, sizes.table_bytes, sizes.cell_numbers), (heads, picture.table.len(), picture.cells.len() as u64));
    let coded = matches!(format, EncodedBmpFormat::Rle8 | EncodedBmpFormat::Rle4);
    assert!((0..file.len() - if coded { 3 } else { 0 }).all(|len| read(&file[..len]).is_err()));
    (picture.depth, picture.table, picture.cells, picture.profile.to_vec())
}

/// Every indexed format, plain and as a stream, from the bottom and from the top. Indices come back cut to the depth.
#[test]
fn indices_read_back() {
    // Each row has a long run, one other cell, a short run, and then cells that differ, which a stream stores as they are.
    let index = |x: u32, y: u32| if x < 25 { 29 * y + x / 20 + x / 21 } else { 7 * x + y };
    let plane: Vec<u8> = (0..33 * 7).map(|k| index(k % 33, k / 33) as u8).collect();
    let palette: Vec<u8> = (0..1024u32).map(|k| (k % 251) as u8).collect();
    for (format, depth, plain, stream) in [
        (BmpPixelFormat::Pal8, 8, EncodedBmpFormat::Indexed8, EncodedBmpFormat::Rle8),
        (BmpPixelFormat::Indexed4, 4, EncodedBmpFormat::Indexed4, EncodedBmpFormat::Rle4),
        (BmpPixelFormat::Indexed2, 2, EncodedBmpFormat::Indexed2, EncodedBmpFormat::Indexed2),
        (BmpPixelFormat::Indexed1, 1, EncodedBmpFormat::Indexed1, EncodedBmpFormat::Indexed1),
    ] {
        let src = EncodeSource { height: 7, palette: Some(&palette), ..picture(format, 33, 33, &plane) };
        let cells: Vec<u32> = plane.iter().map(|index| u32::from(*index) % (1 << depth)).collect();
        let table: Vec<u8> = palette.chunks(4).take(1 << depth).flat_map(|e| [e[2], e[1], e[0], 0]).collect();
        let default = EncodeOptions::new();
        for (options, written) in [
            (default.clone(), stream),
            (default.clone().with_rle(false), plain),
            (default.clone().with_top_down(true), plain),
            (default.clone().with_calibrated_rgb(CalibratedRgb { endpoints: [1; 9], gamma: [2; 3] }), plain),
        ] {
            assert_eq!(round(&src, &options, written), (depth, table.clone(), cells.clone(), vec![]));
        }
        let short = EncodeSource { palette: Some(&palette[..8]), ..src };
        assert_eq!(round(&short, &default.with_minimal_palette(true), stream).1, table[..8]);
    }
}

/// Colours in every layout. There is no alpha, though the file of 32 bits stores one.
#[test]
fn colours_read_back() {
    let plane: Vec<u8> = (0..48).map(|k| k * 5).collect();
    let words: Vec<u32> = plane.chunks(2).map(|w| u32::from(w[0]) + 256 * u32::from(w[1])).collect();
    let samples = |pixel, red: usize| plane.chunks(pixel).flat_map(|p| [p[red], p[1], p[2 - red], 0].map(u32::from)).collect();
    let fields = |red: u32| words.iter().flat_map(|word| [word / red % 32, word % red / 32, word % 32, 0]).collect();
    let formats: [(BmpPixelFormat, usize, u32, EncodedBmpFormat, Vec<u32>); 6] = [
        (BmpPixelFormat::Rgba, 4, 32, EncodedBmpFormat::Rgb32, samples(4, 0)),
        (BmpPixelFormat::Bgra, 4, 32, EncodedBmpFormat::Rgb32, samples(4, 2)),
        (BmpPixelFormat::Rgb24, 3, 24, EncodedBmpFormat::Rgb24, samples(3, 0)),
        (BmpPixelFormat::Bgr24, 3, 24, EncodedBmpFormat::Rgb24, samples(3, 2)),
        (BmpPixelFormat::Rgb555, 2, 16, EncodedBmpFormat::Rgb16Rgb, fields(1024)),
        (BmpPixelFormat::Rgb565, 2, 16, EncodedBmpFormat::Rgb16Bitfields, fields(2048)),
    ];
    for (format, pixel, depth, written, cells) in formats {
        let src = EncodeSource { height: 2, ..picture(format, 24 / pixel as u32, 24, &plane) };
        for top_down in [false, true] {
            let options = EncodeOptions::new().with_top_down(top_down);
            assert_eq!(round(&src, &options, written), (depth, vec![], cells.clone(), vec![]));
        }
    }
}

/// Each channel comes back as wide as its mask; one without a mask is 0.
#[test]
fn masks_read_back() {
    let src = picture(BmpPixelFormat::Rgba, 2, 8, &[0x12, 0x34, 0x56, 0x78, 0x9A, 0xBC, 0xDE, 0xFF]);
    for (bpp, masks, written, cells) in [
        (16, [0xF000, 0xF00, 0xF0, 0xF], EncodedBmpFormat::AlphaBitfields, [1, 3, 5, 7, 9, 0xB, 0xD, 0xF]),
        (16, [0xF000, 0xF00, 0, 0xF], EncodedBmpFormat::AlphaBitfields, [1, 3, 0, 7, 9, 0xB, 0, 0xF]),
        (16, [0xF, 0xF0, 0xF00, 0], EncodedBmpFormat::Bitfields, [1, 3, 5, 0, 9, 0xB, 0xD, 0]),
        (32, [0xFF, 0xFF00, 0xFF0000, 0xFF000000], EncodedBmpFormat::AlphaBitfields, [0x12, 0x34, 0x56, 0x78, 0x9A, 0xBC, 0xDE, 0xFF]),
        (32, [0xFF00, 0, 0xFFFF0000, 0], EncodedBmpFormat::Bitfields, [0x12, 0, 0x5656, 0, 0x9A, 0, 0xDEDE, 0]),
    ] {
        let [r, g, b, a] = masks;
        let options = EncodeOptions::new().with_bitfields(BmpBitfields { bpp, r, g, b, a });
        assert_eq!(round(&src, &options, written), (bpp.into(), vec![], cells.to_vec(), vec![]));
    }
}

/// What the writer always writes the same comes back as it is filed: a head's last field, a table's fourth byte, and halves of
/// RLE4 that differ.
#[test]
fn other_fields_read_back() {
    let mut file = M12;
    (file[28], file[30], file[59]) = (4, 2, 0x1E);
    file[50..58].fill(0x5A);
    let picture = read(&file).unwrap();
    assert_eq!((picture.head, picture.table, picture.cells), (file[..54].to_vec(), vec![0x5A; 4], vec![1, 14, 1, 14, 1]));
}

/// The profile is a part of the file that was given, and an empty one is an empty part.
#[test]
fn profiles_read_back() {
    let plain = picture(BmpPixelFormat::Rgb24, 1, 3, &[1, 2, 3]);
    let src = EncodeSource { icc: Some(b"profile"), ..plain };
    let default = EncodeOptions::new();
    let (file, _) = encode(&src, &default).unwrap();
    let picture = read(&file).unwrap();
    assert_eq!((picture.profile, picture.profile.as_ptr_range()), (&b"profile"[..], file[142..149].as_ptr_range()));
    assert_eq!(round(&src, &default.clone().with_linked_icc(b"name".to_vec()), EncodedBmpFormat::Rgb24).3, b"name");
    assert_eq!(round(&src, &default.clone().with_embed_icc(false), EncodedBmpFormat::Rgb24).3, b"");
    assert_eq!(round(&EncodeSource { icc: Some(b""), ..plain }, &default, EncodedBmpFormat::Rgb24).3, b"");
}

/// The three numbers that a file can be refused with, and their order.
#[test]
fn files_that_are_refused() {
    let changed = |at: usize, bytes: &[u8]| {
        let mut file = M12;
        file[at..at + bytes.len()].copy_from_slice(bytes);
        file
    };
    for (at, bytes) in [(1, &[0x4E][..]), (14, &[41]), (18, &[0]), (22, &[0]), (22, &[0xFF; 4]), (28, &[3]), (30, &[2]), (47, &[2])] {
        assert_eq!((read_number(&changed(at, bytes)), read_sizes(&changed(at, bytes))), (17, Err(BmpError::refused(17))));
    }
    assert_eq!((read_number(b"BN"), read_number(b"BM"), read_number(b"")), (17, 18, 18));
    let faults: [&[u8]; 6] = [&[6, 7, 0, 1], &[4, 7, 0, 1], &[0, 0, 5, 7], &[0, 2, 0, 0, 5, 7], &[0, 2, 7, 7, 3, 7], &[0, 5, 7, 7]];
    for codes in faults {
        let file = [&M12[..58], codes].concat();
        assert_eq!((read_number(&file), read_sizes(&file)), (19, read_sizes(&M12)));
    }
    for len in 0..M12.len() {
        let number = if len < 58 { 18 } else { 19 };
        assert_eq!(read(&M12[..len]).map_or_else(|error| error.number, |picture| picture.depth), if len < 60 { number } else { 8 });
    }
    assert_eq!(read(&[]).unwrap_err().to_string(), "18: a byte of header, masks, table, rows or profile lies outside the file");
}

/// A refused call leaves the buffers as they were, and an accepted one what is past the filled values.
#[test]
fn lent_buffers() {
    type Lent = ([u8; 56], [u8; 6], [u32; 7]);
    const BEFORE: Lent = ([0xAA; 56], [0xAA; 6], [0xAAAA_AAAA; 7]);
    fn run(file: &[u8], [heads, entries, numbers]: [usize; 3]) -> (Result<Reading<'_>>, Lent) {
        let (mut head, mut table, mut cells) = BEFORE;
        let answer = read_into(file, &mut head[1..][..heads], &mut table[1..][..entries], &mut cells[1..][..numbers]);
        (answer, (head, table, cells))
    }
    for (number, file, lens) in [
        (15, &M12[..], [53, 4, 5]),
        (15, &M12, [54, 3, 5]),
        (15, &M12, [54, 4, 4]),
        (15, &M12, [0, 0, 0]),
        (15, &M12[..59], [54, 4, 4]),
        (17, b"BN", [0, 0, 0]),
        (18, &M12[..57], [54, 4, 4]),
        (19, &M12[..59], [54, 4, 5]),
        (19, &[&M12[..58], &[4, 7, 0, 1]].concat(), [54, 4, 5]),
    ] {
        assert_eq!(run(file, lens), (Err(BmpError::refused(number)), BEFORE));
    }
    for lens in [[54, 4, 5], [55, 5, 6]] {
        let (answer, (head, table, cells)) = run(&M12, lens);
        assert_eq!(answer, Ok(Reading { width: 5, height: 1, depth: 8, profile: &[] }));
        assert_eq!((head[0], &head[1..55], head[55]), (0xAA, &M12[..54], 0xAA));
        assert_eq!(table, [0xAA, 0, 0, 0, 0, 0xAA]);
        assert_eq!(cells, [0xAAAA_AAAA, 7, 7, 7, 7, 7, 0xAAAA_AAAA]);
    }
}

/// A head of a few bytes may ask for any count of cells. None are had for the largest; others are had or not, and never filled.
#[test]
fn huge_heads() {
    let asked = |width: i32, height: i32| {
        let mut file = M12;
        file[18..22].copy_from_slice(&width.to_le_bytes());
        file[22..26].copy_from_slice(&height.to_le_bytes());
        (read_sizes(&file).unwrap().cell_numbers, read(&file).unwrap_err())
    };
    let (numbers, error) = asked(i32::MAX, i32::MAX);
    assert_eq!((numbers, error.kind, error.number), ((1 << 62) - (1 << 32) + 1, BmpErrorKind::OutOfMemory, 15));
    assert_eq!(error.to_string(), "15: there is no memory for the cells");
    for bits in 10..30 {
        let (numbers, error) = asked(1 << bits, 1 << 10);
        assert_eq!(numbers, 1 << (bits + 10));
        let missing = BmpError { kind: BmpErrorKind::OutOfMemory, number: 15 };
        assert!(error == BmpError::refused(19) || error == missing, "{error}");
    }
}

/// A wall panel's surface of 512 x 512 cells, in runs of eight or with no cell equal to the next.
fn panel(runs: bool) -> Vec<u8> {
    (0..512 * 512u32).map(|k| (k % 512, k / 512)).map(|(x, y)| if runs { x / 8 + y / 8 } else { 7 * x + y } as u8).collect()
}

/// What both calls answer: the file's length and format, or a number; a refused call changes no byte. Only 16 is not the size
/// query's, and no file is over the limit or the bound.
fn answered(src: &EncodeSource, options: &EncodeOptions) -> std::result::Result<(usize, EncodedBmpFormat), u32> {
    let mut out = vec![0xAA; 264_248];
    let bound = encoded_size_bound(src, options).map_err(|error| error.number);
    let answer = encode_into(src, options, &mut out, 0).map_err(|error| error.number);
    assert!(out[answer.map_or(0, |file| file.0)..].iter().all(|byte| *byte == 0xAA));
    match answer {
        Ok((bytes, _)) => assert!(bytes <= bound.unwrap() && bytes as u64 <= options.limit),
        Err(16) => assert!(bound.is_ok()),
        Err(number) => assert_eq!(bound, Err(number)),
    }
    answer
}

/// The panel takes no file over 262,144 bytes, and the plain one has 1,078 more. The stream is used as long as it fits, to the byte.
#[test]
fn limits() {
    let (runs, noise) = (panel(true), panel(false));
    let source = |plane| EncodeSource { height: 512, palette: Some(&[]), ..picture(BmpPixelFormat::Pal8, 512, 512, plane) };
    let at = |limit| EncodeOptions::new().with_limit(limit);
    let (bytes, format) = answered(&source(&runs), &at(262_144)).unwrap();
    assert!(format == EncodedBmpFormat::Rle8 && bytes < 262_144);
    for limit in [bytes as u64, bytes as u64 + 1, 263_221, 263_222, 0xFFFF_FFFF] {
        assert_eq!(answered(&source(&runs), &at(limit)), Ok((bytes, EncodedBmpFormat::Rle8)));
    }
    for limit in [0, 1, 1077, 1078, 1079, bytes as u64 - 1] {
        assert_eq!(answered(&source(&runs), &at(limit)), Err(16));
    }
    for limit in [0, 1077, 1078, 262_144, 263_221] {
        assert_eq!(answered(&source(&runs), &at(limit).with_rle(false)), Err(14));
        assert_eq!(answered(&source(&noise), &at(limit)), Err(16));
    }
    for (plane, rle) in [(&runs, false), (&noise, false), (&noise, true)] {
        assert_eq!(answered(&source(plane), &at(263_222).with_rle(rle)), Ok((263_222, EncodedBmpFormat::Indexed8)));
    }
    let (file, _) = encode(&source(&runs), &at(262_144)).unwrap();
    let (plain, _) = encode(&source(&runs), &at(263_222).with_rle(false)).unwrap();
    let cells: Vec<u32> = runs.iter().map(|index| u32::from(*index)).collect();
    assert_eq!((read(&file).unwrap().cells, read(&plain).unwrap().cells), (cells.clone(), cells));
    let profile = EncodeSource { icc: Some(b"profile"), ..picture(BmpPixelFormat::Rgb24, 1, 3, &[1, 2, 3]) };
    assert_eq!((answered(&profile, &at(149)), answered(&profile, &at(148))), (Ok((149, EncodedBmpFormat::Rgb24)), Err(14)));
}

/// Across at byte 38, down at byte 42; every other byte, and every cell, is that of the file with the defaults.
#[test]
fn resolutions() {
    let plane = [7; 18];
    let default = EncodeOptions::new();
    let across = default.clone().with_x_pels_per_meter(0x0102_0304).with_y_pels_per_meter(0x7F06_0708);
    let indexed = EncodeSource { palette: Some(&[]), ..picture(BmpPixelFormat::Pal8, 9, 9, &plane) };
    let masks = BmpBitfields { bpp: 16, r: 0xF800, g: 0x7E0, b: 0x1F, a: 0 };
    let gauges = CalibratedRgb { endpoints: [1; 9], gamma: [2; 3] };
    for (src, options) in [
        (indexed, across.clone()),
        (indexed, across.clone().with_rle(false)),
        (indexed, across.clone().with_linked_icc(b"name".to_vec())),
        (picture(BmpPixelFormat::Rgb24, 6, 18, &plane), across.clone()),
        (picture(BmpPixelFormat::Rgb565, 9, 18, &plane), across.clone()),
        (picture(BmpPixelFormat::Rgb24, 6, 18, &plane), across.clone().with_calibrated_rgb(gauges)),
        (picture(BmpPixelFormat::Rgb24, 6, 18, &plane), across.with_bitfields(masks)),
    ] {
        let plain = options.clone().with_x_pels_per_meter(2835).with_y_pels_per_meter(2835);
        let ((mut file, format), (usual, written)) = (encode(&src, &options).unwrap(), encode(&src, &plain).unwrap());
        assert_eq!(
            (format, &file[38..46], &usual[38..46]),
            (written, &[4, 3, 2, 1, 8, 7, 6, 0x7F][..], &[0x13, 0xB, 0, 0, 0x13, 0xB, 0, 0][..])
        );
        assert_eq!(read(&file).unwrap().cells, read(&usual).unwrap().cells);
        file[38..46].copy_from_slice(&usual[38..46]);
        assert_eq!(file, usual);
    }
    assert_eq!((default.limit, default.x_pels_per_meter, default.y_pels_per_meter), (0xFFFF_FFFF, 2835, 2835));
}

/// 20 stands before 21, both behind 1 and 2 and before 3.
#[test]
fn settings_that_are_refused() {
    let src = sevens(&[7; 5], &[]);
    let set = |limit, x, y| EncodeOptions::new().with_limit(limit).with_x_pels_per_meter(x).with_y_pels_per_meter(y);
    for limit in [1 << 32, (1 << 32) + 1, u64::MAX] {
        assert_eq!(answered(&src, &set(limit, 2835, 2835)), Err(20));
        assert_eq!(answered(&src, &set(limit, -1, i32::MIN)), Err(20));
    }
    for (x, y) in [(-1, 0), (0, -1), (i32::MIN, i32::MIN)] {
        assert_eq!((answered(&src, &set(0xFFFF_FFFF, x, y)), answered(&src, &set(0, x, y))), (Err(21), Err(21)));
    }
    assert!(answered(&src, &set(0xFFFF_FFFF, 0, i32::MAX)).is_ok());
    let bad = set(1 << 32, -1, -1);
    assert_eq!(answered(&EncodeSource { width: 0, height: 1 << 31, ..src }, &bad), Err(1));
    assert_eq!(answered(&EncodeSource { height: 1 << 31, ..src }, &bad), Err(2));
    assert_eq!(answered(&EncodeSource { palette: None, ..src }, &bad), Err(20));
    assert_eq!(answered(&EncodeSource { palette: None, ..src }, &set(0, -1, 0)), Err(21));
    assert_eq!(answered(&EncodeSource { palette: None, ..src }, &set(0, 0, 0)), Err(3));
    assert_eq!(encode(&src, &bad).unwrap_err().to_string(), "20: the limit is over 4294967295");
    assert_eq!(encode(&src, &set(0, -1, 0)).unwrap_err().to_string(), "21: a resolution is negative");
}

/// A plane longer than needed, between bytes that are not lent: the number or the indices, and nothing else has changed.
fn shaded(edges: &[f64], lows: &[f64], highs: &[f64], more: usize) -> std::result::Result<Vec<u8>, u32> {
    let mut plane = vec![0xAA; lows.len() + more + 2];
    let answer = shade_quotes(edges, lows, highs, &mut plane[1..=lows.len() + more]);
    let filled = if answer.is_ok() { lows.len() } else { 0 };
    assert!(plane[0] == 0xAA && plane[1 + filled..].iter().all(|byte| *byte == 0xAA));
    answer.map(|()| plane[1..=filled].to_vec()).map_err(|error| error.number)
}

/// The least price above 0.
const LEAST: f64 = f64::from_bits(1);
const INFINITY: f64 = f64::INFINITY;

#[test]
fn quotes() {
    let edges = [-1.0, 0.0, 2.5];
    let cells = [
        (-INFINITY, -INFINITY, 0),
        (-1.5, -1.0f64.next_up(), 0),
        (-1.0, -LEAST, 1),
        (-0.0, -0.0, 2),
        (-0.0, 0.0, 2),
        (0.0, -0.0, 2),
        (LEAST, 2.5f64.next_down(), 2),
        (2.5, INFINITY, 3),
        (f64::MAX, INFINITY, 3),
        (-1.0f64.next_up(), -1.0, HATCH),
        (-LEAST, -0.0, HATCH),
        (2.25, 2.5, HATCH),
        (-INFINITY, INFINITY, HATCH),
    ];
    let lows: Vec<f64> = cells.iter().map(|cell| cell.0).collect();
    let mut highs: Vec<f64> = cells.iter().map(|cell| cell.1).collect();
    let indices: Vec<u8> = cells.iter().map(|cell| cell.2).collect();
    assert_eq!(shaded(&edges, &lows, &highs, 0), Ok(indices.clone()));
    highs.extend([f64::NAN, -INFINITY]);
    assert_eq!(shaded(&edges, &lows, &highs, 2), Ok(indices));
    let ends = [-INFINITY, f64::MAX, INFINITY];
    assert_eq!(shaded(&[-INFINITY, INFINITY], &ends, &ends, 0), Ok(vec![1, 1, 2]));
    assert_eq!((shaded(&[LEAST], &[-0.0, LEAST], &[0.0, LEAST], 0), shaded(&[-0.0], &[0.0], &[0.0], 0)), (Ok(vec![0, 1]), Ok(vec![1])));
    let most: Vec<f64> = (0..254).map(f64::from).collect();
    let prices: Vec<f64> = (0..255).map(|k| f64::from(k) - 0.5).collect();
    assert_eq!(shaded(&most, &prices, &prices, 0), Ok((0..=254).collect()));
}

/// 15 before 22 before 23, and no byte changes.
#[test]
fn quotes_that_are_refused() {
    let rising: Vec<f64> = (0..255).map(f64::from).collect();
    let (nan, good) = (f64::NAN, [1.0, 2.0, 3.0]);
    let scales: [&[f64]; 11] = [
        &[],
        &rising,
        &[nan],
        &[nan, 1.0],
        &[0.0, -nan, 2.0],
        &[0.0, nan],
        &[0.0, 0.0],
        &[-0.0, 0.0],
        &[0.0, -0.0],
        &[2.0, 1.0],
        &[INFINITY, INFINITY],
    ];
    for scale in scales {
        assert_eq!((shaded(scale, &good, &good, 0), shaded(scale, &[], &[], 1)), (Err(22), Err(22)));
    }
    let most = &rising[..254];
    for (low, high) in [(nan, 1.0), (1.0, nan), (-nan, nan), (1.0, 0.0), (LEAST, -0.0), (INFINITY, f64::MAX)] {
        for at in 0..3 {
            let (mut lows, mut highs) = (good, good);
            (lows[at], highs[at]) = (low, high);
            assert_eq!((shaded(most, &lows, &highs, 1), shaded(&rising, &lows, &highs, 0)), (Err(23), Err(22)));
            assert_eq!((shaded(&rising, &lows, &highs[1..], 0), shaded(most, &lows[..at], &highs, 1).is_ok()), (Err(15), true));
        }
    }
    let mut plane = [0xAA; 3];
    assert_eq!(shade_quotes(&rising, &good, &good, &mut plane[1..]).unwrap_err().number, 15);
    assert_eq!(shade_quotes(most, &good, &good, &mut []).unwrap_err().to_string(), "15: a lent buffer or list is too short");
    assert_eq!((shade_quotes(most, &[], &good, &mut plane), shade_quotes(most, &[], &[], &mut []), plane), (Ok(()), Ok(()), [0xAA; 3]));
}

/// From quotes to a file, which shows the indices.
#[test]
fn quotes_read_back() {
    let edges: Vec<f64> = (1..=20).map(|k| f64::from(k) * 0.5).collect();
    let lows: Vec<f64> = (0..200).map(|k| f64::from(k / 20) + f64::from(k % 20) / 16.0).collect();
    let highs: Vec<f64> = lows.iter().map(|low| low + 0.125).collect();
    let plane = shaded(&edges, &lows, &highs, 0).unwrap();
    let src = EncodeSource { height: 10, palette: Some(&[]), ..picture(BmpPixelFormat::Pal8, 20, 20, &plane) };
    let (file, _) = encode(&src, &EncodeOptions::new()).unwrap();
    let cells: Vec<u32> = plane.iter().map(|index| u32::from(*index)).collect();
    assert_eq!(read(&file).unwrap().cells, cells);
    assert!(plane.contains(&HATCH) && plane.contains(&0) && plane.contains(&20));
}

/// Rows with a long run, single cells and cells that differ, each row another one, so that a stream is used where one can be.
fn expiries() -> Vec<u8> {
    let index = |x: u32, y: u32| if x < 25 { 29 * y + x / 20 + x / 21 } else { 7 * x + y };
    (0..33 * 7).map(|k| index(k % 33, k / 33) as u8).collect()
}

/// Every format, plain and as a stream, from the bottom and from the top, at an offset: the same file as without starts, each
/// start where the row's bytes begin, and each row read from there as in the whole reading.
#[test]
fn starts() {
    let plane = expiries();
    let masks = BmpBitfields { bpp: 16, r: 0xF000, g: 0xF00, b: 0, a: 0xF };
    for (format, size) in [
        (BmpPixelFormat::Rgba, 4),
        (BmpPixelFormat::Rgb24, 3),
        (BmpPixelFormat::Bgra, 4),
        (BmpPixelFormat::Bgr24, 3),
        (BmpPixelFormat::Rgb555, 2),
        (BmpPixelFormat::Rgb565, 2),
        (BmpPixelFormat::Pal8, 1),
        (BmpPixelFormat::Indexed4, 1),
        (BmpPixelFormat::Indexed2, 1),
        (BmpPixelFormat::Indexed1, 1),
    ] {
        let palette = (size == 1).then_some(&plane[..8]);
        let src = EncodeSource { height: 7, palette, icc: Some(b"profile"), ..picture(format, 33 / size, 33, &plane) };
        let default = EncodeOptions::new().with_embed_icc(false);
        let mut several = vec![
            default.clone(),
            default.clone().with_rle(false),
            default.clone().with_top_down(true),
            default.clone().with_embed_icc(true),
            default.clone().with_minimal_palette(true).with_limit(1200),
        ];
        if matches!(format, BmpPixelFormat::Rgba | BmpPixelFormat::Bgr24) {
            several.push(default.clone().with_bitfields(masks));
        }
        for options in several {
            let (file, written) = encode(&src, &options).unwrap();
            let (mut out, mut list) = (vec![0xAA; 5 + encoded_size_bound(&src, &options).unwrap() + 3], [u64::MAX; 9]);
            let answer = encode_into_with_starts(&src, &options, &mut out, 5, &mut list);
            assert_eq!((answer, &out[5..][..file.len()]), (Ok((file.len(), written)), &file[..]));
            assert!(out[..5].iter().chain(&out[5 + file.len()..]).all(|byte| *byte == 0xAA));
            assert_eq!(list[7..], [u64::MAX; 2]);
            let mut exact = [0; 7];
            assert_eq!((encode_with_starts(&src, &options, &mut exact), &exact[..]), (Ok((file.clone(), written)), &list[..7]));

            let whole = read(&file).unwrap();
            let coded = matches!(written, EncodedBmpFormat::Rle8 | EncodedBmpFormat::Rle4);
            let pixels = u64::from(u32::from_le_bytes(file[10..14].try_into().unwrap()));
            let row_bytes = (u64::from(src.width) * u64::from(whole.depth)).div_ceil(32) * 4;
            let numbers = whole.cells.len() / 7;
            for (k, start) in exact.into_iter().enumerate() {
                if coded {
                    // Behind the codes of the row before stands its end.
                    let follows = k > 0 && start > exact[k - 1] && file[..start as usize].ends_with(&[0, 0]);
                    assert!(if k == 0 { start == pixels } else { follows });
                } else {
                    assert_eq!(start, pixels + row_bytes * k as u64);
                }
                let y = if options.top_down { k } else { 6 - k };
                let row = &whole.cells[y * numbers..][..numbers];
                assert_eq!(read_row(&file, start).unwrap(), row);
                let mut lent = vec![0xAAAA_AAAA; numbers + 3];
                assert_eq!(read_row_into(&file, start, &mut lent[1..numbers + 2]), Ok(()));
                assert_eq!((&lent[1..=numbers], [lent[0], lent[numbers + 1], lent[numbers + 2]]), (row, [0xAAAA_AAAA; 3]));
                // No byte of another row or of a profile is looked at.
                let (head, end) = (pixels as usize, if coded { exact.get(k + 1).copied() } else { Some(start + row_bytes) });
                let end = end.unwrap_or(file.len() as u64) as usize;
                let mut others = file.clone();
                others[head..start as usize].iter_mut().for_each(|byte| *byte = !*byte);
                others[end..].iter_mut().for_each(|byte| *byte = !*byte);
                assert_eq!(read_row(&others, start).unwrap(), row);
                assert_eq!(read_row(&others[..end], start).unwrap(), row);
            }
        }
    }
}

/// 24 stands between 15 and 16, and no refusal changes the list or the buffer.
#[test]
fn starts_that_are_refused() {
    let plane = expiries();
    let src = EncodeSource { height: 7, palette: Some(&[]), ..picture(BmpPixelFormat::Pal8, 33, 33, &plane) };
    let number = |src: &EncodeSource, options: &EncodeOptions, room: usize, entries: usize| {
        let (mut out, mut list) = (vec![0xAA; room], [u64::MAX; 8]);
        let answer = encode_into_with_starts(src, options, &mut out, 0, &mut list[..entries]);
        let kept = out.iter().all(|byte| *byte == 0xAA) && list == [u64::MAX; 8];
        answer.map_or_else(|error| if kept { error.number } else { u32::MAX }, |_| 0)
    };
    let default = EncodeOptions::new();
    let bound = encoded_size_bound(&src, &default).unwrap();
    assert_eq!((number(&src, &default, bound, 7), number(&src, &default, bound, 8)), (0, 0));
    for entries in 0..7 {
        assert_eq!(number(&src, &default, bound, entries), 24);
        assert_eq!(number(&src, &default, bound - 1, entries), 15);
        assert_eq!(number(&src, &default.clone().with_top_down(true), bound, entries), 24);
        assert_eq!(number(&src, &default.clone().with_limit(100), bound, entries), 24);
        assert_eq!(number(&src, &default.clone().with_limit(100).with_rle(false), bound, entries), 14);
        assert_eq!(number(&src, &default.clone().with_limit(1 << 32), bound, entries), 20);
        assert_eq!(number(&src, &default.clone().with_x_pels_per_meter(-1), bound, entries), 21);
        assert_eq!(number(&EncodeSource { stride: 34, ..src }, &default, bound, entries), 12);
        assert_eq!(number(&EncodeSource { palette: None, ..src }, &default, bound, entries), 3);
        assert_eq!(number(&EncodeSource { width: 0, ..src }, &default, bound, entries), 1);
    }
    assert_eq!((number(&src, &default.clone().with_limit(100), bound, 7), number(&src, &default, bound - 1, 7)), (16, 15));
    assert_eq!(number(&EncodeSource { stride: 34, ..src }, &default, bound, 7), 12);
    let error = encode_with_starts(&src, &default, &mut [0; 6]).unwrap_err();
    assert_eq!(error.to_string(), "24: the list of row starts is shorter than the height");
}

/// 17, 18, 15 and 19 of one row, and cells that stay.
#[test]
fn rows_that_are_refused() {
    let number = |file: &[u8], start, cells: usize| {
        let mut lent = [0xAAAA_AAAA; 32];
        let answer = read_row_into(file, start, &mut lent[1..=cells]);
        assert!(answer.is_ok() || lent == [0xAAAA_AAAA; 32]);
        answer.map_or_else(|error| error.number, |()| 0)
    };
    let changed = |at: usize, bytes: &[u8]| {
        let mut file = M12;
        file[at..at + bytes.len()].copy_from_slice(bytes);
        file
    };
    // A stream: its row is at 58, and a start past the end has no code.
    assert_eq!((number(&M12, 58, 5), number(&M12, 58, 6), number(&M12[..60], 58, 5)), (0, 0, 0));
    assert_eq!(read_row(&M12, 58), Ok(vec![7; 5]));
    for start in [0, 57, 59, 60, 61, 62, 63, (1 << 32) + 58, u64::MAX] {
        assert_eq!((number(&M12, start, 5), number(&M12, start, 4)), (19, 15), "{start}");
        assert_eq!(read_row(&M12, start).unwrap_err(), BmpError::refused(19));
    }
    for codes in [[6, 7, 0, 1], [4, 7, 0, 1], [0, 0, 5, 7], [0, 2, 5, 7], [0, 5, 7, 7]] {
        assert_eq!((number(&changed(58, &codes), 58, 5), number(&changed(58, &codes), 58, 4)), (19, 15));
    }
    // Any start is read as it stands, here one inside the header.
    assert_eq!((number(&changed(50, &[5, 9]), 50, 5), read_row(&changed(50, &[5, 9]), 50)), (0, Ok(vec![9; 5])));
    for len in 0..58 {
        assert_eq!((number(&M12[..len], 58, 5), number(&M12[..len], u64::MAX, 0)), (18, 18));
    }
    assert_eq!((number(&changed(1, b"N"), u64::MAX, 0), number(b"BN", 0, 0), number(b"", 0, 0)), (17, 17, 18));

    // Plain rows of 3 bytes and one of padding: the whole stored row is needed.
    let src = EncodeSource { height: 2, ..picture(BmpPixelFormat::Rgb24, 1, 3, &[1, 2, 3, 4, 5, 6]) };
    let mut list = [0; 2];
    let (file, _) = encode_with_starts(&src, &EncodeOptions::new(), &mut list).unwrap();
    assert_eq!((list, file.len()), ([54, 58], 62));
    assert_eq!((read_row(&file, 54), read_row(&file, 58)), (Ok(vec![4, 5, 6, 0]), Ok(vec![1, 2, 3, 0])));
    for start in [59, 62, 63, (1 << 32) + 58, u64::MAX - 3, u64::MAX] {
        assert_eq!((number(&file, start, 4), number(&file, start, 3)), (18, 18));
    }
    assert_eq!((number(&file[..61], 58, 4), number(&file[..61], 54, 4), number(&file, 58, 3), number(&file, 0, 4)), (18, 0, 15, 0));
    assert_eq!(read_row(&file, 0), Ok(vec![u32::from(file[2]), 0x4D, 0x42, 0]));
    // A wide row whose cells cannot be had, or are had and not filled.
    let error = read_row(&changed(18, &[0xFF, 0xFF, 0xFF, 0x7F]), 58).unwrap_err();
    assert!(error.number == 19 || error.kind == BmpErrorKind::OutOfMemory);
}

/// VERSION, the header and Cargo.toml say the same.
#[test]
fn one_version() {
    let version = include_str!("../../../VERSION").trim();
    assert_eq!(env!("CARGO_PKG_VERSION"), version);
    assert!(HEADER.contains(&format!("#define BMP_WRITER_VERSION \"{version}\"\n")));
}
