//! Document 02's request [3]: a byte stream read into a sample.

use puddockle::*;

const CANARY: u8 = 0xEE;

fn refused<T>(number: u32, place: u64) -> Result<T, Refusal> {
    Err(Refusal { number, place })
}

/// What is read into a buffer of `room` bytes; nothing past the count is changed, nothing at all on a refusal.
fn read_in(length_size: u32, stream: &[u8], room: usize) -> Result<Vec<u8>, Refusal> {
    let mut out = vec![CANARY; room + 8];
    let result = from_stream(length_size, stream, &mut out[..room]);
    assert!(out[result.unwrap_or(0)..].iter().all(|&byte| byte == CANARY));
    result.map(|count| out[..count].to_vec())
}

/// The same with the room that the header calls enough.
fn read(length_size: u32, stream: &[u8]) -> Result<Vec<u8>, Refusal> {
    let more = if length_size == 4 { stream.len() / 4 } else { 0 };
    read_in(length_size, stream, stream.len() + more)
}

/// These units after their lengths.
fn sample(length_size: usize, units: &[&[u8]]) -> Vec<u8> {
    let length = |unit: &[u8]| unit.len().to_be_bytes()[8 - length_size..].to_vec();
    units.iter().flat_map(|unit| [length(unit), unit.to_vec()].concat()).collect()
}

#[test]
fn units_and_zeros() {
    let streams: [(&[u8], &[&[u8]]); 9] = [
        (&[], &[]),
        (&[0], &[]),
        (&[0; 9], &[]),
        (&[0, 0, 1, 0x65], &[&[0x65]]),
        (&[0, 0, 0, 0, 0, 1, 0x65, 0x88, 0, 0, 0, 0], &[&[0x65, 0x88]]),
        (&[0, 0, 1, 0x65, 0, 0, 0, 1, 0x61, 0, 0, 0, 0, 1, 1, 0, 0, 1, 2, 0], &[&[0x65], &[0x61], &[1], &[2]]),
        // Zeros straight after a start code, and one zero and 01, belong to the unit.
        (&[0, 0, 1, 0, 0x65, 0, 0, 1, 0, 0, 0x65, 0, 1], &[&[0, 0x65], &[0, 0, 0x65, 0, 1]]),
        (&[0, 0, 1, 0, 1, 0, 0, 3, 0, 0, 3], &[&[0, 1, 0, 0, 3, 0, 0, 3]]),
        (&[0, 0, 1, 1, 0, 0, 1, 0, 2], &[&[1], &[0, 2]]),
    ];
    for (stream, units) in streams {
        for size in [1, 2, 4] {
            let expected = sample(size, units);
            let size = size as u32;
            assert_eq!(read(size, stream), Ok(expected.clone()), "{size} {stream:?}");
            assert_eq!(read_in(size, stream, expected.len()), Ok(expected.clone()), "{size} {stream:?}");
            if let Some(less) = expected.len().checked_sub(1) {
                assert_eq!(read_in(size, stream, less), refused(29, 0), "{size} {stream:?}");
                assert_eq!(read_in(size, stream, 0), refused(29, 0), "{size} {stream:?}");
            }
        }
    }
    // As many bytes more than the stream as the header says: units of one byte.
    let stream = [0, 0, 1, 0x65].repeat(100);
    assert_eq!(read_in(4, &stream, 500).map(|sample| sample.len()), Ok(500));
    assert_eq!(read_in(4, &stream, 499), refused(29, 0));
}

#[test]
fn not_a_byte_stream() {
    let streams: [(&[u8], u64); 21] = [
        // A byte above 00 before the first start code; a 01 after fewer than two zeros is one.
        (&[0x65], 0),
        (&[1], 0),
        (&[0, 1, 0x65], 1),
        (&[0, 1, 0, 0, 1, 0x65], 1),
        (&[0, 0, 0x65, 0, 0, 1, 0x65], 2),
        (&[0, 0, 0, 0, 2], 4),
        (&[3, 0, 0, 1, 0x65], 0),
        // 00 00 02; three or more zeros and a byte above 01.
        (&[0, 0, 1, 0x65, 0, 0, 2], 6),
        (&[0, 0, 1, 0, 0, 2, 0x65], 5),
        (&[0, 0, 1, 0x65, 0, 0, 0, 2], 7),
        (&[0, 0, 1, 0x65, 0, 0, 0, 3], 7),
        (&[0, 0, 1, 0, 0, 0, 5], 6),
        (&[0, 0, 1, 0x65, 0, 0, 0, 0, 0, 0xFF], 9),
        (&[0, 0, 1, 0x65, 0, 0, 1, 0x65, 0, 0, 2, 0, 0, 2, 0, 0, 1], 10),
        // An empty unit: at the end, before another start code, with zeros or without, before any other 33.
        (&[0, 0, 1], 2),
        (&[0, 0, 1, 0], 2),
        (&[0, 0, 0, 1, 0, 0, 0, 0], 3),
        (&[0, 0, 1, 0, 0, 1, 0x65], 2),
        (&[0, 0, 1, 0, 0, 0, 0, 1, 0x65, 0, 0, 2], 2),
        (&[0, 0, 1, 0x65, 0, 0, 1, 0, 0, 1, 0x65], 6),
        (&[0, 0, 1, 0x65, 0, 0, 0, 1], 7),
    ];
    for (stream, place) in streams {
        for size in [1, 2, 4] {
            assert_eq!(read(size, stream), refused(33, place), "{size} {stream:?}");
            // 33 comes before 29.
            assert_eq!(read_in(size, stream, 0), refused(33, place), "{size} {stream:?}");
        }
    }
    for third in 0..=255 {
        let two = read(1, &[0, 0, 1, 0x65, 0, 0, third, 0x88]);
        let three = read(1, &[0, 0, 1, 0x65, 0, 0, 0, third, 0x88]);
        match third {
            0 => assert_eq!((two, three), (refused(33, 7), refused(33, 8))),
            1 => assert_eq!((two, three), (Ok(vec![1, 0x65, 1, 0x88]), Ok(vec![1, 0x65, 1, 0x88]))),
            2 => assert_eq!((two, three), (refused(33, 6), refused(33, 7))),
            _ => assert_eq!((two, three), (Ok(vec![5, 0x65, 0, 0, third, 0x88]), refused(33, 7))),
        }
    }
}

#[test]
fn too_long_for_the_length_size() {
    for (size, most) in [(1, 255), (2, 65535)] {
        let longest = vec![0x65; most];
        let stream = |unit: &[u8], after: &[u8]| [&[0, 0, 1, 0x61, 0, 0, 0, 1], unit, after].concat();
        let taken = Ok(sample(size, &[&[0x61], &longest]));
        let more = [&longest[..], &[0x65]].concat();
        let (fits, exceeds) = (size as u32, refused(34, 8));
        // Zeros after a unit do not count.
        assert_eq!(read(fits, &stream(&longest, &[])), taken);
        assert_eq!(read(fits, &stream(&longest, &[0; 9])), taken);
        assert_eq!(read(fits, &stream(&more, &[])), exceeds);
        assert_eq!(read_in(fits, &stream(&more, &[0; 9]), 0), exceeds);
        assert_eq!(read(4, &stream(&more, &[])), Ok(sample(4, &[&[0x61], &more])));
        // First by place: 34 before a 33 inside the unit or after it, a 33 before it first.
        assert_eq!(read(fits, &stream(&[&[0x65, 0, 0, 2], &more[..]].concat(), &[])), exceeds);
        assert_eq!(read(fits, &stream(&more, &[0, 0, 1])), exceeds);
        assert_eq!(read(fits, &stream(&more, &[0, 0, 1, 0x65, 0, 0, 2])), exceeds);
        assert_eq!(read(fits, &[&[0, 0, 1], &stream(&more, &[])[..]].concat()), refused(33, 2));
        assert_eq!(read(fits, &[&[0, 0, 1, 0x65, 0, 0, 2], &stream(&more, &[])[..]].concat()), refused(33, 6));
        assert_eq!(read(4, &stream(&[&[0x65, 0, 0, 2], &more[..]].concat(), &[])), refused(33, 11));
    }
}

#[test]
fn length_sizes() {
    for size in (0..6).chain([255, 256, 257, 258, 260, 1 << 31, (1 << 31) + 1, u32::MAX]) {
        let good = matches!(size, 1 | 2 | 4);
        for stream in [&[][..], &[0, 0], &[0, 0, 1, 0x65], &[0x65], &[0, 0, 1]] {
            let number = read(size, stream).map_or_else(|no| no.number, |_| 0);
            assert_eq!(number == 11, !good, "{size} {stream:?}");
            assert!(good || read_in(size, stream, 0) == refused(11, 0), "{size} {stream:?}");
        }
    }
}

#[test]
fn in_words() {
    let text = |no: Refusal| no.to_string();
    assert_eq!(read(4, &[0, 0, 1]).map_err(text).unwrap_err(), "refused 33 at 2: not a byte stream");
    let long = [&[0, 0, 1][..], &[0x65; 256]].concat();
    assert_eq!(read(1, &long).map_err(text).unwrap_err(), "refused 34 at 3: unit too long for the length size");
}
