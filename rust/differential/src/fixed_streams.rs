//! Fixed byte streams, the same in every run: all short ones of few values, and units at the limits of length sizes.

/// Length sizes, good and not.
pub const LENGTH_SIZES: [u32; 16] =
    [0, 1, 2, 3, 4, 5, 6, 8, 16, 255, 256, 257, 260, 1 << 16 | 1, 1 << 31 | 2, u32::MAX];

/// Every stream of up to `most` bytes of these values after `front`.
fn all(front: &[u8], values: &[u8], most: usize) -> Vec<Vec<u8>> {
    let mut last = vec![front.to_vec()];
    let mut streams = last.clone();
    for _ in 0..most {
        last = last.iter().flat_map(|stream| values.iter().map(|&value| [&stream[..], &[value]].concat())).collect();
        streams.extend_from_slice(&last);
    }
    streams
}

/// Short streams: of all kinds, and after a start code, and after a start code and a byte.
pub fn short() -> Vec<Vec<u8>> {
    [&[][..], &[0, 0, 1], &[0, 0, 1, 0x65]].iter().flat_map(|front| all(front, &[0, 1, 2, 3, 0x80], 6)).collect()
}

/// Units of this many bytes, with zeros or others before them, at their start, at their end and after them.
fn around(length: usize) -> Vec<Vec<u8>> {
    let mut streams = Vec::new();
    for front in [
        &[0, 0, 1][..],
        &[0, 0, 0, 0, 1],
        &[0, 0, 1, 0x65, 0, 0, 1],
        &[0, 0, 1, 0, 0, 1],
        &[0, 0, 1, 9, 0, 0, 2, 0, 0, 1],
    ] {
        for inside in [&[][..], &[0, 0], &[0, 0, 2], &[0, 0, 0, 5]] {
            let rest = vec![0x88; length - inside.len()];
            for unit in [[inside, &rest].concat(), [&rest, inside].concat()] {
                for after in [&[][..], &[0], &[0, 0, 0], &[0, 0, 1, 0x65], &[0, 0, 0, 0, 1], &[0, 0, 1, 0x65, 0, 0, 2]]
                {
                    streams.push([front, &unit, after].concat());
                }
            }
        }
    }
    streams
}

/// Units at the limits of length sizes 1 and 2.
pub fn at_limits() -> Vec<Vec<u8>> {
    (254..=257).chain(65534..=65537).flat_map(around).collect()
}

/// One unit, zeros, start codes: 16 MiB of each.
pub fn long() -> [Vec<u8>; 3] {
    let size = 1 << 24;
    let mut unit = vec![0x88; size];
    unit[..3].copy_from_slice(&[0, 0, 1]);
    [unit, vec![0; size], [0, 0, 1, 0x65].repeat(size / 4)]
}
