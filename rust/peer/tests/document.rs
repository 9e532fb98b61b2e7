//! Document 01's own cases: B0, M1 to M12, and the case with times; document 02's requests [1] to [4].

use peer::calls::{self, Answer};
use peer::program;
use peer::record_writer::LentSets;

/// The first 59 bytes of B0, up to sample 2: two tracks, sample 1 with one unit.
const B0_HEAD: [u8; 59] = [
    0x02, 0x00, 0x00, 0x07, 0x01, 0x42, 0x00, 0x1E, 0xFC, 0xE0, 0x00, 0x01, 0x00, 0x07, 0x01, 0x53, 0x00, 0x1E, 0xFC,
    0x00, 0x00, 0x01, 0x02, 0x01, 0x00, 0x02, 0x01, 0, 0, 0, 0, 0, 0, 0, 0, 0, 0, 0, 3, 0x02, 0, 0, 0, 0, 0, 0, 0, 0,
    0, 0, 0, 9, 0, 0, 0, 0x0C, 0x02, 0x65, 0x88,
];
const EXTRACTOR: [u8; 9] = [0x08, 0x7F, 0x80, 0x00, 0x03, 0x01, 0x00, 0x00, 0x00];
const RESOLVED: [u8; 6] = [0, 0, 0, 2, 0x65, 0x88];

fn b0() -> Vec<u8> {
    [&B0_HEAD[..], &EXTRACTOR].concat()
}

/// B0 with other sample bytes.
fn with_samples(first: &[u8], second: &[u8]) -> Vec<u8> {
    let mut bundle = B0_HEAD[..56].to_vec();
    bundle[38] = first.len() as u8;
    bundle[51] = second.len() as u8;
    bundle[55] = (first.len() + second.len()) as u8;
    [&bundle, first, second].concat()
}

fn extractor(index: u8, offset: i8, data_offset: u8, data_length: u8) -> [u8; 9] {
    [0x08, 0x7F, 0x80, 0x00, 0x03, index, offset as u8, data_offset, data_length]
}

fn refused(number: u32, place: u64) -> Answer {
    Answer { number, place, ..Answer::default() }
}

/// What sample 2 resolves to, or the refusal.
fn second(bundle: &[u8]) -> Result<Vec<u8>, Answer> {
    let mut out = [0xEE; 64];
    let answer = calls::resolve_sample(bundle, 2, &mut out);
    assert!(out[answer.count as usize..].iter().all(|&byte| byte == 0xEE));
    match answer.number {
        0 => Ok(out[..answer.count as usize].to_vec()),
        _ => Err(answer),
    }
}

#[test]
fn bench_bundle() {
    assert_eq!(b0().len(), 68);
    assert_eq!(second(&b0()), Ok(RESOLVED.to_vec()));
    assert_eq!(program::text(&b0()), "1 passed 1\n2 passed 1\npassed 2 empty 0 refused 0\n");
    assert_eq!(program::text(&b0()[..15]), "bundle refused 2 at 11\n");
    assert_eq!(program::text(&[]), "bundle refused 2 at 0\n");
    assert_eq!(program::text(&[0; 65537]), "bundle too big for this program\n");
    let mut out = [0xEE; 6];
    assert_eq!(calls::naming_list(&b0(), 1, &mut out).count, 6);
    assert_eq!(out, [0, 2, 0, 0, 0, 0]);
    assert_eq!(calls::naming_list(&b0(), 2, &mut []), Answer::default());
}

#[test]
fn m1_to_m6() {
    let one = [0x02, 0x65, 0x88];
    let case = |e: [u8; 9]| second(&with_samples(&one, &e));
    assert_eq!(case(extractor(1, 0, 0, 3)), Ok(RESOLVED.to_vec()));
    assert_eq!(case(extractor(1, 0, 0, 2)), Err(refused(27, 0)));
    assert_eq!(case(extractor(1, 0, 0, 4)), Err(refused(27, 0)));
    assert_eq!(case(extractor(1, 0, 1, 0)), Err(refused(26, 0)));
    assert_eq!(case(extractor(1, 0, 1, 9)), Err(refused(26, 0)));
    assert_eq!(case(extractor(0, 0, 0, 0)), Err(refused(23, 0)));
    assert_eq!(case(extractor(2, 0, 0, 0)), Err(refused(23, 0)));
    assert_eq!(case(extractor(1, 1, 0, 0)), Err(refused(24, 0)));
    assert_eq!(case(extractor(1, -1, 0, 0)), Err(refused(24, 0)));
}

#[test]
fn m7_to_m9() {
    let m7 = [0x08, 0x7E, 0x80, 0x00, 0x03, 0x00, 0x02, 0x65, 0x88];
    assert_eq!(second(&with_samples(&[], &m7)), Ok(RESOLVED.to_vec()));
    assert_eq!(calls::check_sample(1, 1, &m7), Answer::default());
    assert_eq!(calls::check_sample(0, 1, &m7), refused(20, 6));
    let m8 = |additional| [0x05, 0x7E, 0x80, 0x00, 0x03, additional, 0x02, 0x65, 0x88];
    assert_eq!(second(&with_samples(&[], &m8(3))), Ok(RESOLVED.to_vec()));
    assert_eq!(second(&with_samples(&[], &m8(2))), Err(refused(21, 0)));
    assert_eq!(second(&with_samples(&[], &m8(4))), Err(refused(21, 0)));
    let case = |length| second(&with_samples(&m8(3), &extractor(1, 0, 0, length)));
    assert_eq!(case(0), Ok(RESOLVED.to_vec()));
    assert_eq!(case(6), Ok(Vec::new()));
    assert_eq!(case(9), Ok(RESOLVED.to_vec()));
}

/// M10 with its trailer; its first half is the first seven bytes.
const M10: [u8; 11] = [0x01, 0x64, 0x00, 0x1E, 0xFF, 0xE0, 0x00, 0xFD, 0xF8, 0xF8, 0x00];
/// The numbers of M10's first half.
const ABSENT: [u64; calls::FIELD_COUNT] = [100, 0, 30, 0, 4, 0, 6, 0, 0, 7, 0, 1, 0, 0, 0, 0, 0, 0];

/// What is written from these numbers without sets, or the refusal.
fn write(kind: u32, numbers: &[u64], extension: &[u8]) -> Result<Vec<u8>, Answer> {
    let mut out = [0xEE; 16];
    let sets = LentSets { sequence: &[], picture: &[], extension };
    let answer = calls::write_record(kind, numbers, sets, &mut out);
    assert!(out[answer.count as usize..].iter().all(|&byte| byte == 0xEE));
    match answer.number {
        0 => Ok(out[..answer.count as usize].to_vec()),
        _ => Err(answer),
    }
}

/// Request [1]: M10's first half is accepted, in all four profiles; one trailer byte asks for all of them.
#[test]
fn trailer_absent_is_read() {
    for profile in 0..=255 {
        let high = [100, 110, 122, 144].contains(&profile);
        for length in 0..=M10.len() + 1 {
            let mut record = [&M10[..], &[0]].concat();
            record.truncate(length);
            if let Some(byte) = record.get_mut(1) {
                *byte = profile;
            }
            let mut fields = [0xEE; calls::FIELD_COUNT];
            let number = match length {
                7 => 0,
                11 if high => 0,
                8..=10 if !high => 13,
                11 | 12 => 13,
                _ => 8,
            };
            let expected = if number == 0 { Answer::default() } else { refused(number, 0) };
            assert_eq!(calls::read_record(0, &record, &mut fields), expected, "profile {profile}, {length} bytes");
            let trailer = match (number, length, high) {
                (0, 7, true) => 1,
                (0, 7, false) => 0,
                (0, ..) => 2,
                _ => 0xEE,
            };
            assert_eq!(fields[11], trailer, "profile {profile}, {length} bytes");
        }
    }
    let mut fields = [0xEE; calls::FIELD_COUNT];
    assert_eq!(calls::read_record(0, &M10[..7], &mut fields), Answer::default());
    assert_eq!(fields, ABSENT);
    // Wrong fixed bits in a trailer's only byte are 10; a set's length cut, an empty set, a wrong type, a byte more.
    let with = |trailer: &[u8]| calls::read_record(0, &[&M10[..7], trailer].concat(), &mut [0; calls::FIELD_COUNT]);
    assert_eq!(with(&[0x00]), refused(10, 0));
    assert_eq!(with(&[0xFD, 0xF8, 0xF8, 0x01]), refused(8, 0));
    assert_eq!(with(&[0xFD, 0xF8, 0xF8, 0x01, 0x00, 0x00]), refused(12, 0));
    assert_eq!(with(&[0xFD, 0xF8, 0xF8, 0x01, 0x00, 0x01, 0x68]), refused(12, 0));
    assert_eq!(with(&[0xFD, 0xF8, 0xF8, 0x00, 0x00]), refused(13, 0));
    // An SVC record has no trailer whatever its profile.
    let svc = [0x01, 0x64, 0x00, 0x1E, 0x7F, 0x00, 0x00];
    assert_eq!(calls::read_record(1, &svc, &mut fields), Answer::default());
    assert_eq!(fields[11], 0);
}

/// Request [1]: absent is written as nothing where a trailer belongs, and is 31 elsewhere; saying nothing of a trailer
/// that belongs there is 31 still.
#[test]
fn trailer_absent_is_written() {
    let changed = |at: usize, value: u64| {
        let mut numbers = ABSENT;
        numbers[at] = value;
        numbers
    };
    assert_eq!(write(0, &ABSENT, &[]), Ok(M10[..7].to_vec()));
    assert_eq!(write(0, &ABSENT, &[0, 1, 0x6D]), Err(refused(31, 0)));
    assert_eq!(write(0, &changed(12, 9), &[]), Ok(M10[..7].to_vec()));
    assert_eq!(write(1, &ABSENT, &[]), Err(refused(31, 0)));
    assert_eq!(write(0, &changed(11, 0), &[]), Err(refused(31, 0)));
    assert_eq!(write(0, &changed(11, 3), &[]), Err(refused(31, 0)));
    assert_eq!(write(0, &changed(11, 2), &[]), Ok([&M10[..7], &[0xFC, 0xF8, 0xF8, 0]].concat()));
    for profile in 0..300 {
        let written = write(0, &changed(0, profile), &[]).map(|record| record[1] as u64);
        let expected = if [100, 110, 122, 144].contains(&profile) { Ok(profile) } else { Err(refused(31, 0)) };
        assert_eq!(written, expected, "profile {profile}");
    }
}

/// Request [1]: a track whose record is M10's first half is good, and what stands in it is reached.
#[test]
fn trailer_absent_in_a_bundle() {
    let mut bundle = b0();
    bundle[5] = 100;
    assert_eq!(calls::check_bundle(&bundle), Answer::default());
    assert_eq!(second(&bundle), Ok(RESOLVED.to_vec()));
    assert_eq!(program::text(&bundle), "1 passed 1\n2 passed 1\npassed 2 empty 0 refused 0\n");
    let mut one_more = bundle.clone();
    one_more[3] = 8;
    one_more.insert(11, 0xFD);
    assert_eq!(calls::check_bundle(&one_more), refused(8, 1));
    assert_eq!(program::text(&one_more), "bundle refused 8 at 1\n");
}

/// Request [2]: sample 2 with these units as a byte stream, in a buffer of `room` bytes, or the refusal.
fn second_stream(units: &[&[u8]], room: usize) -> Result<Vec<u8>, Answer> {
    let sample: Vec<u8> = units.iter().flat_map(|unit| [&[unit.len() as u8], *unit].concat()).collect();
    stream_of(&with_samples(&[0x02, 0x65, 0x00], &sample), room)
}

/// Sample 2 of a bundle as a byte stream, or the refusal.
fn stream_of(bundle: &[u8], room: usize) -> Result<Vec<u8>, Answer> {
    let mut out = vec![0xEE; room];
    let answer = calls::stream_sample(bundle, 2, &mut out);
    assert!(out[answer.count as usize..].iter().all(|&byte| byte == 0xEE));
    match answer.number {
        0 => Ok(out[..answer.count as usize].to_vec()),
        _ => Err(answer),
    }
}

/// Request [2]: a start code of four bytes before each unit; what a unit must not hold.
#[test]
fn byte_stream() {
    let good: [&[u8]; 2] = [&[0x00, 0x00, 0x03, 0x00, 0x65], &[0x61]];
    let stream = vec![0, 0, 0, 1, 0, 0, 3, 0, 0x65, 0, 0, 0, 1, 0x61];
    assert_eq!(second_stream(&good, 64), Ok(stream.clone()));
    assert_eq!(second_stream(&good, 14), Ok(stream));
    assert_eq!(second_stream(&good, 13), Err(refused(29, 0)));
    assert_eq!(second_stream(&[], 0), Ok(Vec::new()));
    for third in 0..=255 {
        let unit = [0x61, 0x00, 0x00, third, 0x88];
        let expected = if third <= 2 { Err(refused(32, 0)) } else { Ok([&[0, 0, 0, 1], &unit[..]].concat()) };
        assert_eq!(second_stream(&[&unit], 64), expected, "{third}");
    }
    for last in [&[0x00][..], &[0x61, 0x00], &[0x61, 0x00, 0x00], &[0x61, 0x00, 0x00, 0x03, 0x00]] {
        assert_eq!(second_stream(&[last], 64), Err(refused(32, 0)), "{last:?}");
    }
    // Two zeros at a unit's start are not joined to the start code or to the unit before.
    assert_eq!(second_stream(&[&[0x00, 0x03], &[0x00, 0x00, 0x61]], 64).map(|stream| stream.len()), Ok(13));
}

/// Request [2]: the place is that of the length in the resolved output; 32 comes after 28 and before 29.
#[test]
fn byte_stream_refused() {
    let bad: &[u8] = &[0x61, 0x00];
    assert_eq!(second_stream(&[&[0x61, 0x62, 0x63], bad, bad], 64), Err(refused(32, 7)));
    assert_eq!(second_stream(&[&[0x61, 0x62, 0x63], bad, bad], 0), Err(refused(32, 7)));
    // The unit that cannot stand in a stream is copied from sample 1.
    let copy = extractor(1, 0, 0, 0);
    assert_eq!(second_stream(&[&[0x61], &copy[1..]], 64), Err(refused(32, 5)));
    // A refused extractor after it comes first.
    let no_reference = extractor(2, 0, 0, 0);
    assert_eq!(second_stream(&[bad, &no_reference[1..]], 64), Err(refused(23, 3)));
    assert_eq!(stream_of(&b0(), 6), Ok(vec![0, 0, 0, 1, 0x65, 0x88]));
    let mut out = [0; 64];
    assert_eq!(calls::stream_sample(&b0(), 3, &mut out), refused(30, 0));
    assert_eq!(calls::stream_sample(&b0()[..15], 2, &mut out), refused(2, 11));
}

/// Request [3]: what a byte stream is read as, in a buffer of `room` bytes, or the refusal.
fn from_stream(size: u32, stream: &[u8], room: usize) -> Result<Vec<u8>, Answer> {
    let mut out = vec![0xEE; room];
    let answer = calls::sample_from_stream(size, stream, &mut out);
    assert!(out[answer.count as usize..].iter().all(|&byte| byte == 0xEE));
    match answer.number {
        0 => Ok(out[..answer.count as usize].to_vec()),
        _ => Err(answer),
    }
}

/// Request [3]: start codes of three and four bytes, zeros before and after units, zeros at a unit's start.
#[test]
fn byte_stream_in() {
    let stream = [0, 0, 0, 0, 0, 1, 0x65, 0, 0, 1, 0, 0, 0x61, 0, 1, 0, 0, 0, 1, 0, 0, 3, 0, 0, 0];
    let sample = |size: usize| {
        let length = |length| [&[0; 3][..size - 1], &[length]].concat();
        [&length(1)[..], &[0x65], &length(5), &[0, 0, 0x61, 0, 1], &length(3), &[0, 0, 3]].concat()
    };
    for (size, room) in [(1, 12), (2, 15), (4, 21)] {
        for less in 0..=3 {
            assert_eq!(from_stream(size, &stream[..stream.len() - less], 64), Ok(sample(size as usize)));
        }
        assert_eq!(from_stream(size, &stream, room), Ok(sample(size as usize)));
        assert_eq!(from_stream(size, &stream, room - 1), Err(refused(29, 0)));
        for zeros in 0..9 {
            assert_eq!(from_stream(size, &[0; 9][..zeros], 0), Ok(Vec::new()));
        }
    }
    for size in [0, 3, 5, 8, 257, u32::MAX] {
        assert_eq!(from_stream(size, &stream, 64), Err(refused(11, 0)));
        assert_eq!(from_stream(size, &[0x65], 0), Err(refused(11, 0)));
    }
}

/// Request [3]: 33 and 34 with their places, the first of them, and then 29.
#[test]
fn byte_stream_in_refused() {
    let cases: [(&[u8], u64); 14] = [
        (&[0x65], 0),
        (&[0, 1, 0x65], 1),
        (&[0, 0, 0, 2, 0, 0, 1, 0x65], 3),
        (&[0, 0, 1], 2),
        (&[0, 0, 0, 1, 0, 0], 3),
        (&[0, 0, 1, 0, 0, 1, 0x65], 2),
        (&[0, 0, 1, 0x65, 0, 0, 0, 1], 7),
        (&[0, 0, 1, 0, 0, 0, 5], 6),
        (&[0, 0, 1, 0x65, 0, 0, 0, 0, 2], 8),
        (&[0, 0, 1, 0x65, 0, 0, 2, 0], 6),
        (&[0, 0, 1, 0, 0, 2], 5),
        (&[0, 0, 1, 0x65, 0, 0, 2, 0, 0, 1], 6),
        (&[0, 0, 1, 0x65, 0, 0, 0, 5, 0, 0, 2], 7),
        (&[0, 0, 1, 0x65, 0, 0, 1, 0, 0, 1, 0x65, 0, 0, 2], 6),
    ];
    for (stream, place) in cases {
        for room in [0, 64] {
            assert_eq!(from_stream(1, stream, room), Err(refused(33, place)), "{stream:?}");
        }
    }
    for (size, most) in [(1, 255), (2, 65535)] {
        let stream = |unit: &[u8], after: &[u8]| [&[0, 0, 1, 0x61, 0, 0, 1], unit, after].concat();
        let (fits, long) = (vec![0x65; most], vec![0x65; most + 1]);
        let length = |unit: &[u8]| from_stream(size, unit, 1 << 17).map(|sample| sample.len());
        assert_eq!(length(&stream(&fits, &[0; 5])), Ok(2 * size as usize + 1 + most));
        assert_eq!(length(&stream(&long, &[])), Err(refused(34, 7)));
        assert_eq!(length(&stream(&long, &[0, 0, 2])), Err(refused(34, 7)));
        assert_eq!(length(&stream(&long, &[0, 0, 1])), Err(refused(34, 7)));
        assert_eq!(length(&stream(&fits, &[0, 0, 2])), Err(refused(34, 7)));
        assert_eq!(length(&[&[0, 0, 1, 0x61, 0, 0, 2], &stream(&long, &[])[..]].concat()), Err(refused(33, 6)));
        assert_eq!(from_stream(size, &stream(&long, &[]), 0), Err(refused(34, 7)));
    }
}

/// Request [3]: what [2] wrote comes back as the same units.
#[test]
fn byte_stream_there_and_back() {
    let units: [&[u8]; 3] = [&[0x00, 0x00, 0x03, 0x00, 0x65], &[0x61], &[0x00, 0x01]];
    let stream = second_stream(&units, 64).unwrap();
    let sample: Vec<u8> = units.iter().flat_map(|unit| [&[unit.len() as u8], *unit].concat()).collect();
    assert_eq!(from_stream(1, &stream, 64), Ok(sample));
}

/// Request [4]: an aggregator of two units that covers a third, another aggregator of two units, a last unit.
const AGGREGATORS: [u8; 29] = [
    0x0C, 0x7E, 0x80, 0x00, 0x03, 0x02, 0x02, 0x67, 0x88, 0x03, 0x06, 0x9A, 0x0F, 0x01, 0x09, 0x0B, 0x7E, 0x80, 0x00,
    0x03, 0x00, 0x02, 0x68, 0xEE, 0x02, 0x06, 0x05, 0x01, 0x0C,
];

/// Where a copy ends that starts at `offset`, or the refusal.
fn end_of_copy(offset: usize, length: usize) -> Result<usize, u32> {
    let top_level: &[usize] = &[0, 13, 15, 27, 29];
    let rows = [top_level, &[6, 9, 13], &[21, 24, 27]];
    let row = rows.iter().find(|row| row[..row.len() - 1].contains(&offset)).ok_or(26u32)?;
    let mut after = row.iter().copied().filter(|&border| border > offset);
    match (offset, length) {
        // What the first aggregator covers, too.
        (0, 0) => Ok(15),
        (_, 0) => Ok(after.next().unwrap()),
        _ => after.find(|&border| border == offset + length).ok_or(27),
    }
}

/// Request [4]: from every data_offset, every data_length.
#[test]
fn included_starts() {
    let units = [(6, 9), (9, 13), (13, 15), (21, 24), (24, 27), (27, 29)];
    for (offset, length) in (0..=30).flat_map(|offset| (0..=31).map(move |length| (offset, length))) {
        let expected = match end_of_copy(offset, length) {
            Err(number) => Err(refused(number, 0)),
            Ok(end) => Ok(units
                .iter()
                .filter(|unit| offset <= unit.0 && unit.1 <= end)
                .flat_map(|&(place, end)| [&[0, 0, 0], &AGGREGATORS[place..end]].concat())
                .collect::<Vec<u8>>()),
        };
        let given = second(&with_samples(&AGGREGATORS, &extractor(1, 0, offset as u8, length as u8)));
        assert_eq!(given, expected, "data_offset {offset}, data_length {length}");
    }
}

/// Request [4]: an included extractor is 28 where it is copied, after 27; an aggregator's end starts no included unit.
#[test]
fn included_starts_refused() {
    let head = |length, additional| [length, 0x7E, 0x80, 0x00, 0x03, additional];
    let sample = [&head(0x11, 0)[..], &[0x02, 0x67, 0x88], &extractor(1, 0, 0, 0)].concat();
    let case = |offset, length| second(&with_samples(&sample, &extractor(1, 0, offset, length)));
    assert_eq!(case(6, 0), Ok(vec![0, 0, 0, 2, 0x67, 0x88]));
    assert_eq!(case(6, 3), Ok(vec![0, 0, 0, 2, 0x67, 0x88]));
    assert_eq!(case(6, 12), Err(refused(28, 0)));
    assert_eq!(case(6, 11), Err(refused(27, 0)));
    assert_eq!(case(9, 0), Err(refused(28, 0)));
    assert_eq!(case(9, 9), Err(refused(28, 0)));
    assert_eq!(case(9, 8), Err(refused(27, 0)));
    assert_eq!(case(10, 8), Err(refused(26, 0)));
    assert_eq!(case(18, 0), Err(refused(26, 0)));
    // One that includes nothing, before a unit and at the end.
    let case = |sample: &[u8], offset| second(&with_samples(sample, &extractor(1, 0, offset, 0)));
    assert_eq!(case(&[&head(5, 0)[..], &[0x01, 0x67]].concat(), 6), Ok(vec![0, 0, 0, 1, 0x67]));
    assert_eq!(case(&head(5, 0), 6), Err(refused(26, 0)));
}

#[test]
fn m10_to_m12() {
    let mut fields = [0; calls::FIELD_COUNT];
    assert_eq!(calls::read_record(0, &M10, &mut fields), Answer::default());
    assert_eq!(fields, [100, 0, 30, 0, 4, 0, 6, 0, 0, 7, 0, 2, 1, 0, 0, 0, 11, 0]);
    let m11 = [0x01, 0x42, 0x00, 0x1E, 0xFE, 0xE0, 0x00];
    assert_eq!(calls::read_record(0, &m11, &mut fields), refused(11, 0));
    assert_eq!(fields[0], 100);
    assert_eq!(calls::check_sample(1, 1, &[0x00]), refused(16, 0));
    assert_eq!(calls::check_sample(1, 1, &[0x02, 0x65]), refused(15, 0));
    assert_eq!(calls::check_sample(1, 1, &[0x01, 0xE5]), refused(17, 0));
    assert_eq!(calls::check_sample(1, 1, &[0x03, 0x7F, 0x80, 0x00]), refused(18, 0));
    assert_eq!(calls::check_sample(1, 2, &[0x00]), refused(14, 0));
}

/// Own time 5 and linked times 0, 4, 6: offsets 0, 1, -1 name 4, 6, 0; -2 is 24.
#[test]
fn times() {
    let mut head = B0_HEAD[..24].to_vec();
    head.extend_from_slice(&[0, 4]);
    for (track, time, length) in [(1, 0, 2), (1, 4, 2), (1, 6, 2), (2, 5, 9)] {
        head.extend_from_slice(&[track, 0, 0, 0, 0, 0, 0, 0, time, 0, 0, 0, length]);
    }
    head.extend_from_slice(&[0, 0, 0, 15, 1, 0x61, 1, 0x62, 1, 0x63]);
    let case = |offset| {
        let mut out = [0; 5];
        let bundle = [&head[..], &extractor(1, offset, 0, 0)].concat();
        let answer = calls::resolve_sample(&bundle, 4, &mut out);
        (answer.number, out[4])
    };
    assert_eq!(case(0), (0, 0x62));
    assert_eq!(case(1), (0, 0x63));
    assert_eq!(case(-1), (0, 0x61));
    assert_eq!(case(-2), (24, 0));
}
