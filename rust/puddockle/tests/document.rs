//! Document 01's bench bundle B0 and some of its neighbours, through the safe functions.

use puddockle::*;

const B0_HEAD: [u8; 56] = [
    0x02, 0x00, 0x00, 0x07, 0x01, 0x42, 0x00, 0x1E, 0xFC, 0xE0, 0x00, 0x01, 0x00, 0x07, 0x01, 0x53, 0x00, 0x1E, 0xFC,
    0x00, 0x00, 0x01, 0x02, 0x01, 0x00, 0x02, 0x01, 0, 0, 0, 0, 0, 0, 0, 0, 0, 0, 0, 3, 0x02, 0, 0, 0, 0, 0, 0, 0, 0,
    0, 0, 0, 9, 0, 0, 0, 0x0C,
];
const ONE_UNIT: [u8; 3] = [0x02, 0x65, 0x88];
const RESOLVED: [u8; 6] = [0, 0, 0, 2, 0x65, 0x88];

/// B0 with these bytes of its two samples.
fn bundle(first: &[u8], second: &[u8]) -> Vec<u8> {
    let mut head = B0_HEAD;
    head[38] = first.len() as u8;
    head[51] = second.len() as u8;
    head[55] = (first.len() + second.len()) as u8;
    [&head, first, second].concat()
}

fn extractor(index: u8, offset: i8, data_offset: u8, data_length: u8) -> [u8; 9] {
    [0x08, 0x7F, 0x80, 0x00, 0x03, index, offset as u8, data_offset, data_length]
}

fn b0() -> Vec<u8> {
    bundle(&ONE_UNIT, &extractor(1, 0, 0, 0))
}

/// What sample 2 resolves to; nothing past the count is changed, nothing at all on a refusal.
fn second(bundle: &[u8]) -> Result<Vec<u8>, Refusal> {
    let mut out = [0xEE; 64];
    let result = resolve(bundle, SampleNumber(2), &mut out);
    assert!(out[result.unwrap_or(0)..].iter().all(|&byte| byte == 0xEE));
    result.map(|count| out[..count].to_vec())
}

fn refused<T>(number: u32, place: u64) -> Result<T, Refusal> {
    Err(Refusal { number, place })
}

#[test]
fn b0_is_accepted_and_cut_is_not() {
    assert_eq!(check_bundle(&b0()), Ok(()));
    assert_eq!(check_bundle(&b0()[..15]), refused(2, 11));
    assert_eq!(check_bundle(&[]), refused(2, 0));
}

#[test]
fn b0_resolves() {
    assert_eq!(second(&b0()), Ok(RESOLVED.to_vec()));
    assert_eq!(resolve(&b0(), SampleNumber(2), &mut [0; 5]), refused(29, 0));
    assert_eq!(resolve(&b0(), SampleNumber(0), &mut []), refused(30, 0));
    assert_eq!(resolve(&b0(), SampleNumber(1 << 32 | 1), &mut [0; 64]), refused(30, 0));
}

/// The byte stream of sample 2; nothing past the count is changed, nothing at all on a refusal.
fn second_stream(bundle: &[u8], room: usize) -> Result<Vec<u8>, Refusal> {
    let mut out = [0xEE; 64];
    let result = stream(bundle, SampleNumber(2), &mut out[..room]);
    assert!(out[result.unwrap_or(0)..].iter().all(|&byte| byte == 0xEE));
    result.map(|count| out[..count].to_vec())
}

#[test]
fn b0_stream() {
    assert_eq!(second_stream(&b0(), 6), Ok(vec![0, 0, 0, 1, 0x65, 0x88]));
    assert_eq!(second_stream(&b0(), 5), refused(29, 0));
    assert_eq!(stream(&b0(), SampleNumber(3), &mut [0; 64]), refused(30, 0));
    assert_eq!(second_stream(&b0()[..15], 64), refused(2, 11));
    // The unit that ends in 00 is copied, after a good one of 4 bytes; 00 00 03 is good.
    let own = [0x04, 0x00, 0x00, 0x03, 0x61];
    let copying = [&own[..], &extractor(1, 0, 0, 0)].concat();
    assert_eq!(second_stream(&bundle(&[0x02, 0x65, 0x00], &copying), 0), refused(32, 8));
    assert_eq!(second_stream(&bundle(&ONE_UNIT, &copying), 64).map(|stream| stream.len()), Ok(14));
    let no = second_stream(&bundle(&ONE_UNIT, &[0x03, 0x00, 0x00, 0x02]), 64).unwrap_err();
    assert_eq!(no.to_string(), "refused 32 at 0: a unit cannot stand in a byte stream");
}

#[test]
fn b0_unit_is_a_part_of_the_bundle() {
    let bundle = b0();
    let part = unit(&bundle, SampleNumber(2), UnitNumber(1)).unwrap();
    assert_eq!(part, [0x65, 0x88]);
    assert_eq!(part.as_ptr(), bundle[57..].as_ptr());
    assert_eq!(unit(&bundle, SampleNumber(2), UnitNumber(2)), refused(30, 0));
    assert_eq!(unit(&bundle, SampleNumber(2), UnitNumber(0)), refused(30, 0));
}

#[test]
fn b0_names() {
    let mut out = [0xEE; 8];
    let list = names(&b0(), SampleNumber(1), &mut out).unwrap();
    assert_eq!(list.bytes, [0, 2, 0, 0, 0, 0]);
    let expected = NamesEntry { sample: SampleNumber(2), place: 0 };
    assert_eq!(list.entries().collect::<Vec<_>>(), [expected]);
    assert_eq!(out[6..], [0xEE; 2]);
    assert_eq!(names(&b0(), SampleNumber(2), &mut []).unwrap().bytes, []);
    assert_eq!(names(&b0(), SampleNumber(1), &mut [0; 5]).unwrap_err().number, 29);
}

#[test]
fn b0_audit() {
    let mut lines = [0xEE; 30];
    let both = bundle(&ONE_UNIT, &extractor(1, 0, 1, 0));
    let audited = audit(&both, &mut lines).unwrap();
    assert_eq!(audited.tally, Tally { passed: 1, empty: 0, refused: 1 });
    let expected = [
        AuditLine { outcome: Outcome::Passed, units: 1 },
        AuditLine { outcome: Outcome::Refused(Refusal { number: 26, place: 0 }), units: 0 },
    ];
    assert_eq!(audited.lines().collect::<Vec<_>>(), expected);
    assert_eq!(lines[26..], [0xEE; 4]);
    assert_eq!(audit(&both, &mut [0; 25]).unwrap_err().number, 29);
}

#[test]
fn extractor_cases() {
    let case = |e: [u8; 9]| second(&bundle(&ONE_UNIT, &e));
    assert_eq!(case(extractor(1, 0, 0, 3)), Ok(RESOLVED.to_vec()));
    assert_eq!(case(extractor(1, 0, 0, 2)), refused(27, 0));
    assert_eq!(case(extractor(1, 0, 1, 9)), refused(26, 0));
    assert_eq!(case(extractor(2, 0, 0, 0)), refused(23, 0));
    assert_eq!(case(extractor(1, -1, 0, 0)), refused(24, 0));
}

#[test]
fn aggregator_cases() {
    let included = [0x08, 0x7E, 0x80, 0x00, 0x03, 0x00, 0x02, 0x65, 0x88];
    assert_eq!(second(&bundle(&[], &included)), Ok(RESOLVED.to_vec()));
    assert_eq!(check_sample(Kind::Svc, LengthSize::One, &included), Ok(()));
    assert_eq!(check_sample(Kind::Avc, LengthSize::One, &included), refused(20, 6));
    let covering = |additional| [0x05, 0x7E, 0x80, 0x00, 0x03, additional, 0x02, 0x65, 0x88];
    assert_eq!(second(&bundle(&[], &covering(3))), Ok(RESOLVED.to_vec()));
    assert_eq!(second(&bundle(&[], &covering(2))), refused(21, 0));
    let case = |length| second(&bundle(&covering(3), &extractor(1, 0, 0, length)));
    assert_eq!(case(0), Ok(RESOLVED.to_vec()));
    assert_eq!(case(6), Ok(Vec::new()));
    assert_eq!(case(9), Ok(RESOLVED.to_vec()));
}

/// Request [4]: starts at included units of an aggregator that covers a third unit; an included extractor.
#[test]
fn included_starts() {
    let covering = [0x0C, 0x7E, 0x80, 0x00, 0x03, 0x02, 0x02, 0x67, 0x88, 0x03, 0x06, 0x9A, 0x0F, 0x01, 0x09];
    let case = |offset, length| second(&bundle(&covering, &extractor(1, 0, offset, length)));
    let (first, both) = (vec![0, 0, 0, 2, 0x67, 0x88], vec![0, 0, 0, 2, 0x67, 0x88, 0, 0, 0, 3, 0x06, 0x9A, 0x0F]);
    assert_eq!(case(6, 0), Ok(first.clone()));
    assert_eq!(case(6, 3), Ok(first.clone()));
    assert_eq!(case(6, 7), Ok(both.clone()));
    assert_eq!(case(9, 0), Ok(both[6..].to_vec()));
    assert_eq!(case(0, 0), Ok([&both[..], &[0, 0, 0, 1, 0x09]].concat()));
    // Past the aggregator's end, beside a border, and from a top-level start to an included border.
    for (offset, length) in [(6, 9), (9, 6), (6, 4), (0, 9)] {
        assert_eq!(case(offset, length), refused(27, 0), "{offset} {length}");
    }
    for offset in [1, 5, 7, 8, 12, 15] {
        assert_eq!(case(offset, 0), refused(26, 0), "{offset}");
    }
    let copied = bundle(&covering, &extractor(1, 0, 9, 0));
    let part = unit(&copied, SampleNumber(2), UnitNumber(1)).unwrap();
    assert_eq!((part, part.as_ptr()), (&[0x06, 0x9A, 0x0F][..], copied[66..].as_ptr()));
    let extracting = [&[0x11, 0x7E, 0x80, 0x00, 0x03, 0x00, 0x02, 0x67, 0x88][..], &extractor(1, 0, 0, 0)].concat();
    let case = |offset, length| second(&bundle(&extracting, &extractor(1, 0, offset, length)));
    assert_eq!(case(6, 3), Ok(first));
    assert_eq!(case(9, 0), refused(28, 0));
    assert_eq!(case(6, 12), refused(28, 0));
    assert_eq!(case(9, 8), refused(27, 0));
}

#[test]
fn samples_that_are_not_well_formed() {
    let check = |size, sample: &[u8]| check_sample(Kind::Svc, size, sample);
    assert_eq!(check(LengthSize::One, &[0x00]), refused(16, 0));
    assert_eq!(check(LengthSize::One, &[0x02, 0x65]), refused(15, 0));
    assert_eq!(check(LengthSize::One, &[0x01, 0xE5]), refused(17, 0));
    assert_eq!(check(LengthSize::One, &[0x03, 0x7F, 0x80, 0x00]), refused(18, 0));
    assert_eq!(check(LengthSize::Two, &[0x00]), refused(14, 0));
    assert_eq!(check(LengthSize::Four, &[]), Ok(()));
}

/// M10 with its trailer; its first half is the first seven bytes.
const M10: [u8; 11] = [0x01, 0x64, 0x00, 0x1E, 0xFF, 0xE0, 0x00, 0xFD, 0xF8, 0xF8, 0x00];

#[test]
fn trailer_absent_is_read() {
    for profile in [100, 110, 122, 144] {
        let mut record = M10;
        record[1] = profile;
        let read = read_record(Kind::Avc, &record[..7]).unwrap();
        assert_eq!((read.profile, read.trailer), (profile as u64, Trailer::Absent));
        for length in (0..7).chain(8..11) {
            assert_eq!(read_record(Kind::Avc, &record[..length]), refused(8, 0), "{length} bytes");
        }
    }
    // Sets before it stand where they are; wrong fixed bits in a trailer's only byte are 10.
    let sets = [0x01, 0x6E, 0x00, 0x1E, 0xFC, 0xE1, 0x00, 0x02, 0x67, 0x09, 0x01, 0x00, 0x01, 0x68, 0x00];
    let read = read_record(Kind::Avc, &sets[..14]).unwrap();
    assert_eq!((read.sequence.bytes, read.picture.bytes), (&sets[6..10], &sets[11..14]));
    assert_eq!((read.sequence.count, read.picture.count, read.trailer), (1, 1, Trailer::Absent));
    assert_eq!(read_record(Kind::Avc, &sets), refused(10, 0));
    // No trailer belongs to other profiles, nor to an SVC record.
    assert_eq!(read_record(Kind::Avc, &B0_HEAD[4..11]).unwrap().trailer, Trailer::None);
    let svc = [0x01, 0x64, 0x00, 0x1E, 0x7F, 0x00, 0x00];
    assert_eq!(read_record(Kind::Svc, &svc).unwrap().trailer, Trailer::None);
}

#[test]
fn trailer_in_words() {
    let words = |kind, record: &[u8]| read_record(kind, record).unwrap().trailer.to_string();
    assert_eq!(words(Kind::Avc, &B0_HEAD[4..11]), "no trailer");
    assert_eq!(words(Kind::Avc, &M10[..7]), "trailer absent");
    assert_eq!(words(Kind::Avc, &M10), "trailer: chroma_format 1, luma depth 8, chroma depth 8, extension sets 0");
}

#[test]
fn trailer_absent_is_written() {
    let record = read_record(Kind::Avc, &M10[..7]).unwrap();
    let mut out = [0xEE; 16];
    assert_eq!(write_record(Kind::Avc, &record, &mut out[..6]), refused(29, 0));
    // Absent where none belongs, and neither said nor there where one belongs.
    assert_eq!(write_record(Kind::Svc, &record, &mut out), refused(31, 0));
    assert_eq!(write_record(Kind::Avc, &Record { profile: 66, ..record }, &mut out), refused(31, 0));
    assert_eq!(write_record(Kind::Avc, &Record { trailer: Trailer::None, ..record }, &mut out), refused(31, 0));
    assert_eq!(out, [0xEE; 16]);
    assert_eq!(write_record(Kind::Avc, &record, &mut out), Ok(7));
    assert_eq!((&out[..7], &out[7..]), (&M10[..7], &[0xEE; 9][..]));
    assert_eq!(read_record(Kind::Avc, &out[..7]), Ok(record));
}

#[test]
fn trailer_absent_in_a_bundle() {
    let mut bundle = b0();
    bundle[5] = 100;
    assert_eq!(check_bundle(&bundle), Ok(()));
    assert_eq!(second(&bundle), Ok(RESOLVED.to_vec()));
    assert_eq!(unit(&bundle, SampleNumber(2), UnitNumber(1)), Ok(&bundle[57..59]));
    assert_eq!(names(&bundle, SampleNumber(1), &mut [0; 6]).unwrap().bytes, [0, 2, 0, 0, 0, 0]);
    assert_eq!(audit(&bundle, &mut [0; 2 * LINE]).unwrap().tally, Tally { passed: 2, empty: 0, refused: 0 });
    // One trailer byte in the record of the first track.
    bundle[3] = 8;
    bundle.insert(11, 0xFD);
    assert_eq!(check_bundle(&bundle), refused(8, 1));
    assert_eq!(second(&bundle), refused(8, 1));
}

#[test]
fn records() {
    let high = M10;
    assert_eq!(read_record(Kind::Avc, &[0x01, 0x42, 0x00, 0x1E, 0xFE, 0xE0, 0x00]), refused(11, 0));
    let mut record = read_record(Kind::Avc, &high).unwrap();
    assert_eq!((record.profile, record.level, record.length_size), (100, 30, LengthSize::Four));
    let mut out = [0xEE; 16];
    assert_eq!(write_record(Kind::Avc, &record, &mut out), Ok(11));
    assert_eq!((&out[..11], &out[11..]), (&high[..], &[0xEE; 5][..]));
    assert_eq!(write_record(Kind::Avc, &record, &mut [0; 10]), refused(29, 0));
    record.trailer = Trailer::None;
    assert_eq!(write_record(Kind::Avc, &record, &mut out), refused(31, 0));
    record.profile = 256 + 66;
    assert_eq!(write_record(Kind::Avc, &record, &mut out), refused(31, 0));
    let svc = [0x01, 0x53, 0x00, 0x1E, 0xFC, 0x01, 0x00, 0x01, 0x6F, 0x00];
    let record = read_record(Kind::Svc, &svc).unwrap();
    assert!(record.complete_representation);
    assert_eq!(record.sequence.iter().collect::<Vec<_>>(), [&[0x6F]]);
    assert_eq!((write_record(Kind::Svc, &record, &mut out), &out[..10]), (Ok(10), &svc[..]));
}
