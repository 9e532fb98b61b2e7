//! Byte streams: units after start codes, zeros before and after them.

use crate::random::Random;

const START_CODE: [u8; 3] = [0, 0, 1];

/// A byte stream, good or damaged, or bytes that only look like one.
pub fn make_stream(random: &mut Random) -> Vec<u8> {
    if random.once_in(4) {
        return few_values(random);
    }
    let mut stream = Vec::new();
    let units = if random.once_in(30) { 60 } else { random.below(6) };
    let zeros = random.pick(&[0, 0, 1, 1, 2, 5]);
    stream.resize(zeros, 0);
    for _ in 0..units {
        stream.extend(START_CODE);
        stream.extend(unit(random));
        let zeros = random.pick(&[0, 0, 0, 1, 1, 1, 2, 4]);
        stream.resize(stream.len() + zeros, 0);
    }
    while random.once_in(2) {
        spoil(random, &mut stream);
    }
    stream
}

/// Random bytes of few values, often after a start code.
fn few_values(random: &mut Random) -> Vec<u8> {
    let mut stream = if random.once_in(2) { START_CODE.to_vec() } else { Vec::new() };
    for _ in 0..random.below(30) {
        stream.push(random.pick(&[0, 0, 0, 1, 1, 2, 3, 0x80]));
    }
    stream
}

/// A good unit, mostly short, sometimes of a length near 256, seldom near 65,536.
fn unit(random: &mut Random) -> Vec<u8> {
    let length = match random.below(1000) {
        0 => random.between(65534, 65537),
        1..=80 => random.between(254, 257),
        _ => random.between(1, 9),
    };
    let mut unit: Vec<u8> = Vec::new();
    for _ in 0..length {
        let byte = random.pick(&[0, 0, 0, 0, 1, 2, 3, 0x65, 0x80, 0xFF]);
        unit.push(if byte < 3 && unit.ends_with(&[0, 0]) { 3 } else { byte });
    }
    if unit.ends_with(&[0]) {
        unit[length - 1] = 0x80;
    }
    unit
}

/// Puts in, takes out or changes some bytes: often what makes, breaks or empties a unit.
fn spoil(random: &mut Random, stream: &mut Vec<u8>) {
    let at = random.below(stream.len() + 1);
    let put_in: &[u8] = match random.below(10) {
        0 => &[0, 0, 1],
        1 => &[0, 0, 2],
        2 => &[0, 0, 0, 2],
        3 => &[0, 0, 0, 3],
        4 => &[0],
        5 => &[1],
        6 => &[0, 0, 0],
        7 => &[0x80],
        8 => {
            let end = (at + random.between(1, 4)).min(stream.len());
            stream.drain(at..end);
            return;
        }
        _ => return random.damage(stream),
    };
    stream.splice(at..at, put_in.iter().copied());
}
