//! Bundles audited with the library and the peer in turn: `bench audit [ROUNDS]`.
//!
//! Document 02's bundle, 16 MiB with 4,096 samples, a quarter and a sixteenth of both; then the hostile ones, also of a
//! 64th. Small ones come first, in more rounds. All lines and tallies are compared with what the bundle was made to
//! give. The slice for the lines is written to before each call.
//!
//! The peer has two audits. Both check each sample's form once. The plain one walks a named sample from its front to
//! find data_offset; the other keeps where all top-level units start, on the heap, and looks data_offset up. On hostile
//! bundles both take time that grows with the square of the size. Who would take too long is left out: `-`.

use peer::audit::{audit_with_starts, Tally};
use puddockle::LINE;

use crate::turns::{in_turn, ratio, running, shown, Greatest, Times};
use crate::{bundle, hostile, settings, timed, MIB};

pub const FULL: usize = 16 * MIB;
pub const SIZES: [usize; 4] = [FULL / 64, FULL / 16, FULL / 4, FULL];

/// A bundle, how many extractors it has, and the lines that its audit must write.
pub struct Made {
    pub bundle: Vec<u8>,
    pub extractors: usize,
    pub lines: Vec<u8>,
}

/// The line of a sample that passed.
pub fn passed(units: u64) -> [u8; LINE] {
    let mut line = [0; LINE];
    line[5..].copy_from_slice(&units.to_be_bytes());
    line
}

/// The line of a refused sample.
pub fn refused(number: u8, place: usize) -> [u8; LINE] {
    let mut line = [0; LINE];
    line[0] = number;
    line[1..5].copy_from_slice(&(place as u32).to_be_bytes());
    line
}

/// An audit: passed, empty and refused.
type Audit = fn(&[u8], &mut [u8]) -> [u64; 3];

/// The library, the peer, and the peer that keeps starts.
const SIDES: [Audit; 3] = [
    |bundle, lines| {
        let tally = puddockle::audit(bundle, lines).expect("accepted").tally;
        [tally.passed, tally.empty, tally.refused]
    },
    |bundle, lines| numbers(peer::audit::audit(bundle, lines).expect("accepted").1),
    |bundle, lines| numbers(audit_with_starts(bundle, lines).expect("accepted").1),
];

fn numbers(tally: Tally) -> [u64; 3] {
    [tally.passed, tally.empty, tally.refused]
}

pub fn run(rounds: usize) {
    println!("audit, best of {rounds} rounds at 16 MiB, in turn, one thread");
    settings();
    println!(
        "bundle                           bytes  samples  extractors  library ms  growth     peer ms  library/peer  \
         starts kept ms  library/starts kept"
    );
    let mut greatest: [Greatest; 3] = Default::default();
    series("document 02", &SIZES[1..], document, rounds, &mut greatest);
    for (name, make) in hostile::KINDS {
        series(name, &SIZES, make, rounds, &mut greatest);
    }
    let what = ["growth for four times the size", "library/peer", "library/starts kept"];
    for (what, Greatest { figure, whence }) in what.iter().zip(greatest) {
        println!("greatest {what}: {figure:.2} ({whence})");
    }
}

/// Document 02's bundle. What it gives the peer says, and all samples are good.
pub fn document(size: usize) -> Made {
    let samples = size / 4096;
    let bundle = bundle::make(size, samples);
    let mut lines = vec![0; samples * LINE];
    let tally = audit_with_starts(&bundle, &mut lines).expect("accepted").1;
    assert_eq!(numbers(tally), [samples as u64, 0, 0]);
    Made { bundle, extractors: (samples - 3) * bundle::EXTRACTORS, lines }
}

/// A bundle in all its sizes, a line for each.
fn series(name: &str, sizes: &[usize], make: fn(usize) -> Made, rounds: usize, greatest: &mut [Greatest; 3]) {
    let mut before: Vec<Times> = Vec::new();
    for &size in sizes {
        let made = make(size);
        let best = measure(&made, running(&before), rounds.max(1) * FULL / size);
        let [library, peer, kept] = best;
        let growth = ratio(library, before.last().and_then(|times| times[0]));
        let ratios = [growth, ratio(library, peer), ratio(library, kept)];
        println!(
            "{name:28}  {size:8}  {:7}  {:10}  {:>10}  {:>6}  {:>10}  {:>12}  {:>14}  {:>19}",
            made.lines.len() / LINE,
            made.extractors,
            shown(library),
            shown(ratios[0]),
            shown(peer),
            shown(ratios[1]),
            shown(kept),
            shown(ratios[2])
        );
        for (greatest, ratio) in greatest.iter_mut().zip(ratios) {
            greatest.note(ratio, name, size);
        }
        before.push(best);
    }
}

/// The sides in turn; the lines are compared each time.
fn measure(made: &Made, running: [bool; 3], rounds: usize) -> Times {
    let tally = tally(&made.lines);
    let mut lines = vec![0; made.lines.len()];
    in_turn(running, rounds, |side| {
        lines.fill(0xEE);
        let (time, given) = timed(|| SIDES[side](&made.bundle, &mut lines));
        assert_eq!(given, tally, "side {side}: another tally");
        assert!(lines == made.lines, "side {side}: other lines");
        time
    })
}

/// What lines without empty samples add up to.
fn tally(lines: &[u8]) -> [u64; 3] {
    let refused = lines.chunks_exact(LINE).filter(|line| line[0] != 0).count() as u64;
    [(lines.len() / LINE) as u64 - refused, 0, refused]
}
