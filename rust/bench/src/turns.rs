//! Three sides timed in turn, on a bundle of several sizes. Who would take too long is left out: `-`.

use std::time::Duration;

/// A side is left out if it would take longer, in milliseconds, by what it took of the next smaller size.
const LIMIT: f64 = 20_000.0;
/// Where that is not known, four times the size is taken to need so many times the time.
const SQUARE: f64 = 16.0;
/// A side that took so long in all, at one size, has had its rounds.
const PATIENCE: Duration = Duration::from_secs(2);

/// Best times in milliseconds, of those that were run.
pub type Times = [Option<f64>; 3];

/// The greatest figure so far, and where it came from.
#[derive(Default)]
pub struct Greatest {
    pub figure: f64,
    pub whence: String,
}

impl Greatest {
    pub fn note(&mut self, figure: Option<f64>, name: &str, size: usize) {
        if let Some(figure) = figure.filter(|&figure| figure > self.figure) {
            *self = Greatest { figure, whence: format!("{name}, {size} bytes") };
        }
    }
}

pub fn ratio(of: Option<f64>, to: Option<f64>) -> Option<f64> {
    Some(of? / to?)
}

pub fn shown(figure: Option<f64>) -> String {
    figure.map_or("-".to_string(), |figure| format!("{figure:.2}"))
}

/// Which sides are run at the next size, by their times at those before.
pub fn running(before: &[Times]) -> [bool; 3] {
    let Some(last) = before.last() else { return [true; 3] };
    let earlier = before.len().checked_sub(2).map_or([None; 3], |index| before[index]);
    [0, 1, 2].map(|side| {
        let growth = ratio(last[side], earlier[side]).unwrap_or(SQUARE);
        last[side].is_some_and(|time| time * growth < LIMIT)
    })
}

/// The sides in turn, till each has had its rounds. `call` runs one and answers how long it took.
pub fn in_turn(running: [bool; 3], rounds: usize, mut call: impl FnMut(usize) -> Duration) -> Times {
    let mut best = [Duration::MAX; 3];
    let mut spent = [Duration::ZERO; 3];
    for _ in 0..rounds {
        for side in (0..3).filter(|&side| running[side]) {
            if spent[side] < PATIENCE {
                let time = call(side);
                best[side] = best[side].min(time);
                spent[side] += time;
            }
        }
    }
    [0, 1, 2].map(|side| running[side].then_some(best[side].as_secs_f64() * 1000.0))
}
