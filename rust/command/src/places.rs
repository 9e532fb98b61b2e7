//! Which sample a part of the bundle lies in.

use puddockle::{counts, sample, Refusal, SampleNumber};

/// Where samples start, as far as it was asked. They lie one after the other, in order of number.
pub struct Places<'a> {
    bundle: &'a [u8],
    starts: Vec<Option<usize>>,
}

impl<'a> Places<'a> {
    pub fn of(bundle: &'a [u8]) -> Result<Places<'a>, Refusal> {
        Ok(Places { bundle, starts: vec![None; counts(bundle)?.samples as usize] })
    }

    /// The sample that holds the byte at `place`: the last that starts there or before.
    pub fn holding(&mut self, place: usize) -> Result<SampleNumber, Refusal> {
        let (mut low, mut high) = (0, self.starts.len());
        while high - low > 1 {
            let middle = low + (high - low) / 2;
            if self.start(middle)? <= place {
                low = middle;
            } else {
                high = middle;
            }
        }
        Ok(SampleNumber(low as u64 + 1))
    }

    fn start(&mut self, index: usize) -> Result<usize, Refusal> {
        if let Some(start) = self.starts[index] {
            return Ok(start);
        }
        let start = sample(self.bundle, SampleNumber(index as u64 + 1))?.start;
        self.starts[index] = Some(start);
        Ok(start)
    }
}
