//! A call as text, to make it again by hand.

use crate::call::Call;

/// Longer bytes are not printed whole.
const MOST_BYTES: usize = 4000;

impl Call<'_> {
    pub fn text(&self) -> String {
        let arguments = match *self {
            Call::ReadRecord { kind, record, room } => format!("kind {kind} record {} room {room}", hex(record)),
            Call::WriteRecord { kind, fields, room } => format!(
                "kind {kind} fields {:?} sequence {} picture {} extension {} room {room}",
                fields.numbers,
                hex(&fields.sequence),
                hex(&fields.picture),
                hex(&fields.extension)
            ),
            Call::CheckSample { kind, length_size, sample } => {
                format!("kind {kind} length_size {length_size} sample {}", hex(sample))
            }
            Call::CheckBundle { bundle } => format!("bundle {}", hex(bundle)),
            Call::Resolve { bundle, sample, room } => {
                format!("bundle {} sample {sample} room {room}", hex(bundle))
            }
            Call::Range { bundle, first, last, rooms } => {
                format!("bundle {} first {first} last {last} rooms {rooms:?}", hex(bundle))
            }
            Call::Stream { bundle, sample, room } => {
                format!("bundle {} sample {sample} room {room}", hex(bundle))
            }
            Call::FromStream { length_size, stream, room } => {
                format!("length_size {length_size} stream {} room {room}", hex(stream))
            }
            Call::ReadBack { length_size, bundle, sample, length } => {
                format!("length_size {length_size} bundle {} sample {sample} length {length}", hex(bundle))
            }
            Call::Salvage { bundle, sample, rooms } => {
                format!("bundle {} sample {sample} rooms {rooms:?}", hex(bundle))
            }
            Call::SalvageSample { kind, length_size, sample, rooms } => {
                format!("kind {kind} length_size {length_size} sample {} rooms {rooms:?}", hex(sample))
            }
            Call::Unit { bundle, sample, unit } => format!("bundle {} sample {sample} unit {unit}", hex(bundle)),
            Call::Names { bundle, sample, room } => {
                format!("bundle {} sample {sample} room {room}", hex(bundle))
            }
            Call::Audit { bundle, room } => format!("bundle {} room {room}", hex(bundle)),
            Call::Counts { bundle } => format!("bundle {}", hex(bundle)),
            Call::Track { bundle, track } => format!("bundle {} track {track}", hex(bundle)),
            Call::Reference { bundle, reference } => format!("bundle {} reference {reference}", hex(bundle)),
            Call::Sample { bundle, sample } => format!("bundle {} sample {sample}", hex(bundle)),
            Call::Units { bundle, sample, room } => {
                format!("bundle {} sample {sample} room {room}", hex(bundle))
            }
            Call::Named { bundle, sample, extractor } => {
                format!("bundle {} sample {sample} extractor {extractor}", hex(bundle))
            }
        };
        format!("{} {arguments}", self.name())
    }
}

fn hex(bytes: &[u8]) -> String {
    if bytes.is_empty() {
        return "-".to_string();
    }
    let shown: String = bytes.iter().take(MOST_BYTES).map(|byte| format!("{byte:02x}")).collect();
    if bytes.len() > MOST_BYTES {
        format!("{shown}.. ({} bytes)", bytes.len())
    } else {
        shown
    }
}
