//! Numbers that must not be mixed up with each other or with byte offsets.

/// The number of a track in its bundle, from 1.
#[derive(Clone, Copy, Debug, PartialEq, Eq, PartialOrd, Ord)]
pub struct TrackNumber(pub usize);

/// The number of a sample in its bundle, from 1.
#[derive(Clone, Copy, Debug, PartialEq, Eq, PartialOrd, Ord)]
pub struct SampleNumber(pub usize);
