//! Words for numbers: refusals, unit types, profiles, levels; names as they may be shown.

use std::ffi::OsStr;

use puddockle::Refusal;

/// A name or an argument, with what is no text or would steer a terminal escaped.
pub fn shown(name: &OsStr) -> String {
    let text = name.to_string_lossy();
    if text.is_empty() {
        return "''".into();
    }
    text.chars().map(|one| if one.is_control() { one.escape_default().to_string() } else { one.to_string() }).collect()
}

/// A refusal as the program `./audit` prints it, then what it means.
pub fn refusal(no: &Refusal) -> String {
    format!("refused {} at {} - {}", no.number, no.place, no.meaning())
}

/// `1 sample`, `2 samples`.
pub fn counted(count: u64, what: &str) -> String {
    format!("{count} {what}{}", if count == 1 { "" } else { "s" })
}

/// The type of a NAL unit: the low five bits of its first byte.
pub fn unit_type(unit: &[u8]) -> u8 {
    unit.first().map_or(0, |byte| byte & 31)
}

/// The name of a unit type: ISO/IEC 14496-10, Table 7-1; 30 and 31 by ISO/IEC 14496-15, Annex B.
pub fn unit_name(unit_type: u8) -> &'static str {
    match unit_type {
        1 => "coded slice of a non-IDR picture",
        2 => "coded slice data partition A",
        3 => "coded slice data partition B",
        4 => "coded slice data partition C",
        5 => "coded slice of an IDR picture",
        6 => "supplemental enhancement information",
        7 => "sequence parameter set",
        8 => "picture parameter set",
        9 => "access unit delimiter",
        10 => "end of sequence",
        11 => "end of stream",
        12 => "filler data",
        13 => "sequence parameter set extension",
        14 => "prefix NAL unit",
        15 => "subset sequence parameter set",
        19 => "coded slice of an auxiliary picture",
        20 => "coded slice extension",
        30 => "aggregator",
        31 => "extractor",
        16..=18 | 21..=23 => "reserved",
        _ => "unspecified",
    }
}

/// The name of a profile_idc (ISO/IEC 14496-10, Annexes A, G and H).
pub fn profile_name(profile: u64) -> Option<&'static str> {
    Some(match profile {
        44 => "CAVLC 4:4:4 Intra",
        66 => "Baseline",
        77 => "Main",
        83 => "Scalable Baseline",
        86 => "Scalable High",
        88 => "Extended",
        100 => "High",
        110 => "High 10",
        118 => "Multiview High",
        122 => "High 4:2:2",
        128 => "Stereo High",
        144 => "High 4:4:4, withdrawn",
        244 => "High 4:4:4 Predictive",
        _ => return None,
    })
}

/// The name of a level_idc (ISO/IEC 14496-10, Table A-1). Level 1b is 9, or 11 with constraint_set3_flag in the first
/// three profiles.
pub fn level_name(profile: u64, compatibility: u64, level: u64) -> Option<String> {
    match level {
        9 => Some("1b".into()),
        11 if matches!(profile, 66 | 77 | 88) && compatibility & 0x10 != 0 => Some("1b".into()),
        10 | 20 | 30 | 40 | 50 | 60 => Some((level / 10).to_string()),
        11..=13 | 21 | 22 | 31 | 32 | 41 | 42 | 51 | 52 | 61 | 62 => Some(format!("{}.{}", level / 10, level % 10)),
        _ => None,
    }
}
