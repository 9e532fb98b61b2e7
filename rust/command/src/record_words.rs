//! A decoder configuration record in words and as JSON.

use puddockle::{Kind, Record, Sets, Trailer};

use crate::json::Value;
use crate::output::{Output, Stop};
use crate::words::{counted, level_name, profile_name, unit_name, unit_type};

pub fn kind_name(kind: Kind) -> &'static str {
    match kind {
        Kind::Avc => "AVC",
        Kind::Svc => "SVC",
    }
}

/// Profile, compatibility, level and length size; then the sets and the trailer, a line each, indented.
pub fn print(kind: Kind, record: &Record, out: &mut Output) -> Result<(), Stop> {
    let profile = in_brackets(profile_name(record.profile));
    let level = in_brackets(level(record).as_deref());
    writeln!(
        out,
        "{}, profile {}{profile}, compatibility {}, level {}{level}, length size {}{}",
        kind_name(kind),
        record.profile,
        record.compatibility,
        record.level,
        record.length_size as u64,
        if record.complete_representation { ", complete representation" } else { "" },
    )?;
    print_sets("sequence set", &record.sequence, out)?;
    print_sets("picture set", &record.picture, out)?;
    writeln!(out, "    {}", record.trailer)?;
    match &record.trailer {
        Trailer::Present { extension, .. } if extension.count > 0 => print_sets("extension set", extension, out),
        _ => Ok(()),
    }
}

fn in_brackets(name: Option<&str>) -> String {
    name.map_or(String::new(), |name| format!(" ({name})"))
}

fn level(record: &Record) -> Option<String> {
    level_name(record.profile, record.compatibility, record.level)
}

fn print_sets(what: &str, sets: &Sets, out: &mut Output) -> Result<(), Stop> {
    writeln!(out, "    {}", counted(sets.count, what))?;
    for set in sets.iter() {
        let unit_type = unit_type(set);
        writeln!(out, "        type {unit_type} {}, {}", unit_name(unit_type), counted(set.len() as u64, "byte"))?;
    }
    Ok(())
}

/// The fields of a record in a document.
pub fn fields<'a>(kind: Kind, record: &Record<'a>) -> Vec<(&'static str, Value<'a>)> {
    vec![
        ("kind", Value::text(kind_name(kind).to_lowercase())),
        ("profile", Value::Number(record.profile)),
        ("profile_name", profile_name(record.profile).map_or(Value::Null, Value::text)),
        ("compatibility", Value::Number(record.compatibility)),
        ("level", Value::Number(record.level)),
        ("level_name", level(record).map_or(Value::Null, Value::text)),
        ("length_size", Value::Number(record.length_size as u64)),
        ("complete_representation", Value::Bool(record.complete_representation)),
        ("sequence_sets", sets(record.sequence)),
        ("picture_sets", sets(record.picture)),
        ("trailer", trailer(&record.trailer)),
    ]
}

fn trailer<'a>(trailer: &Trailer<'a>) -> Value<'a> {
    let state = |state| ("state", Value::text(state));
    Value::Object(match *trailer {
        Trailer::None => vec![state("none")],
        Trailer::Absent => vec![state("absent")],
        Trailer::Present { chroma_format, luma_depth_less_8, chroma_depth_less_8, extension } => vec![
            state("present"),
            ("chroma_format", Value::Number(chroma_format)),
            ("luma_depth", Value::Number(8 + luma_depth_less_8)),
            ("chroma_depth", Value::Number(8 + chroma_depth_less_8)),
            ("extension_sets", sets(extension)),
        ],
    })
}

fn sets<'a>(sets: Sets<'a>) -> Value<'a> {
    Value::list(sets.iter().map(|set| {
        let unit_type = unit_type(set);
        Value::Object(vec![
            ("type", Value::Number(unit_type.into())),
            ("name", Value::text(unit_name(unit_type))),
            ("bytes", Value::Number(set.len() as u64)),
        ])
    }))
}
