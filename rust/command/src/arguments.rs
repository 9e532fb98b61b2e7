//! The arguments of a call: operands, and options with or without a value.

use std::ffi::{OsStr, OsString};
use std::ops::RangeInclusive;
use std::os::unix::ffi::{OsStrExt, OsStringExt};

use crate::output::{Output, Status, Stop};
use crate::words::shown;

/// A call of the command.
pub struct Call {
    pub name: &'static str,
    pub help: &'static str,
    /// How many operands it takes.
    pub operands: RangeInclusive<usize>,
    /// The options without a value.
    pub flags: &'static [&'static str],
    /// The options with a value.
    pub values: &'static [&'static str],
    pub run: fn(&Arguments, &mut Output) -> Result<Status, Stop>,
}

pub struct Arguments {
    pub operands: Vec<OsString>,
    flags: Vec<&'static str>,
    values: Vec<(&'static str, OsString)>,
}

/// Whether an option before `--` asks for help.
pub fn asks_help(given: &[OsString]) -> bool {
    given.iter().take_while(|word| *word != "--").any(|word| word == "--help" || word == "-h")
}

impl Arguments {
    /// Options may stand anywhere before `--`; after it all are operands, and `-` always is.
    pub fn parse(call: &Call, given: &[OsString]) -> Result<Arguments, Stop> {
        let mut arguments = Arguments { operands: Vec::new(), flags: Vec::new(), values: Vec::new() };
        let mut words = given.iter();
        while let Some(word) = words.next() {
            if word == "--" {
                arguments.operands.extend(words.by_ref().cloned());
            } else if word == "-" || !word.as_bytes().starts_with(b"-") {
                arguments.operands.push(word.clone());
            } else if let Some(flag) = call.flags.iter().find(|flag| word == **flag) {
                arguments.flags.push(flag);
            } else {
                let (option, value) = value_option(call, word)?;
                let value = match value {
                    Some(value) => value,
                    None => words.next().cloned().ok_or_else(|| wrong(call, format!("{option} needs a value")))?,
                };
                arguments.values.push((option, value));
            }
        }
        arguments.judge(call)?;
        Ok(arguments)
    }

    fn judge(&self, call: &Call) -> Result<(), Stop> {
        let mut options: Vec<&str> = self.flags.clone();
        options.extend(self.values.iter().map(|(option, _)| option));
        options.sort_unstable();
        if let Some(pair) = options.windows(2).find(|pair| pair[0] == pair[1]) {
            return Err(wrong(call, format!("{} is given twice", pair[0])));
        }
        if self.operands.len() < *call.operands.start() {
            return Err(wrong(call, "too few arguments".into()));
        }
        match self.operands.get(*call.operands.end()) {
            Some(operand) => Err(wrong(call, format!("one argument too many: {}", shown(operand)))),
            None => Ok(()),
        }
    }

    pub fn flag(&self, flag: &str) -> bool {
        self.flags.contains(&flag)
    }

    pub fn value(&self, option: &str) -> Option<&OsStr> {
        self.values.iter().find(|(name, _)| *name == option).map(|(_, value)| value.as_os_str())
    }

    /// The operand of that index, which [`Call::operands`] says is there.
    pub fn operand(&self, index: usize) -> &OsStr {
        self.operands.get(index).map_or(OsStr::new(""), |operand| operand)
    }
}

/// An option with a value: `-o OUT`, `-oOUT`, `--unit K`, `--unit=K`.
fn value_option(call: &Call, word: &OsStr) -> Result<(&'static str, Option<OsString>), Stop> {
    let bytes = word.as_bytes();
    for &option in call.values {
        match bytes.strip_prefix(option.as_bytes()) {
            Some([]) => return Ok((option, None)),
            Some([b'=', value @ ..]) if option.starts_with("--") => return Ok((option, Some(owned(value)))),
            Some(value) if !option.starts_with("--") => return Ok((option, Some(owned(value)))),
            _ => {}
        }
    }
    Err(wrong(call, format!("unknown option {}", shown(word))))
}

fn owned(bytes: &[u8]) -> OsString {
    OsString::from_vec(bytes.to_vec())
}

/// Wrong use of a call.
pub fn wrong(call: &Call, what: String) -> Stop {
    Stop::failed(format!("{0}: {what}: see puddockle {0} --help", call.name))
}

/// The largest number that every JSON parser reads exactly. No sample and no unit has it.
pub const NUMBER_MOST: u64 = (1 << 53) - 1;

/// A number in decimal digits; [`NUMBER_MOST`] for a larger one.
pub fn number(call: &Call, what: &str, word: &OsStr) -> Result<u64, Stop> {
    let digits = word.as_bytes();
    if digits.is_empty() || !digits.iter().all(u8::is_ascii_digit) {
        return Err(wrong(call, format!("{what} is no number: {}", shown(word))));
    }
    Ok(digits.iter().fold(0, |number, digit| NUMBER_MOST.min(10 * number + (digit - b'0') as u64)))
}
