//! Options as getopt_long takes them: `-rw`, `-p PROGRAM`, `-pPROGRAM`, `--program PROGRAM`, `--program=PROGRAM`, the beginning of a long name that no
//! other has, files before and after options, and `--`. The text of `--help` is made from the same table.

use std::ffi::{OsStr, OsString};
use std::os::unix::ffi::{OsStrExt, OsStringExt};

pub struct Choice {
    /// 0 if it has none.
    pub letter: char,
    pub long: &'static str,
    /// The word for its value, if it takes one.
    pub value: &'static str,
    pub help: &'static str,
}

pub const fn choice(letter: char, long: &'static str, value: &'static str, help: &'static str) -> Choice {
    Choice { letter, long, value, help }
}

/// For options with a long name only.
pub const NO_LETTER: char = '\0';

/// What stands on the command line, in its order: an option by its long name, or a file.
pub enum Word {
    Option(&'static str, OsString),
    File(OsString),
}

pub fn read(choices: &'static [Choice], words: impl Iterator<Item = OsString>) -> Result<Vec<Word>, String> {
    let mut words = words;
    let mut read = Vec::new();
    while let Some(word) = words.next() {
        let bytes = word.as_bytes();
        if bytes == b"--" {
            read.extend(words.by_ref().map(Word::File));
        } else if let Some(name) = bytes.strip_prefix(b"--") {
            let (name, given) = match name.iter().position(|byte| *byte == b'=') {
                Some(at) => (name.get(..at).unwrap_or(b""), name.get(at + 1..)),
                None => (name, None),
            };
            let choice = by_name(choices, name)?;
            let value = match (choice.value.is_empty(), given) {
                (true, None) => OsString::new(),
                (true, Some(_)) => return Err(format!("--{} takes no value", choice.long)),
                (false, Some(value)) => OsStr::from_bytes(value).to_os_string(),
                (false, None) => words.next().ok_or(format!("--{} needs {}", choice.long, choice.value))?,
            };
            read.push(Word::Option(choice.long, value));
        } else if bytes.len() > 1 && bytes.first() == Some(&b'-') {
            let mut letters = bytes.get(1..).unwrap_or(b"");
            while let Some((letter, rest)) = letters.split_first() {
                let letter = char::from(*letter);
                let choice = choices.iter().find(|choice| choice.letter != NO_LETTER && choice.letter == letter);
                let choice = choice.ok_or_else(|| format!("there is no option -{}", letter.escape_default()))?;
                letters = rest;
                let mut value = OsString::new();
                if !choice.value.is_empty() {
                    letters = b"";
                    value = match rest.is_empty() {
                        true => words.next().ok_or(format!("-{letter} needs {}", choice.value))?,
                        false => OsString::from_vec(rest.to_vec()),
                    };
                }
                read.push(Word::Option(choice.long, value));
            }
        } else {
            read.push(Word::File(word));
        }
    }
    Ok(read)
}

fn by_name(choices: &'static [Choice], name: &[u8]) -> Result<&'static Choice, String> {
    if let Some(exact) = choices.iter().find(|choice| choice.long.as_bytes() == name) {
        return Ok(exact);
    }
    let meant: Vec<_> = choices.iter().filter(|choice| choice.long.as_bytes().starts_with(name)).collect();
    match meant.as_slice() {
        [one] => Ok(one),
        [] => Err(format!("there is no option --{}", crate::names::quoted(name))),
        many => Err(format!(
            "--{} may be {}",
            crate::names::quoted(name),
            many.iter().map(|c| format!("--{}", c.long)).collect::<Vec<_>>().join(" or ")
        )),
    }
}

/// A line for each option, with what it does.
pub fn help(choices: &[Choice]) -> String {
    let head = |choice: &Choice| {
        let letter = if choice.letter == NO_LETTER { "   ".to_string() } else { format!("-{},", choice.letter) };
        format!("  {letter} --{} {}", choice.long, choice.value).trim_end().to_string()
    };
    let mut lines: Vec<(String, &str)> = choices.iter().map(|choice| (head(choice), choice.help)).collect();
    lines.push(("      --".to_string(), "no option follows"));
    let width = lines.iter().map(|(head, _)| head.len()).max().unwrap_or(0);
    lines.iter().map(|(head, words)| format!("{head:width$}  {}\n", words.replace('\n', &format!("\n{:width$}  ", "")))).collect()
}

/// A number above 0.
pub fn number(option: &str, value: &OsStr, most: u64) -> Result<u64, String> {
    let number = value.to_str().and_then(|text| text.parse::<u64>().ok());
    number.filter(|n| (1..=most).contains(n)).ok_or_else(|| format!("--{option} needs a number from 1 to {most}"))
}
