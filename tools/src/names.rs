//! Names of files as they are shown: in a line that nobody can forge, or as a JSON string.

use std::fmt::Write;

/// As `ls` shows a name on a terminal (its shell-escape style): as it is, or in quotes that a shell takes off again. No byte of it is a line feed or
/// an escape byte, and what holds `: ` is in quotes.
pub fn quoted(name: &[u8]) -> String {
    let parts = parts(name);
    let plain = parts.iter().all(|part| matches!(part, Part::Char(_)));
    let chars = || parts.iter().filter_map(|part| if let Part::Char(c) = part { Some(*c) } else { None });
    if plain && !name.is_empty() && !chars().enumerate().any(|(at, c)| needs_quotes(at, c)) && !matches!(name, b"{" | b"}") {
        return chars().collect();
    }
    if plain && chars().any(|c| c == '\'') && !chars().any(|c| "\"$`\\!".contains(c)) {
        return format!("\"{}\"", chars().collect::<String>());
    }
    let mut text = "'".to_string();
    let mut escaped = false;
    for part in parts {
        match part {
            Part::Char('\'') => {
                text.push_str("'\\''");
                escaped = false;
            }
            Part::Char(c) => {
                if escaped {
                    text.push_str("''");
                }
                escaped = false;
                text.push(c);
            }
            Part::Byte(b) => {
                if !escaped {
                    text.push_str("'$'");
                }
                escaped = true;
                text.push_str(&escape(b));
            }
        }
    }
    text.push('\'');
    text
}

/// A character that is shown as it is, or a byte that is not.
enum Part {
    Char(char),
    Byte(u8),
}

fn parts(name: &[u8]) -> Vec<Part> {
    let mut parts = Vec::new();
    for chunk in name.utf8_chunks() {
        for c in chunk.valid().chars() {
            if is_shown(c) {
                parts.push(Part::Char(c));
            } else {
                parts.extend(c.encode_utf8(&mut [0; 4]).bytes().map(Part::Byte));
            }
        }
        parts.extend(chunk.invalid().iter().copied().map(Part::Byte));
    }
    parts
}

/// Neither a control nor something that moves, hides or turns other characters. Behind a letter, since an accent may be a character of its own.
fn is_shown(c: char) -> bool {
    "\"'\\".contains(c) || format!("a{c}").escape_debug().eq(['a', c])
}

fn needs_quotes(at: usize, c: char) -> bool {
    " !\"$&'()*;<=>?[\\^`|".contains(c) || at == 0 && "#~".contains(c)
}

fn escape(b: u8) -> String {
    match b {
        7 => "\\a".to_string(),
        8 => "\\b".to_string(),
        9 => "\\t".to_string(),
        10 => "\\n".to_string(),
        11 => "\\v".to_string(),
        12 => "\\f".to_string(),
        13 => "\\r".to_string(),
        _ => format!("\\{b:03o}"),
    }
}

/// A JSON string. What is no UTF-8 is U+FFFD in it.
pub fn json_string(text: &[u8]) -> String {
    let mut to = "\"".to_string();
    for c in String::from_utf8_lossy(text).chars() {
        match c {
            '"' => to.push_str("\\\""),
            '\\' => to.push_str("\\\\"),
            '\n' => to.push_str("\\n"),
            c if is_shown(c) || c == ' ' => to.push(c),
            c => c.encode_utf16(&mut [0; 2]).iter().for_each(|unit| {
                let _ = write!(to, "\\u{unit:04x}");
            }),
        }
    }
    to.push('"');
    to
}

/// `"name":"..."`, and if the name is no UTF-8, `"name_hex"` too, with all of its bytes.
pub fn json_name(key: &str, name: &[u8]) -> String {
    let mut to = format!("\"{key}\":{}", json_string(name));
    if std::str::from_utf8(name).is_err() {
        let _ = write!(to, ",\"{key}_hex\":\"{}\"", hex(name, ""));
    }
    to
}

pub fn hex(bytes: &[u8], between: &str) -> String {
    bytes.iter().map(|byte| format!("{byte:02X}")).collect::<Vec<_>>().join(between)
}
