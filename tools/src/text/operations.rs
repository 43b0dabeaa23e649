//! What a line says of one step: an operation, values of variables, where a process is.

use super::lexer::Cursor;
use super::{Complaint, Names};
use crate::contents::{Operation, ANY};

/// The operation of a line: what stands behind its label and before its arrow. A nop may be left out before an arrow.
pub fn operation<'a>(
    cursor: &mut Cursor<'_, 'a>,
    variables: &dyn Fn(&str) -> Option<(u8, u8)>,
    register: Option<&str>,
) -> Result<Operation, Complaint> {
    let value = |cursor: &mut Cursor<'_, 'a>, name: &str, count: u8| {
        let expected = format!("a value of {name}, 0 to {}", count.saturating_sub(1));
        let value = cursor.number(&expected)?;
        if value < count as u32 {
            Ok(value as u8)
        } else {
            cursor.complain_back(&expected)
        }
    };
    if cursor.ahead(0, "->") || cursor.eat("nop") {
        return Ok(Operation::Nop);
    }
    if cursor.eat("sfence") {
        return Ok(Operation::Sfence);
    }
    if cursor.eat("mfence") {
        return Ok(Operation::Mfence);
    }
    let variable = |cursor: &mut Cursor<'_, 'a>| {
        let name = cursor.name("a variable")?;
        match variables(name.text) {
            Some((number, count)) => Ok((name.text, number, count)),
            None => cursor.complain_back("a variable"),
        }
    };
    if cursor.eat("cas") {
        let (name, variable, count) = variable(cursor)?;
        let old = value(cursor, name, count)?;
        let new = value(cursor, name, count)?;
        return Ok(Operation::Arw { variable, old, new });
    }
    let expected = "an operation (VARIABLE := VALUE, VARIABLE = VALUE, cas, mfence, sfence, nop) or `->`";
    let name = cursor.name(expected)?;
    if register == Some(name.text) {
        if cursor.eat("=") {
            return Ok(Operation::Test { value: value(cursor, name.text, 4)? });
        }
        if !cursor.eat(":=") {
            return cursor.complain("`:=` or `=`");
        }
        let (_, variable, _) = variable(cursor)?;
        return Ok(Operation::Load { variable });
    }
    let Some((number, count)) = variables(name.text) else { return cursor.complain_back(expected) };
    if cursor.eat("=") {
        return Ok(Operation::Read { variable: number, value: value(cursor, name.text, count)? });
    }
    if !cursor.eat(":=") {
        return cursor.complain("`:=` or `=`");
    }
    if register.is_some_and(|register| cursor.ahead(0, register)) {
        cursor.at += 1;
        return Ok(Operation::Save { variable: number });
    }
    Ok(Operation::Write { variable: number, value: value(cursor, name.text, count)? })
}

/// `gate=0 tick=1`, commas between them or not; what is not named is as in `values`.
pub fn assignments(
    cursor: &mut Cursor,
    variables: &dyn Fn(&str) -> Option<(u8, u8)>,
    values: &mut [u8; 4],
    any: bool,
) -> Result<(), Complaint> {
    let mut named = [false; 4];
    while cursor.peek().is_some() {
        let name = cursor.name("VARIABLE=VALUE")?;
        let Some((variable, count)) = variables(name.text) else { return cursor.complain_back("a variable") };
        let (Some(named), Some(place)) = (named.get_mut(variable as usize), values.get_mut(variable as usize)) else {
            return cursor.complain_back("a variable");
        };
        if std::mem::replace(named, true) {
            return cursor.complain_back("a variable that has no value yet");
        }
        cursor.expect("=")?;
        let expected =
            format!("a value of {}, 0 to {}{}", name.text, count.saturating_sub(1), if any { ", or `*`" } else { "" });
        if any && cursor.eat("*") {
            *place = ANY;
        } else {
            let value = cursor.number(&expected)?;
            if value >= count as u32 {
                return cursor.complain_back(&expected);
            }
            *place = value as u8;
        }
        cursor.eat(",");
    }
    Ok(())
}

/// `PROCESS STATE`.
pub fn process_state(cursor: &mut Cursor, names: &Names) -> Result<(usize, u8), Complaint> {
    let name = cursor.name("a process")?;
    let Some(p) = names.processes.iter().position(|known| known == name.text) else {
        return cursor.complain_back("a process");
    };
    let expected = format!("a state of {}", name.text);
    let state = cursor.name(&expected)?;
    let position = names.states.get(p).and_then(|states| states.iter().position(|known| known.name == state.text));
    match position {
        Some(state) if p < 4 => Ok((p, state as u8)),
        _ => cursor.complain_back(&expected),
    }
}
