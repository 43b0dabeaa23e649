//! What `hrafnolt-files -w` prints under a refusal 9 or 11, held to the machine and the order: a configuration that no entry is below, and
//! that is in the target, or from which the step leads above the entry.

use reference::brute::below;
use reference::{read, Configuration, Evidence, Lent, Message, Program, Verdict};
use std::fmt::Write;

fn numbers(text: &str) -> Option<Vec<usize>> {
    text.split(' ').map(|word| word.parse().ok()).collect()
}

/// `(0,1): 1 0`, a label and values.
fn labelled(text: &str) -> Option<(usize, usize, Vec<usize>)> {
    let (label, values) = text.strip_prefix('(')?.split_once("): ")?;
    let (process, variable) = label.split_once(',')?;
    Some((process.parse().ok()?, variable.parse().ok()?, numbers(values)?))
}

/// The configuration, and the step if there is one.
fn parsed(program: &Program, text: &str) -> Option<(Configuration, Option<String>)> {
    let mut c = Configuration {
        states: [0; 4],
        queues: vec![Vec::new(); program.processes * program.variables],
        channel: Vec::new(),
        pointers: [0; 4],
    };
    let mut step = None;
    for part in text.split("; ") {
        let (name, rest) = part.split_once(' ')?;
        match name {
            "states" => numbers(rest)?.into_iter().enumerate().for_each(|(p, state)| c.states[p] = state as u8),
            "pointers" => numbers(rest)?.into_iter().enumerate().for_each(|(p, pointer)| c.pointers[p] = pointer),
            "queue" => {
                let (p, v, values) = labelled(rest)?;
                c.queues[program.queue(p, v)] = values.into_iter().map(|value| value as u8).collect();
            }
            "messages" => {
                for message in rest.split(", ") {
                    let (p, v, values) = labelled(message)?;
                    let mut snapshot = [0; 4];
                    values.into_iter().enumerate().for_each(|(v, value)| snapshot[v] = value as u8);
                    c.channel.push(Message { process: p as u8, variable: v as u8, snapshot });
                }
            }
            "step" => step = Some(rest.to_string()),
            _ => return None,
        }
    }
    Some((c, step))
}

/// The words for a configuration, so that nothing else stands in them.
fn words(program: &Program, c: &Configuration) -> String {
    let joined = |values: Vec<String>| values.join(" ");
    let mut text = format!("states {}", joined(c.states[..program.processes].iter().map(|n| n.to_string()).collect()));
    for (number, queue) in c.queues.iter().enumerate().filter(|(_, queue)| !queue.is_empty()) {
        let (p, v) = (number / program.variables, number % program.variables);
        let _ = write!(text, "; queue ({},{}): {}", p, v, joined(queue.iter().map(|n| n.to_string()).collect()));
    }
    for (number, m) in c.channel.iter().enumerate() {
        let values = joined(m.snapshot[..program.variables].iter().map(|n| n.to_string()).collect());
        let _ = write!(text, "{} ({},{}): {}", if number == 0 { "; messages" } else { "," }, m.process, m.variable, values);
    }
    let _ = write!(text, "; pointers {}", joined(c.pointers[..program.processes].iter().map(|n| n.to_string()).collect()));
    text
}

/// Labels, values, states and pointers that exist.
fn well_formed(program: &Program, c: &Configuration) -> bool {
    let in_range = |v: usize, value: u8| value < program.values[v];
    !c.channel.is_empty()
        && (0..program.processes).all(|p| c.states[p] < program.states[p] && (1..=c.channel.len()).contains(&c.pointers[p]))
        && c.queues.iter().enumerate().all(|(number, queue)| queue.iter().all(|value| in_range(number % program.variables, *value)))
        && c.channel.iter().all(|m| {
            (m.process as usize) < program.processes
                && (m.variable as usize) < program.variables
                && (0..program.variables).all(|v| in_range(v, m.snapshot[v]))
        })
}

pub fn check(lent: Lent, verdict: Verdict, text: &str) -> Result<(), String> {
    let Ok((program, Evidence::List(list))) = read(lent, 524_288) else { return Err("no list".to_string()) };
    let Some((mut c, step)) = parsed(&program, text) else { return Err("not in these words".to_string()) };
    if !well_formed(&program, &c) {
        return Err("no configuration of this shape".to_string());
    }
    let entry = |number: usize| list.entry(number).configuration(&program);
    if let Some(number) = (0..list.len()).find(|number| list.states(*number) == c.states && below(&program, &entry(*number), &c)) {
        return Err(format!("it is above entry {}", number));
    }
    let plain = words(&program, &c);
    match verdict {
        Verdict::Refused(9, target) => {
            if text != plain || program.targets[target as usize] != c.states {
                return Err("it is not in the target".to_string());
            }
        }
        Verdict::Open(number, by) => {
            if text != format!("{}; step {}", plain, by) || step != Some(by.to_string()) {
                return Err("it does not name the step".to_string());
            }
            if !c.take(&program, by) || !below(&program, &entry(number as usize), &c) {
                return Err("the step does not lead above the entry".to_string());
            }
        }
        _ => return Err("nothing to show".to_string()),
    }
    Ok(())
}
