//! Searches for evidence, backward and forward. They serve tests, examples and the benchmark only: the judge never searches.
#![allow(dead_code)]

use reference::cubes::{least, predecessors};
use reference::entries::Cube;
use reference::index::Index;
use reference::{Configuration, Machine, Program, Run, Running, Step};
use std::collections::{HashMap, VecDeque};

/// Entries that hold every target, the entries given and every predecessor; None if the list outgrows `most` entries or what an entry can
/// hold. A start may be above the list: then a target can be reached, and the judge says 10.
pub fn closed_list(program: &Program, given: &[Configuration], most: usize) -> Option<Vec<Configuration>> {
    let mut index = Index::new(program);
    for (number, target) in program.targets.iter().enumerate() {
        if program.targets[..number].contains(target) {
            continue;
        }
        if !least(program, *target, &mut |cube| {
            index.add(cube);
            index.len() <= most
        }) {
            return None;
        }
    }
    for entry in given {
        let entry = Cube::of(entry);
        if !index.holds(&entry) {
            index.add(&entry);
        }
    }
    let steps = program.all_steps();
    let mut next = 0;
    while next < index.len() {
        let entry = index.entry(next);
        for step in &steps {
            let within = predecessors(program, &entry, *step, |cube| {
                if index.holds(cube) {
                    return true;
                }
                let fits = index.len() < most && cube.channel().len() <= 16 && cube.lengths().iter().all(|length| *length <= 8);
                if fits {
                    index.add(cube);
                }
                fits
            });
            if !within {
                return None;
            }
        }
        next += 1;
    }
    Some((0..index.len()).map(|number| index.entry(number).configuration(program)).collect())
}

/// A shortest run of the machine to a target, from one of these memories, that keeps at most `waiting` waiting values, and marks, per
/// process; else the number of configurations that there are within that bound. It ends for programs without loops, which make finitely
/// many messages, and within a bound it always ends for PSO.
pub fn shortest_run(program: &Program, machine: Machine, memories: &[[u8; 4]], waiting: usize) -> Result<Run, usize> {
    let steps = program.all_steps();
    let mut order: Vec<Running> = memories.iter().map(|memory| Running::start(machine, program, *memory)).collect();
    let mut from: HashMap<Running, Option<(usize, Step)>> = order.iter().map(|start| (start.clone(), None)).collect();
    let mut next: VecDeque<usize> = (0..order.len()).collect();
    while let Some(number) = next.pop_front() {
        let c = order[number].clone();
        if program.targets.contains(&c.states()) {
            let mut run = Vec::new();
            let mut at = number;
            while let Some((before, step)) = from[&order[at]] {
                run.push(step);
                at = before;
            }
            run.reverse();
            return Ok(Run { machine, memory: memories[at], steps: run });
        }
        for step in &steps {
            let mut after = c.clone();
            if !after.take(program, *step) || from.contains_key(&after) {
                continue;
            }
            if (0..program.processes).all(|p| after.waiting(program, p) <= waiting) {
                from.insert(after.clone(), Some((number, *step)));
                next.push_back(order.len());
                order.push(after);
            }
        }
    }
    Err(order.len())
}
