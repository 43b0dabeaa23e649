//! Small reports: case A of document 01, with transitions and marks.

use crate::reports::body_length;

pub const AREA: usize = 65_536;

/// One process of two states, one variable of two values; target 1.
pub fn program(transitions: &[[u8; 7]]) -> Vec<u8> {
    let mut out = vec![1, 1, 1, 2, 0, 0, 0, 2, 2, 0];
    for body in transitions {
        out.push(3);
        out.extend(body);
    }
    out.extend([4, 1, 0, 0, 0]);
    out
}

/// The four entries of case A but that of number `left_out`, with the process in this state.
pub fn entries(state: u8, left_out: usize) -> Vec<u8> {
    let message = [0x11, 0, 0, 0xff, 0, 0, 0];
    let mut out = Vec::new();
    for number in (0..4).filter(|number| *number != left_out) {
        out.extend([0x10, state, 0, 0, 0, 1, 0, 0, 0]);
        (0..1 + number / 2).for_each(|_| out.extend(message));
        if number % 2 == 1 {
            out.extend([0x12, 0, 0, 0xff]);
        }
    }
    out
}

pub fn join(parts: &[&[u8]]) -> Vec<u8> {
    parts.concat()
}

pub const MFENCE: [u8; 7] = [0, 0, 3, 0, 0, 0, 0];
pub const SFENCE: [u8; 7] = [0, 0, 4, 0, 0, 0, 0];
pub const NOP: [u8; 7] = [0, 0, 0, 0, 0, 0, 0];
pub const WRITE: [u8; 7] = [0, 0, 2, 0, 1, 0, 0];
pub const RUN: [u8; 7] = [0x0f, 1, 0x1f, 0, 0, 0, 0];

pub fn marks(numbers: &[u8]) -> Vec<u8> {
    numbers.iter().flat_map(|number| [0x30, *number]).collect()
}

/// Reports worked out by hand, with every refusal at the places where it can be: what each is, its bytes, the area and the line.
pub fn cases(mut case: impl FnMut(&str, &[u8], usize, &str) -> Result<(), String>) -> Result<(), String> {
    let list = join(&[&[0x0f, 0], &entries(1, 4)]);
    let fences = program(&[MFENCE, SFENCE, NOP, WRITE]);
    let (f, l) = (fences.len(), list.len());
    case("no mark", &join(&[&program(&[]), &list]), AREA, "needed 0 4")?;
    case("no mark, fences", &join(&[&fences, &list]), AREA, "needed 0 4")?;
    case("area", &join(&[&fences, &list]), AREA - 1, "refused 8 0")?;
    case("area, empty", &[], AREA - 1, "refused 8 0")?;
    case("empty", &[], AREA, "refused 6 0")?;
    // 2: kinds, and their order
    case("05", &[5], AREA, "refused 2 0, record 0 1")?;
    case("mark first", &[0x30, 0], AREA, "refused 2 0, record 0 2")?;
    case("mark before the targets", &join(&[&fences[..f - 5], &marks(&[0])]), AREA, &format!("refused 2 {}, record {} 2", f - 5, f - 5))?;
    case("03 behind a mark", &join(&[&fences, &marks(&[0]), &[3], &MFENCE]), AREA, &format!("refused 2 {}, record {} 8", f + 2, f + 2))?;
    case("04 behind a mark", &join(&[&fences, &marks(&[0]), &[4, 1, 0, 0, 0]]), AREA, &format!("refused 2 {}, record {} 5", f + 2, f + 2))?;
    case("mark behind the claim", &join(&[&fences, &list, &marks(&[0])]), AREA, &format!("refused 2 {}, record {} 2", f + l, f + l))?;
    case("mark in a run", &join(&[&fences, &marks(&[0]), &list, &RUN, &marks(&[1])]), AREA, &format!("refused 2 {}, record {} 2", f + l + 9, f + l + 9))?;
    case("0F where a 1F is due", &join(&[&fences, &marks(&[0]), &list, &[0x0f, 1, 0x0f, 1]]), AREA, &format!("refused 2 {}, record {} 2", f + l + 4, f + l + 4))?;
    case("a step where a 1F is due", &join(&[&fences, &marks(&[0]), &list, &[0x0f, 1, 0x20, 0]]), AREA, &format!("refused 2 {}, record {} 2", f + l + 4, f + l + 4))?;
    case("an entry in a run", &join(&[&fences, &marks(&[0]), &list, &RUN, &entries(1, 4)]), AREA, &format!("refused 2 {}, record {} 9", f + l + 9, f + l + 9))?;
    case("a step in the list", &join(&[&fences, &marks(&[0]), &list, &[0x22, 0]]), AREA, &format!("refused 2 {}, record {} 2", f + l + 2, f + l + 2))?;
    // 1 and 5
    case("cut mark", &join(&[&fences, &[0x30]]), AREA, &format!("refused 1 {}, record {} 1", f, f))?;
    case("cut ninth mark", &join(&[&fences, &marks(&[0; 8]), &[0x30]]), AREA, &format!("refused 1 {}, record {} 1", f + 16, f + 16))?;
    case("ninth mark", &join(&[&fences, &marks(&[0; 9])]), AREA, &format!("refused 5 {}, record {} 2", f + 16, f + 16))?;
    case("ninth mark of none", &join(&[&fences, &marks(&[0; 8]), &marks(&[4])]), AREA, &format!("refused 5 {}, record {} 2", f + 16, f + 16))?;
    let steps = |n: usize| [0x20, 0].repeat(n);
    let long = join(&[&fences, &marks(&[0, 1]), &list, &RUN, &steps(1_024), &RUN, &steps(1_024)]);
    case("1,024 steps of each run", &long, AREA, "refused 23 0")?;
    let more = format!("refused 5 {}, record {} 2", long.len(), long.len());
    case("one step more", &join(&[&long, &steps(1)]), AREA, &more)?;
    // 4: the transition, claims
    case("mark of no transition", &join(&[&fences, &marks(&[0, 4])]), AREA, &format!("refused 4 {}, record {} 2", f + 2, f + 2))?;
    for claim in [1, 2, 3] {
        case("first claim", &join(&[&fences, &marks(&[0]), &[0x0f, claim]]), AREA, &format!("refused 4 {}, record {} 2", f + 2, f + 2))?;
    }
    for claim in [0, 2, 3] {
        case("later claim", &join(&[&fences, &marks(&[0]), &list, &[0x0f, claim]]), AREA, &format!("refused 4 {}, record {} 2", f + l + 2, f + l + 2))?;
    }
    for claim in [0, 1, 2, 3] {
        case("claim too many", &join(&[&fences, &list, &[0x0f, claim]]), AREA, &format!("refused 4 {}, record {} 2", f + l, f + l))?;
        case("claim too many after a run", &join(&[&fences, &marks(&[0]), &list, &RUN, &[0x0f, claim]]), AREA, &format!("refused 4 {}, record {} 2", f + l + 9, f + l + 9))?;
    }
    case("claim too many, cut", &join(&[&fences, &list, &[0x0f]]), AREA, &format!("refused 1 {}, record {} 1", f + l, f + l))?;
    case("memory", &join(&[&fences, &marks(&[0]), &list, &[0x0f, 1, 0x1f, 2, 0, 0, 0]]), AREA, &format!("refused 4 {}, record {} 5", f + l + 4, f + l + 4))?;
    case("step", &join(&[&fences, &marks(&[0]), &list, &RUN, &[0x20, 4]]), AREA, &format!("refused 4 {}, record {} 2", f + l + 9, f + l + 9))?;
    // 6
    case("no claim", &fences, AREA, &format!("refused 6 {}", f))?;
    case("no claim, marks", &join(&[&fences, &marks(&[0])]), AREA, &format!("refused 6 {}", f + 2))?;
    case("no run", &join(&[&fences, &marks(&[0]), &list]), AREA, &format!("refused 6 {}", f + l + 2))?;
    case("no memory", &join(&[&fences, &marks(&[0]), &list, &[0x0f, 1]]), AREA, &format!("refused 6 {}", f + l + 4))?;
    case("one run of two", &join(&[&fences, &marks(&[0, 1]), &list, &RUN]), AREA, &format!("refused 6 {}", f + l + 11))?;
    // 7, before all else of its place
    let empty = join(&[&list, &[0x10, 1, 0, 0, 0, 1, 0, 0, 0]]);
    let seven = format!("refused 7 {}, record {} 9", f + l + 2, f + l + 2);
    case("7 at an 0F", &join(&[&fences, &marks(&[0]), &empty, &RUN]), AREA, &seven)?;
    case("7 at a cut 0F", &join(&[&fences, &marks(&[0]), &empty, &[0x0f]]), AREA, &seven)?;
    case("7 at an 0F with a wrong claim", &join(&[&fences, &marks(&[0]), &empty, &[0x0f, 0]]), AREA, &seven)?;
    case("7 at the end", &join(&[&fences, &marks(&[0]), &empty]), AREA, &seven)?;
    case("7 at a 10", &join(&[&fences, &marks(&[0]), &empty, &[0x10]]), AREA, &seven)?;
    case("2 in an entry without message", &join(&[&fences, &marks(&[0]), &empty, &[0x20, 0]]), AREA, &format!("refused 2 {}, record {} 2", f + l + 11, f + l + 11))?;
    // 22, before the list: the lowest mark that repeats or is no fence
    let spoilt = join(&[&[0x0f, 0], &entries(1, 1)]);
    let with = |numbers: &[u8], list: &[u8]| join(&[&fences, &marks(numbers), list, &RUN.repeat(numbers.len())]);
    case("a nop", &with(&[2], &list), AREA, "refused 22 0")?;
    case("a write", &with(&[0, 3], &list), AREA, "refused 22 1")?;
    case("repeated", &with(&[0, 1, 0], &list), AREA, "refused 22 2")?;
    case("repeated and no fence", &with(&[0, 0, 2], &spoilt), AREA, "refused 22 1")?;
    case("no fence, repeated", &with(&[2, 2], &spoilt), AREA, "refused 22 0")?;
    case("eight equal", &with(&[1; 8], &list), AREA, "refused 22 1")?;
    // 23, the list first
    case("list", &with(&[0, 1], &spoilt), AREA, "refused 23 8")?;
    case("list, no mark", &with(&[], &spoilt), AREA, "refused 23 8")?;
    case("no entry", &with(&[0], &[0x0f, 0]), AREA, "refused 23 8")?;
    case("a start", &join(&[&program(&[])[..10], &[4, 0, 0, 0, 0, 0x0f, 0], &entries(0, 4)]), AREA, "refused 23 8")?;
    case("run", &with(&[0, 1], &list), AREA, "refused 23 0")?;
    case("mfence and sfence are fences", &with(&[1, 0], &list), AREA, "refused 23 0")?;
    // Of equal transitions each may be marked.
    let twins = program(&[SFENCE, SFENCE]);
    case("twins", &join(&[&twins, &marks(&[0, 1]), &list, &RUN, &RUN]), AREA, "refused 23 0")?;
    Ok(())
}

/// Offsets of the records, as far as their kinds are known, and the end.
pub fn offsets(file: &[u8]) -> Vec<usize> {
    let mut all = vec![0];
    while let Some(length) = file.get(all[all.len() - 1]).and_then(|kind| body_length(*kind)) {
        all.push(all[all.len() - 1] + 1 + length);
    }
    all
}

/// Small reports with every byte changed to every value, cut everywhere, and with records left out, doubled and swapped.
pub fn damaged(mut check: impl FnMut(&[u8]) -> Result<(), String>) -> Result<(), String> {
    let list = join(&[&[0x0f, 0], &entries(1, 4)]);
    let steps = [0x20, 3, 0x21, 0, 0, 0x22, 0, 0x20, 0];
    let some = join(&[&program(&[MFENCE, SFENCE, NOP, WRITE]), &marks(&[0, 1]), &list, &RUN, &steps, &RUN]);
    let none = join(&[&program(&[MFENCE]), &list]);
    for file in [some, none] {
        let offsets = offsets(&file);
        check(&file)?;
        for at in 0..file.len() {
            check(&file[..at])?;
            for byte in 0..=255 {
                let mut other = file.clone();
                other[at] = byte;
                check(&other)?;
            }
        }
        let record = |k: usize| &file[offsets[k]..offsets[k + 1]];
        for i in 0..offsets.len() - 1 {
            check(&[&file[..offsets[i]], &file[offsets[i + 1]..]].concat())?;
            check(&[&file[..offsets[i]], record(i), &file[offsets[i]..]].concat())?;
            for j in i + 1..offsets.len() - 1 {
                check(&[&file[..offsets[i]], record(j), &file[offsets[i + 1]..offsets[j]], record(i), &file[offsets[j + 1]..]].concat())?;
            }
        }
    }
    Ok(())
}
