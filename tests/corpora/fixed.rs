//! Files that are not random: full files with every byte value in every field, every truncation, every kind at every boundary; and
//! files at every count limit and just past it.

use reference::reading::body_length;
use reference::{AREA_LEAST, AREA_MOST};

/// A named full file.
pub struct Full {
    pub name: &'static str,
    pub bytes: Vec<u8>,
}

fn hex(text: &str) -> Vec<u8> {
    text.split_whitespace().map(|pair| u8::from_str_radix(pair, 16).unwrap()).collect()
}

pub fn full_files() -> Vec<Full> {
    let head = "01 03 02 02 03 00 00  02 03 00  02 02 01  02 20 1F
        03 00 00 00 00 00 00 01  03 00 01 01 01 02 00 02  03 01 01 02 01 02 00 00  03 01 00 03 00 00 00 01
        03 02 1F 04 00 00 00 00  03 02 00 05 01 02 01 1F
        04 02 00 1F 00  04 00 01 1F 00 ";
    let list = hex(&(head.to_string()
        + "0F 00
        10 02 00 1F 00 01 02 02 00  11 00 00 FF 01 00 00  11 02 01 01 FF 00 00  12 01 01 02  12 02 00 FF
        10 00 01 1F 00 02 01 01 00  12 00 00 00  11 01 00 FF FF 00 00  12 00 00 FF  11 00 01 00 00 00 00"));
    let run = hex(&(head.to_string()
        + "0F 01  1F 01 02 00 00
        20 00  20 02  21 01 01  22 00  20 01  20 04  22 02  22 01  20 03"));
    // Accepted, with every kind of step and every operation: pso 9 0.
    let pso = hex(&(head.to_string()
        + "0F 02  1F 01 00 00 00
        20 00  20 02  21 01 01  20 01  20 04  20 03  22 02  20 05  20 02"));
    // Safe 8: one process that reads 1 in a state where it does not start, over case A, with the entries that the read needs.
    let safe = hex(
        "01 01 01 02 00 00 00  02 03 02  03 00 00 01 00 01 00 01  04 01 00 00 00  0F 00
        10 01 00 00 00 01 00 00 00  11 00 00 FF 00 00 00
        10 01 00 00 00 01 00 00 00  11 00 00 FF 00 00 00  12 00 00 FF
        10 01 00 00 00 01 00 00 00  11 00 00 FF 00 00 00  11 00 00 FF 00 00 00
        10 01 00 00 00 01 00 00 00  11 00 00 FF 00 00 00  11 00 00 FF 00 00 00  12 00 00 FF
        10 00 00 00 00 01 00 00 00  11 00 00 01 00 00 00
        10 00 00 00 00 01 00 00 00  11 00 00 FF 00 00 00  12 00 00 01
        10 00 00 00 00 01 00 00 00  11 00 00 FF 00 00 00  11 00 00 01 00 00 00
        10 00 00 00 00 01 00 00 00  11 00 00 FF 00 00 00  11 00 00 FF 00 00 00  12 00 00 01",
    );
    vec![Full { name: "list", bytes: list }, Full { name: "run", bytes: run }, Full { name: "pso", bytes: pso }, Full { name: "safe", bytes: safe }]
}

/// Offsets of the records, and the file's length.
pub fn boundaries(file: &[u8]) -> Vec<usize> {
    let mut at = 0;
    let mut all = vec![0];
    while at < file.len() {
        at += 1 + body_length(file[at]).unwrap();
        all.push(at);
    }
    all
}

pub fn sweeps(full: &Full, each: &mut dyn FnMut(&str, Vec<u8>)) {
    let file = &full.bytes;
    for length in 0..=file.len() {
        each(&format!("{} cut to {}", full.name, length), file[..length].to_vec());
    }
    for at in 0..file.len() {
        for value in 0..=255 {
            let mut changed = file.clone();
            changed[at] = value;
            each(&format!("{} with byte {} = {}", full.name, at, value), changed);
        }
    }
    for at in boundaries(file) {
        for kind in 0..=255 {
            // The kind alone at the file's end, and the kind with a body of zeros before the rest.
            let mut cut = file[..at].to_vec();
            cut.push(kind);
            each(&format!("{} cut to {} and kind {}", full.name, at, kind), cut.clone());
            cut.extend(vec![0; body_length(kind).unwrap_or(0)]);
            cut.extend(&file[at..]);
            each(&format!("{} with a record {} at {}", full.name, kind, at), cut);
        }
    }
    // Each record left out, doubled, and swapped with the next.
    let all = boundaries(file);
    for n in 0..all.len() - 1 {
        let (from, to) = (all[n], all[n + 1]);
        let record = &file[from..to];
        each(&format!("{} without its record at {}", full.name, from), [&file[..from], &file[to..]].concat());
        each(&format!("{} with its record at {} twice", full.name, from), [&file[..to], record, &file[to..]].concat());
        if n + 2 < all.len() {
            let after = &file[to..all[n + 2]];
            each(&format!("{} with records swapped at {}", full.name, from), [&file[..from], after, record, &file[all[n + 2]..]].concat());
        }
    }
}

/// The 01 with numbers in range and outside, for present variables and absent ones, then the rest of a file.
pub fn shapes(each: &mut dyn FnMut(&str, Vec<u8>)) {
    for variables in 0..=5u8 {
        for number in 0..5 * 5 * 5 * 5 {
            let count = |at: u32| [0, 1, 4, 5, 255][number / 5usize.pow(at) % 5];
            let counts = [count(0), count(1), count(2), count(3)];
            // A process number outside its range comes with every seventh of them.
            for processes in if number % 7 == 0 { &[1, 0, 4, 5, 255][..] } else { &[1][..] } {
                let shape = [&[1, *processes, variables][..], &counts].concat();
                let rest = [&[2, 1, 0].repeat(*processes as usize & 7)[..], &[4, 0, 0, 0, 0, 0x0f, 1, 0x1f, 0, 0, 0, 0]].concat();
                each("a shape", [&shape[..], &rest].concat());
            }
        }
    }
    for length in 0..7 {
        for byte in [0, 1, 5] {
            each("a shape cut", [&[1][..], &[byte].repeat(length)].concat());
        }
    }
}

/// The 1F of every shape, for runs of both machines: each of its bytes in turn with values in range and outside, of existing variables and
/// absent ones; cut; left out; twice; and after a claim of 0, or one that is none.
pub fn memories(each: &mut dyn FnMut(&str, Vec<u8>)) {
    for processes in 1..=4u8 {
        for variables in 1..=4u8 {
            for (first, claim) in [(1u8, 1), (2, 1), (3, 1), (4, 1), (1, 2), (2, 2), (3, 2), (4, 2), (4, 3), (4, 255)] {
                // Another count for each variable.
                let mut counts = [0; 4];
                for v in 0..variables {
                    counts[v as usize] = 1 + (first - 1 + v) % 4;
                }
                let head = [&[1, processes, variables][..], &counts, &[2, 1, 0].repeat(processes as usize), &[4, 0, 0, 0, 0]].concat();
                let run = [&head[..], &[0x0f, claim]].concat();
                let what = format!("shape {} {} {:?}, claim {}, its memory", processes, variables, counts, claim);
                for at in 0..4 {
                    for byte in [0, 1, 2, 3, 4, 5, 0x1f, 0x7f, 0x80, 0xfe, 0xff] {
                        let mut memory = counts.map(|count| count.max(1) - 1);
                        memory[at] = byte;
                        for end in [&[][..], &[0x22, 0]] {
                            each(&what, [&run[..], &[0x1f], &memory, end].concat());
                        }
                        each(&what, [&head[..], &[0x0f, 0, 0x1f], &memory].concat());
                        each(&what, [&run[..], &[0x1f, 0, 0, 0, 0, 0x1f], &memory].concat());
                        each(&what, [&run[..], &[0x1f], &memory[..at]].concat());
                    }
                }
                for end in [&[][..], &[0x20], &[0x22, 0], &[0x10], &[0x1f], &[0x0f, claim, 0x1f, 0, 0, 0, 0]] {
                    each(&what, [&run[..], end].concat());
                    each(&what, [&run[..], end, &[0x1f, 0, 0, 0, 0]].concat());
                }
            }
        }
    }
}

/// Files around the count limits, each with the work areas that matter to it.
pub fn limits(each: &mut dyn FnMut(&str, Vec<u8>, usize)) {
    let p11 = hex("01 01 01 02 00 00 00  02 02 00");
    let target = hex("04 01 00 00 00");
    let claim0 = hex("0F 00");
    let claim1 = hex("0F 01  1F 00 00 00 00");
    let e = hex("10 01 00 00 00 01 00 00 00");
    let m = hex("11 00 00 FF 00 00 00");
    let w = hex("12 00 00 FF");
    let nop = hex("03 00 00 00 00 00 00 00");
    let all = [&e[..], &m, &e, &m, &w, &e, &m, &m, &e, &m, &m, &w].concat();
    let head = [&p11[..], &target, &claim0].concat();
    let small = AREA_LEAST;
    for count in [0, 1, 255, 256, 257, 258] {
        for end in [&[][..], &target, &[0x03], &[0x07]] {
            let file = [&p11[..], &nop.repeat(count), end].concat();
            each(&format!("{} transitions", count), file, small);
        }
        let file = [&p11[..], &nop.repeat(count), &target, &claim0, &all].concat();
        each(&format!("{} transitions and a list", count), file, small);
        let last = [0x20, (count.max(1) - 1) as u8];
        let file = [&p11[..], &nop.repeat(count), &hex("04 00 00 00 00"), &claim1, &last].concat();
        each(&format!("{} transitions and a run", count), file, small);
    }
    for count in [0, 1, 16, 17, 4_095, 4_096, 4_097, 4_098] {
        for evidence in [&all[..], &all[16..], &[]] {
            let file = [&p11[..], &target.repeat(count), &claim0, evidence].concat();
            each(&format!("{} targets", count), file, small);
        }
    }
    for count in [0, 1, 15, 16, 17] {
        let entry = [&e[..], &m.repeat(count)].concat();
        each(&format!("{} messages", count), [&head[..], &all, &entry].concat(), small);
        each(&format!("{} messages, entry first", count), [&head[..], &entry, &all].concat(), small);
        for pointer in [0, 1, 15, 16, 17, 255] {
            let two = hex("01 02 01 02 00 00 00  02 02 00  02 02 00  04 01 01 00 00  0F 00  10 01 01 00 00 01");
            let file = [&two[..], &[pointer, 0, 0], &m.repeat(count)].concat();
            each(&format!("pointer {} of {} messages", pointer, count), file, small);
        }
    }
    for count in [0, 1, 7, 8, 9] {
        let entry = [&e[..], &m, &w.repeat(count)].concat();
        each(&format!("{} waiting values", count), [&head[..], &all, &entry].concat(), small);
        for last in [hex("12 00 00 07"), hex("12 00 01 00"), hex("12 01 00 00"), hex("12 00 00"), hex("12 00 00 01")] {
            let file = [&head[..], &all, &entry, &last].concat();
            each(&format!("{} waiting values and one more", count), file, small);
        }
        // All 16 queues of the largest shape.
        let mut full = hex("01 04 04 04 04 04 04  02 01 00  02 01 00  02 01 00  02 01 00  04 00 00 00 00  0F 00  10 00 00 00 00 01 01 01 01");
        for process in 0..4 {
            for variable in 0..4 {
                full.extend([0x12, process, variable, 3].repeat(count));
            }
        }
        full.extend(hex("11 03 03 FF FF FF FF").repeat(16));
        each(&format!("16 queues of {}", count), full, small);
    }
    let start = [&p11[..], &nop, &hex("04 00 00 00 00"), &claim1].concat();
    for count in [0, 1, 1_023, 1_024, 1_025] {
        each(&format!("{} steps", count), [&start[..], &hex("20 00").repeat(count)].concat(), small);
        each(&format!("{} steps and a bad one", count), [&start[..], &hex("20 00").repeat(count), &hex("22 01")].concat(), small);
        each(&format!("{} steps and a refused one", count), [&start[..], &hex("20 00").repeat(count), &hex("22 00")].concat(), small);
    }
    // A thousand waiting values, then serialised as far as steps allow; a thousand messages.
    let writes = hex("01 01 01 04 00 00 00  02 01 00  03 00 00 02 00 03 00 00  03 00 00 05 00 00 00 00  04 00 00 00 00  0F 01  1F 00 00 00 00");
    each("1,024 waiting values", [&writes[..], &hex("20 00").repeat(1_024)].concat(), small);
    each("512 waiting and serialised", [&writes[..], &hex("20 00").repeat(512), &hex("21 00 00").repeat(512)].concat(), small);
    each("341 three times", [&writes[..], &hex("20 00").repeat(341), &hex("21 00 00").repeat(341), &hex("22 00").repeat(342)].concat(), small);
    each("1,024 arw", [&writes[..], &hex("20 01").repeat(1_024)].concat(), small);
    // The same for PSO: waiting values, and marks in all buffers of a process, put there and removed.
    let start = [&p11[..], &nop, &hex("04 00 00 00 00  0F 02  1F 00 00 00 00")].concat();
    for count in [0, 1, 1_023, 1_024, 1_025] {
        for end in [&[][..], &[0x22, 1], &[0x22, 0], &[0x21, 0, 0]] {
            each(&format!("{} PSO steps and another", count), [&start[..], &hex("20 00").repeat(count), end].concat(), small);
        }
    }
    let mut full = hex("01 04 04 04 04 04 04  02 01 00  02 01 00  02 01 00  02 01 00");
    for process in 0..4 {
        full.extend([3, process, 0, 4, 0, 0, 0, 0]);
        for variable in 0..4 {
            full.extend([3, process, 0, 2, variable, 3, 0, 0]);
        }
    }
    full.extend(hex("04 00 00 00 00  0F 02  1F 00 01 02 03"));
    for process in 0..4u8 {
        let (fence, write, remove) = ([0x20, 5 * process], [0x20, 5 * process + 1 + process], [0x22, process]);
        let update = [0x21, process, process];
        each("1,024 marks in each buffer", [&full[..], &fence.repeat(1_024)].concat(), small);
        each("512 marks put there and removed", [&full[..], &fence.repeat(512), &remove.repeat(512)].concat(), small);
        each("one mark more removed", [&full[..], &fence.repeat(511), &remove.repeat(512)].concat(), small);
        each("1,024 values", [&full[..], &write.repeat(1_024)].concat(), small);
        each("512 values updated", [&full[..], &write.repeat(512), &update.repeat(512)].concat(), small);
        each("values and marks", [&full[..], &[write, fence].concat().repeat(256), &[&update[..], &remove].concat().repeat(256)].concat(), small);
        each("a value behind a mark", [&full[..], &[fence, write].concat().repeat(256), &[&update[..], &remove].concat()].concat(), small);
    }
    let round: Vec<u8> = (0..4u8).flat_map(|p| [0x20, 5 * p, 0x20, 5 * p + 1, 0x20, 5 * p + 4]).collect();
    each("marks and values of all processes", [&full[..], &round.repeat(85)].concat(), small);
    // Entries: as many as an area allows, one more, and the work areas around.
    for area in [0, 1, 16_383, 16_384, 16_396, 32_768, 65_535, small, 65_537, 65_547, 65_548, 65_559, 65_560, 80_000, 131_072] {
        let allowed = reference::entries_allowed(area);
        for count in [0, 1, allowed.saturating_sub(1), allowed, allowed + 1] {
            let four = [&head[..], &all.repeat(count / 4), &[&e[..], &m].concat().repeat(count % 4)].concat();
            each(&format!("{} entries, area {}", count, area), four, area);
        }
        each(&format!("{} entries and half a 10, area {}", allowed, area), [&head[..], &[&e[..], &m].concat().repeat(allowed), &[0x10]].concat(), area);
        each(&format!("{} entries, a bad one, a 10, area {}", allowed, area), [&head[..], &[&e[..], &m].concat().repeat(allowed.saturating_sub(1)), &e, &e].concat(), area);
    }
    let most = AREA_MOST;
    for (count, area) in [
        (524_288, most),
        (524_287, most - 12),
        (524_287, most - 13),
        (524_287, most - 1),
        (524_288, most - 1),
        (524_289, most),
        (524_289, most + 12_000),
        (524_288, most + 1),
        (524_288, most + 12),
    ] {
        let file = [&head[..], &all.repeat(count / 4), &[&e[..], &m].concat().repeat(count % 4)].concat();
        each(&format!("{} entries, area {}", count, area), file, area);
    }
}
