//! search pws|pso WAITING MEMORY <PROGRAM: a shortest run from this memory, four digits or `any`, as an evidence file, that keeps at most WAITING waiting values per
//! process (for PSO marks count too). Exit status 1, with the number of configurations within the bound, if there is none.

#[path = "../corpora/search.rs"]
mod search;

use reference::{writing, Lent, Machine};
use std::io::{Read, Write};

fn main() {
    let words: Vec<String> = std::env::args().skip(1).collect();
    let machine = if words[0] == "pso" { Machine::Pso } else { Machine::Pws };
    let waiting = words[1].parse().expect("a number");
    let mut file = Vec::new();
    std::io::stdin().read_to_end(&mut file).expect("standard input");
    let (program, _) = reference::read(Lent::Pair(&file, &[0x0f, 0]), 0).unwrap_or_else(|refusal| panic!("refused {} {}", refusal.number, refusal.place));
    let memories = match words[2].as_bytes() {
        b"any" => program.memories(),
        digits => vec![[0, 1, 2, 3].map(|n| digits[n] - b'0')],
    };
    match search::shortest_run(&program, machine, &memories, waiting) {
        Ok(run) => std::io::stdout().write_all(&writing::run_file(&program, &run)[file.len()..]).expect("standard output"),
        Err(seen) => {
            println!("{seen}");
            std::process::exit(1)
        }
    }
}
