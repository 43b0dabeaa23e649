//! evidence safe MOST      a file with claim 0 and a closed list of at most MOST entries
//! evidence run WAITING    a file with claim 1 and a shortest run, from any memory, that keeps at most WAITING waiting values per process
//! evidence pso WAITING    the same with claim 2, of the PSO machine; marks count too
//! The program is on standard input: records 01 to 04, or any whole file. Exit status 1 and nothing written if there is none.

mod search;

use reference::{writing, Lent, Machine};
use std::io::{Read, Write};

fn main() {
    let words: Vec<String> = std::env::args().collect();
    let number: usize = words.get(2).and_then(|n| n.parse().ok()).expect("evidence safe|run|pso NUMBER");
    let mut file = Vec::new();
    std::io::stdin().read_to_end(&mut file).expect("standard input");
    let (program, _) = reference::read(&file, 524_288)
        .or_else(|_| reference::read(Lent::Pair(&file, &[0x0f, 0]), 0))
        .unwrap_or_else(|refusal| panic!("refused {} {}", refusal.number, refusal.place));
    let out = match words[1].as_str() {
        "safe" => search::closed_list(&program, &[], number).map(|list| writing::list_file(&program, &list)),
        kind => match search::shortest_run(&program, if kind == "pso" { Machine::Pso } else { Machine::Pws }, &program.memories(), number) {
            Ok(run) => Some(writing::run_file(&program, &run)),
            Err(seen) => {
                eprintln!("no run among all {} configurations within the bound", seen);
                None
            }
        },
    };
    match out {
        Some(bytes) => std::io::stdout().write_all(&bytes).expect("standard output"),
        None => std::process::exit(1),
    }
}
