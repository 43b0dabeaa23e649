//! The separate judge as a program.
//!   judge [--area BYTES] [--record] [FILE]             one combined file, or standard input, judged with a work area of that size (default
//!                                                      6,307,840 bytes); --record: the offending record too, as file, offset and length
//!   judge [--area BYTES] [--record] PROGRAM EVIDENCE   a program file and an evidence file
//!   judge --input                                      standard input as the proved program judges it (number 14, area of 65,536 bytes)
//!   judge --serve                                      answers in the protocol of tests/caller, for trying edits of this judge

use reference::{judge, judge_input, Lent};
use std::io::{Read, Write};

fn serve() -> std::io::Result<()> {
    let mut input = std::io::stdin().lock();
    let mut output = std::io::stdout().lock();
    let mut head = [0u8; 24];
    while input.read_exact(&mut head).is_ok() {
        let number = |at: usize| u64::from_le_bytes(head[8 * at..8 * at + 8].try_into().unwrap());
        let mut get = |length: u64| {
            let mut bytes = vec![0u8; length as usize];
            input.read_exact(&mut bytes).map(|_| bytes)
        };
        // A combined file has no program file before it.
        let program = if number(1) == u64::MAX { None } else { Some(get(number(1))?) };
        let file = get(number(2))?;
        let lent = program.as_ref().map_or(Lent::Combined(&file), |program| Lent::Pair(program, &file));
        writeln!(output, "{}", judge(lent, number(0) as usize))?;
        output.flush()?;
    }
    Ok(())
}

fn main() -> std::io::Result<()> {
    let mut area = reference::AREA_MOST;
    let mut files = Vec::new();
    let mut program = false;
    let mut record = false;
    let mut words = std::env::args().skip(1);
    while let Some(word) = words.next() {
        match word.as_str() {
            "--serve" => return serve(),
            "--input" => program = true,
            "--record" => record = true,
            "--area" => area = words.next().and_then(|n| n.parse().ok()).expect("--area needs a number"),
            _ => files.push(std::fs::read(word)?),
        }
    }
    if files.is_empty() {
        let mut file = Vec::new();
        std::io::stdin().read_to_end(&mut file)?;
        files.push(file);
    }
    if program {
        println!("{}", judge_input(&files[0]));
        return Ok(());
    }
    let lent = match &files[..] {
        [file] => Lent::Combined(file),
        [program, evidence] => Lent::Pair(program, evidence),
        _ => panic!("one file, or a program file and an evidence file"),
    };
    let answer = judge(lent, area);
    if record {
        println!("{}", answer);
    } else {
        println!("{}", answer.verdict);
    }
    Ok(())
}
