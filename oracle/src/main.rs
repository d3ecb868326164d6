//! Makes lists of calls and answers them. `regenerate` builds and runs it.
//!   oracle calls WHICH             writes the list to standard output: a part that the crate slotmap knows, then the bent part
//!   oracle answers WHICH           answers the list on standard input, and counts the accepted and the refused calls of each part on standard error
//! WHICH is dense, sweep, image, written or secondary. The first part is answered by the crate slotmap 1.1.1, unchanged, and the plain reading of the rules
//! has to answer the same; the bent part, from the first line on that bends, by the plain reading alone.
mod bent;
mod bent_maps;
mod bent_tables;
mod dense;
mod dice;
mod generate;
mod image;
mod lines;
mod plain;
mod plain_calls;
mod plain_image;
mod plain_secondary;
#[cfg(test)]
mod plain_tests;
mod secondary;

use lines::{Answer, Line};
use plain_calls::{PlainMap, PlainTable, Reading};
use std::collections::BTreeMap;
use std::io::{BufRead, Write};

/// A panic that the crate owes, at a key that is not detached, is an answer; any other is told.
fn hush() {
    std::panic::set_hook(Box::new(|info| {
        let payload = info.payload();
        let text = payload.downcast_ref::<&str>().copied().or(payload.downcast_ref::<String>().map(|s| s.as_str()));
        if text != Some("key is not detached") {
            eprintln!("{info}");
        }
    }));
}

/// The calls of a part, by letter and by refusal (0: accepted).
#[derive(Default)]
struct Counts(BTreeMap<char, BTreeMap<u32, u64>>);

impl Counts {
    fn add(&mut self, op: u8, answer: &Answer) {
        let outcome = if let Answer::Refused(n) = answer { *n } else { 0 };
        *self.0.entry(op as char).or_default().entry(outcome).or_default() += 1;
    }

    fn show(&self) {
        let mut sums: BTreeMap<u32, u64> = BTreeMap::new();
        for (op, outcomes) in &self.0 {
            eprintln!("{op}  {}", Counts::line(outcomes));
            for (n, count) in outcomes {
                *sums.entry(*n).or_default() += count;
            }
        }
        eprintln!("calls {}: {}", sums.values().sum::<u64>(), Counts::line(&sums));
    }

    fn line(outcomes: &BTreeMap<u32, u64>) -> String {
        let refused: Vec<String> = outcomes.iter().filter(|o| *o.0 > 0).map(|(n, count)| format!("refused {n}: {count}")).collect();
        format!("accepted {}  {}", outcomes.get(&0).unwrap_or(&0), refused.join("  "))
    }
}

fn answers(mut by_crate: impl FnMut(&Line) -> Answer, mut reading: impl Reading) {
    let mut out = std::io::BufWriter::new(std::io::stdout().lock());
    let (mut known, mut bent) = (Counts::default(), Counts::default());
    let (mut bends, mut met) = (false, 0);
    for text in std::io::stdin().lock().lines() {
        let text = text.unwrap();
        let line = Line::parse(&text);
        bends |= bent::bends(line.op);
        let sound = !bends || reading.is_sound();
        let answer = reading.call(&line);
        if !bends {
            assert_eq!(by_crate(&line), answer, "the crate and the plain reading, at {text}");
        }
        if answer == Answer::Silent {
            continue;
        }
        met += (!sound && !matches!(line.op, b'C' | b'L' | b's')) as u64;
        if bends { &mut bent } else { &mut known }.add(line.op, &answer);
        writeln!(out, "{answer}").unwrap();
    }
    out.flush().unwrap();
    eprintln!("by the crate");
    known.show();
    eprintln!("bent, by the plain reading");
    bent.show();
    eprintln!("of these {met} on bent tables, states and fresh ones not counted");
}

fn answers_dense(output: usize) {
    let mut t = dense::Dense::new(output);
    answers(|line| t.call(line), PlainTable::new(output));
}

fn with(first: String, bent: fn(&str) -> String) {
    print!("{first}{}", bent(&first));
}

fn main() {
    hush();
    let words: Vec<String> = std::env::args().skip(1).collect();
    let words: Vec<&str> = words.iter().map(|w| w.as_str()).collect();
    match words[..] {
        ["calls", "dense"] => with(generate::dense(), bent_tables::dense),
        ["calls", "sweep"] => with(generate::sweep(), bent_tables::sweep),
        ["calls", "secondary"] => with(generate::secondary(), bent_maps::secondary),
        ["calls", "image"] => with(generate::images(), bent_tables::images),
        ["calls", "written"] => with(generate::written(), bent_tables::written),
        ["answers", "dense"] | ["answers", "image"] | ["answers", "written"] => answers_dense(0),
        ["answers", "sweep"] => answers_dense(dense::OUTPUT),
        ["answers", "secondary"] => {
            let mut t = secondary::Secondary::new();
            answers(|line| t.call(line), PlainMap::new());
        }
        _ => {
            eprintln!("usage: oracle calls|answers dense|sweep|image|written|secondary");
            std::process::exit(2);
        }
    }
}
