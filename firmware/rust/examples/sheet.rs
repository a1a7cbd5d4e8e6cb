//! Prints the sheet of the job on standard input: `cargo run --offline --example sheet < JOB`.
use std::io::Read;

fn main() {
    let mut job = Vec::new();
    std::io::stdin().read_to_end(&mut job).expect("standard input");
    let mut stage = match pezhkadu::Stage::load(&job) {
        Ok(stage) => stage,
        Err(pezhkadu::Refused(n)) => return println!("refused {n}"),
    };
    let end = stage.run(stage.budget());
    for line in stage.lines(end) {
        print!("{line}");
    }
}
