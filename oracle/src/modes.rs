//! What the program `oracle` does with its input, by its first argument.

use std::fmt::Write;
use std::time::{Duration, Instant};

use crate::counts::Counts;
use crate::job::{self, Reader};
use crate::listing::{self, line};
use crate::loaded::Loaded;
use crate::script;

/// Answers an input in the mode named, or says what is wrong.
pub fn answer(mode: &str, input: &[u8]) -> Result<Vec<u8>, String> {
    let counts = &mut Counts::default();
    Ok(match mode {
        "sheet" => sheet(input, counts).into_bytes(),
        "batch" => prefixed(input, |job| sheet(job, counts))?,
        "script" => script::transcript(input, counts).into_bytes(),
        "scripts" => prefixed(input, |bytes| script::transcript(bytes, counts))?,
        "time" => time(input)?.into_bytes(),
        "count" => {
            for_each(input, |job| _ = sheet(job, counts))?;
            counts.print().into_bytes()
        }
        "count-scripts" => {
            for_each(input, |bytes| _ = script::transcript(bytes, counts))?;
            counts.print_scripts().into_bytes()
        }
        _ => return Err(format!("unknown mode {mode}")),
    })
}

/// Calls `f` on each part of an input of u32-length-prefixed parts.
fn for_each(input: &[u8], mut f: impl FnMut(&[u8])) -> Result<(), String> {
    let mut reader = Reader::new(input);
    let cut = |_| "the batch ends inside a part".to_string();
    while !reader.is_at_end() {
        let length = reader.u32().map_err(cut)?;
        f(reader.take(length as usize).map_err(cut)?);
    }
    Ok(())
}

/// Answers each part of a batch, with the same prefixes.
fn prefixed(input: &[u8], mut f: impl FnMut(&[u8]) -> String) -> Result<Vec<u8>, String> {
    let mut output = Vec::new();
    for_each(input, |part| {
        let text = f(part);
        output.extend((text.len() as u32).to_le_bytes());
        output.extend(text.as_bytes());
    })?;
    Ok(output)
}

/// The sheet of a job.
fn sheet(bytes: &[u8], counts: &mut Counts) -> String {
    let mut text = String::new();
    let job = job::load(bytes);
    counts.loading(&job);
    match job {
        Err(refusal) => listing::refused(&mut text, refusal),
        Ok(job) => {
            let mut loaded = Loaded::new(job);
            let end = loaded.run_whole(loaded.job.budget);
            let stats = loaded.around.stats;
            counts.run(end, &stats);
            listing::sheet(&mut text, &loaded, end, stats.dequeued);
        }
    }
    text
}

/// The time of `Allocator::run` alone for each job that is not refused. Each
/// job is run once before its clock starts, so that no buffer grows while it
/// goes; then the matrix is brought back to the fresh job.
fn time(input: &[u8]) -> Result<String, String> {
    let mut text = String::new();
    let mut total = Duration::ZERO;
    let (mut number, mut timed, mut dequeues) = (0, 0, 0);
    for_each(input, |bytes| {
        if let Ok(job) = job::load(bytes) {
            let mut loaded = Loaded::new(job);
            let budget = loaded.job.budget;
            loaded.run_whole(budget);
            loaded.clear();
            let start = Instant::now();
            loaded.run_whole(budget);
            let elapsed = start.elapsed();
            let made = loaded.around.stats.dequeued;
            line!(
                text,
                "job {number} dequeues {made} ns {}",
                elapsed.as_nanos()
            );
            total += elapsed;
            timed += 1;
            dequeues += made;
        }
        number += 1;
    })?;
    line!(
        text,
        "total jobs {timed} dequeues {dequeues} ns {}",
        total.as_nanos()
    );
    Ok(text)
}
