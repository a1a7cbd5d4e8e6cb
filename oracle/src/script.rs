//! Scripts: a job and direct calls on it. The format is in `oracle/README.md`.

use std::fmt::Write;

use crate::Stats;
use crate::counts::Counts;
use crate::internal::allocator::direct::End;
use crate::job::{self, Answer, Reader, Refusal, Segment};
use crate::listing::{self, line};
use crate::loaded::{Loaded, Report};

/// A call and its arguments.
enum Call {
    Place {
        number: u16,
        register: u8,
        weight: u32,
    },
    Evict {
        number: u16,
    },
    Run {
        budget: u32,
    },
    Check {
        register: u8,
        segments: Vec<Segment>,
        full: bool,
    },
    Spare {
        unit: u8,
        from: u32,
        to: u32,
    },
}

/// Reads a call; none where its kind is unknown or the bytes end inside it.
fn read_call(reader: &mut Reader) -> Option<Call> {
    let kind = reader.u8().ok()?;
    read_arguments(reader, kind).ok().flatten()
}

fn read_arguments(reader: &mut Reader, kind: u8) -> Answer<Option<Call>> {
    Ok(Some(match kind {
        1 => Call::Place {
            number: reader.u16()?,
            register: reader.u8()?,
            weight: reader.u32()?,
        },
        2 => Call::Evict {
            number: reader.u16()?,
        },
        3 => Call::Run {
            budget: reader.u32()?,
        },
        4 | 5 => {
            let register = reader.u8()?;
            let count = reader.u8()?;
            let segments = (0..count)
                .map(|_| reader.segment())
                .collect::<Answer<_>>()?;
            Call::Check {
                register,
                segments,
                full: kind == 5,
            }
        }
        6 => Call::Spare {
            unit: reader.u8()?,
            from: reader.u32()?,
            to: reader.u32()?,
        },
        _ => return Ok(None),
    }))
}

/// The job at the head of a script.
fn read_job<'a>(reader: &mut Reader<'a>) -> Option<&'a [u8]> {
    let length = reader.u32().ok()?;
    reader.take(length as usize).ok()
}

/// Carries a script out, adds to the counts and returns the transcript.
pub fn transcript(bytes: &[u8], counts: &mut Counts) -> String {
    let mut text = String::new();
    let mut reader = Reader::new(bytes);
    let Some(job) = read_job(&mut reader) else {
        counts.bad_scripts += 1;
        return "bad script\n".to_string();
    };
    let loaded = job::load(job);
    counts.loading(&loaded);
    match loaded {
        Err(refusal) => listing::refused(&mut text, refusal),
        Ok(job) => calls(&mut text, &mut reader, &mut Loaded::new(job), counts),
    }
    text
}

fn calls(text: &mut String, reader: &mut Reader, loaded: &mut Loaded, counts: &mut Counts) {
    loaded.start();
    while !reader.is_at_end() {
        let Some(call) = read_call(reader) else {
            counts.bad_scripts += 1;
            line!(text, "bad script");
            return;
        };
        carry_out(text, call, loaded, counts);
    }
}

/// Carries a call out and prints its answer; a call that may change the state
/// is followed by the whole state.
fn carry_out(text: &mut String, call: Call, loaded: &mut Loaded, counts: &mut Counts) {
    match call {
        Call::Check {
            register,
            segments,
            full,
        } => {
            let name = if full { "full check" } else { "short check" };
            check(
                text,
                counts.call(name, loaded.check(register, &segments, full)),
            );
        }
        Call::Spare { unit, from, to } => {
            spare(text, counts.call("spare", loaded.spare(unit, from, to)));
        }
        Call::Place {
            number,
            register,
            weight,
        } => {
            let answer = loaded.place(number, register, weight);
            ok_or_refused(text, counts.call("place", answer));
            listing::state(text, loaded);
        }
        Call::Evict { number } => {
            let answer = loaded.evict(number);
            ok_or_refused(text, counts.call("evict", answer));
            listing::state(text, loaded);
        }
        Call::Run { budget } => {
            run(text, budget, loaded, counts);
            listing::state(text, loaded);
        }
    }
}

/// Runs with recorders that hold this run alone.
fn run(text: &mut String, budget: u32, loaded: &mut Loaded, counts: &mut Counts) {
    loaded.around.stats = Stats::default();
    let end = loaded.run(budget);
    let stats = loaded.around.stats;
    counts.run(end, &stats);
    _ = counts.call("run", Ok(()));
    listing::end(text, end, stats.dequeued);
}

fn spare(text: &mut String, answer: Answer<bool>) {
    match answer {
        Err(refusal) => listing::refused(text, refusal),
        Ok(true) => line!(text, "spare"),
        Ok(false) => line!(text, "busy"),
    }
}

fn ok_or_refused(text: &mut String, answer: Answer<()>) {
    match answer {
        Err(refusal) => listing::refused(text, refusal),
        Ok(()) => line!(text, "ok"),
    }
}

fn check(text: &mut String, answer: Answer<Vec<Report>>) {
    let reports = match answer {
        Err(refusal) => return listing::refused(text, refusal),
        Ok(reports) => reports,
    };
    line!(text, "check");
    for Report {
        unit,
        segment,
        from,
        to,
        holder,
    } in reports
    {
        match holder {
            Some(number) => line!(text, "r {unit} {segment} {from} {to} v {number}"),
            None => line!(text, "r {unit} {segment} {from} {to} fixed"),
        }
    }
}
