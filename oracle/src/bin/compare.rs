//! Runs a program beside the oracle on generated inputs.
//!
//! `compare PROGRAM jobs|scripts KIND SEED COUNT [OPTION..]` gives each input
//! to PROGRAM (a command line, split at spaces) on its standard input and
//! compares what it prints with the oracle's answer. `oracle` and `generate`
//! are those beside this program. On a difference it shrinks the shortest
//! differing input, prints it in hexadecimal with both answers, and fails. The
//! last line is always `N compared, D different`. Options:
//!
//! - `--batch-arg WORD`: call `PROGRAM WORD` with many inputs, each after its
//!   length as a u32; it answers in the same form.
//! - `--threads N`: how many calls run at a time, 2 by default.
//! - `--seconds N`: how long a call may take, 60 by default.

use std::io::{self, BufReader, Read, Write};
use std::ops::Range;
use std::path::PathBuf;
use std::process::{Child, ChildStdout, Command, ExitCode, Stdio};
use std::sync::{Arc, Mutex};
use std::thread;
use std::time::{Duration, Instant};

// ---------------------------------------------------------------------------
// Calling programs
// ---------------------------------------------------------------------------

/// The calls under way, so that those which take too long can be ended.
#[derive(Default)]
struct Calls(Mutex<Vec<(Instant, Arc<Mutex<Child>>)>>);

impl Calls {
    /// Ends late calls until the program itself ends.
    fn watch(&self) {
        loop {
            thread::sleep(Duration::from_millis(100));
            for (limit, child) in self.0.lock().unwrap().iter() {
                if Instant::now() > *limit {
                    // A call that is being waited for has ended already.
                    if let Ok(mut child) = child.try_lock() {
                        let _ = child.kill();
                    }
                }
            }
        }
    }

    /// What a command prints for an input. Where it is ended by a signal, a
    /// line says so, which no right answer has.
    fn answer(&self, words: &[String], input: &[u8], seconds: u64) -> io::Result<Vec<u8>> {
        let mut child = Command::new(&words[0])
            .args(&words[1..])
            .stdin(Stdio::piped())
            .stdout(Stdio::piped())
            .stderr(Stdio::null())
            .spawn()?;
        let stdin = child.stdin.take().expect("piped");
        let mut stdout = child.stdout.take().expect("piped");
        let child = Arc::new(Mutex::new(child));
        let limit = Instant::now() + Duration::from_secs(seconds);
        self.0.lock().unwrap().push((limit, child.clone()));

        let mut printed = Vec::new();
        thread::scope(|scope| {
            // A program may end without reading all: that is no error here.
            // Its input ends when `stdin` is dropped, at the end of this.
            let give = move || {
                let mut stdin = stdin;
                let _ = stdin.write_all(input);
            };
            // What fits the pipe needs no second thread.
            if input.len() <= 32_768 {
                give();
            } else {
                scope.spawn(give);
            }
            stdout.read_to_end(&mut printed)
        })?;
        let status = child.lock().unwrap().wait()?;
        self.0
            .lock()
            .unwrap()
            .retain(|(_, other)| !Arc::ptr_eq(other, &child));
        if status.code().is_none() {
            printed.extend(format!("(the call ended by a signal: {status})\n").bytes());
        }
        Ok(printed)
    }
}

fn join(inputs: &[Vec<u8>]) -> Vec<u8> {
    let mut batch = Vec::new();
    for input in inputs {
        batch.extend((input.len() as u32).to_le_bytes());
        batch.extend(input);
    }
    batch
}

/// The parts of a batch; what is missing in it is an answer that says so.
fn split(batch: &[u8], count: usize) -> Vec<Vec<u8>> {
    let mut reader = Reader(batch);
    (0..count)
        .map(|_| {
            let length = reader.number(4).unwrap_or(u64::MAX);
            let part = reader.bytes(usize::try_from(length).unwrap_or(usize::MAX));
            part.map_or(b"(no answer)\n".to_vec(), |part| part.to_vec())
        })
        .collect()
}

/// Both sides of the comparison.
struct Sides {
    calls: Arc<Calls>,
    oracle: Vec<String>,
    program: Vec<String>,
    /// The program takes a batch at a time.
    in_batches: bool,
    seconds: u64,
}

impl Sides {
    fn oracle(&self, inputs: &[Vec<u8>]) -> io::Result<Vec<Vec<u8>>> {
        let printed = self
            .calls
            .answer(&self.oracle, &join(inputs), self.seconds)?;
        Ok(split(&printed, inputs.len()))
    }

    fn program(&self, inputs: &[Vec<u8>]) -> io::Result<Vec<Vec<u8>>> {
        if self.in_batches {
            let printed = self
                .calls
                .answer(&self.program, &join(inputs), self.seconds)?;
            return Ok(split(&printed, inputs.len()));
        }
        inputs
            .iter()
            .map(|input| self.calls.answer(&self.program, input, self.seconds))
            .collect()
    }

    /// The first input on which the sides differ, without more calls of the
    /// program than that takes.
    fn first_different(&self, inputs: &[Vec<u8>]) -> io::Result<Option<usize>> {
        let right = self.oracle(inputs)?;
        if self.in_batches {
            let answers = self.program(inputs)?;
            return Ok((0..inputs.len()).find(|i| right[*i] != answers[*i]));
        }
        for (i, input) in inputs.iter().enumerate() {
            if self.calls.answer(&self.program, input, self.seconds)? != right[i] {
                return Ok(Some(i));
            }
        }
        Ok(None)
    }
}

// ---------------------------------------------------------------------------
// Inputs in parts, to shrink them
// ---------------------------------------------------------------------------

/// Reads numbers from the front of bytes.
struct Reader<'a>(&'a [u8]);

impl<'a> Reader<'a> {
    fn bytes(&mut self, count: usize) -> Option<&'a [u8]> {
        let (front, rest) = self.0.split_at_checked(count)?;
        self.0 = rest;
        Some(front)
    }

    fn number(&mut self, width: usize) -> Option<u64> {
        let bytes = self.bytes(width)?;
        Some(bytes.iter().rev().fold(0, |n, b| n << 8 | *b as u64))
    }

    fn optional(&mut self, stands: bool, width: usize) -> Option<Option<u64>> {
        if stands {
            self.number(width).map(Some)
        } else {
            Some(None)
        }
    }

    /// A count and as many items, if the map's bit stands.
    fn table<T>(
        &mut self,
        stands: bool,
        width: usize,
        mut item: impl FnMut(&mut Self) -> Option<T>,
    ) -> Option<Vec<T>> {
        let count = if stands { self.number(width)? } else { 0 };
        (0..count).map(|_| item(self)).collect()
    }
}

fn put(out: &mut Vec<u8>, width: usize, number: u64) {
    out.extend(&number.to_le_bytes()[..width]);
}

fn put_optional(out: &mut Vec<u8>, width: usize, number: Option<u64>) {
    number.into_iter().for_each(|n| put(out, width, n));
}

/// What a number of an input is, which decides how it may be lowered.
#[derive(Clone, Copy)]
enum Kind {
    Number,
    Point,
    Weight,
    Units,
}

type Visit<'a> = &'a mut dyn FnMut(Kind, &mut u64);

#[derive(Clone)]
struct Segment {
    from: u64,
    to: u64,
    value: u64,
}

impl Segment {
    fn read(reader: &mut Reader) -> Option<Segment> {
        Some(Segment {
            from: reader.number(4)?,
            to: reader.number(4)?,
            value: reader.number(2)?,
        })
    }

    fn write(&self, out: &mut Vec<u8>) {
        put(out, 4, self.from);
        put(out, 4, self.to);
        put(out, 2, self.value);
    }

    fn visit(&mut self, f: Visit) {
        f(Kind::Point, &mut self.from);
        f(Kind::Point, &mut self.to);
        f(Kind::Number, &mut self.value);
    }
}

/// A fixed reservation. Map bits without a meaning are kept.
#[derive(Clone)]
struct Reservation {
    stray_bits: u64,
    unit: Option<u64>,
    from: Option<u64>,
    to: Option<u64>,
    value: Option<u64>,
}

impl Reservation {
    fn read(reader: &mut Reader) -> Option<Reservation> {
        let map = reader.number(1)?;
        Some(Reservation {
            stray_bits: map & 0xF0,
            unit: reader.optional(map & 1 != 0, 1)?,
            from: reader.optional(map & 2 != 0, 4)?,
            to: reader.optional(map & 4 != 0, 4)?,
            value: reader.optional(map & 8 != 0, 2)?,
        })
    }

    fn write(&self, out: &mut Vec<u8>) {
        let bits = [self.unit, self.from, self.to, self.value];
        let map = (0..4).fold(self.stray_bits, |map, i| {
            map | (bits[i].is_some() as u64) << i
        });
        put(out, 1, map);
        put_optional(out, 1, self.unit);
        put_optional(out, 4, self.from);
        put_optional(out, 4, self.to);
        put_optional(out, 2, self.value);
    }

    fn visit(&mut self, f: Visit) {
        self.unit.iter_mut().for_each(|n| f(Kind::Number, n));
        self.from.iter_mut().for_each(|n| f(Kind::Point, n));
        self.to.iter_mut().for_each(|n| f(Kind::Point, n));
        self.value.iter_mut().for_each(|n| f(Kind::Number, n));
    }
}

#[derive(Clone)]
struct VirtReg {
    map: u64,
    class: Option<u64>,
    set: Option<u64>,
    spill: Option<u64>,
    size: Option<u64>,
    hints: Vec<(u64, u64)>,
    segments: Vec<Segment>,
}

impl VirtReg {
    const HINTS: u64 = 16;
    const SEGMENTS: u64 = 32;

    fn read(reader: &mut Reader) -> Option<VirtReg> {
        let map = reader.number(1)?;
        Some(VirtReg {
            map,
            class: reader.optional(map & 1 != 0, 1)?,
            set: reader.optional(map & 2 != 0, 2)?,
            spill: reader.optional(map & 4 != 0, 4)?,
            size: reader.optional(map & 8 != 0, 4)?,
            hints: reader.table(map & Self::HINTS != 0, 1, |r| {
                Some((r.number(1)?, r.number(4)?))
            })?,
            segments: reader.table(map & Self::SEGMENTS != 0, 2, Segment::read)?,
        })
    }

    fn write(&self, out: &mut Vec<u8>) {
        let bits = [self.class, self.set, self.spill, self.size];
        let map = (0..4).fold(self.map & !15, |map, i| {
            map | (bits[i].is_some() as u64) << i
        });
        put(out, 1, map);
        put_optional(out, 1, self.class);
        put_optional(out, 2, self.set);
        put_optional(out, 4, self.spill);
        put_optional(out, 4, self.size);
        if map & Self::HINTS != 0 {
            put(out, 1, self.hints.len() as u64);
            self.hints.iter().for_each(|(register, weight)| {
                put(out, 1, *register);
                put(out, 4, *weight);
            });
        }
        if map & Self::SEGMENTS != 0 {
            put(out, 2, self.segments.len() as u64);
            self.segments.iter().for_each(|s| s.write(out));
        }
    }

    fn visit(&mut self, f: Visit) {
        self.class.iter_mut().for_each(|n| f(Kind::Number, n));
        self.set.iter_mut().for_each(|n| f(Kind::Number, n));
        self.spill.iter_mut().for_each(|n| f(Kind::Weight, n));
        self.size.iter_mut().for_each(|n| f(Kind::Number, n));
        for (register, weight) in &mut self.hints {
            f(Kind::Number, register);
            f(Kind::Weight, weight);
        }
        self.segments.iter_mut().for_each(|s| s.visit(f));
    }
}

#[derive(Clone)]
struct Job {
    map: u64,
    registers: Vec<u64>,
    classes: Vec<Vec<u64>>,
    fixed: Vec<Reservation>,
    virt_regs: Vec<VirtReg>,
    probe: Option<(u64, u64)>,
    budget: Option<u64>,
    tail: Vec<u8>,
}

impl Job {
    fn read(bytes: &[u8]) -> Option<Job> {
        let mut r = Reader(bytes);
        let map = r.number(1)?;
        Some(Job {
            map,
            registers: r.table(map & 1 != 0, 1, |r| r.number(8))?,
            classes: r.table(map & 2 != 0, 1, |r| r.table(true, 1, |r| r.number(1)))?,
            fixed: r.table(map & 4 != 0, 2, Reservation::read)?,
            virt_regs: r.table(map & 8 != 0, 2, VirtReg::read)?,
            probe: if map & 16 != 0 {
                Some((r.number(4)?, r.number(4)?))
            } else {
                None
            },
            budget: r.optional(map & 32 != 0, 4)?,
            tail: r.0.to_vec(),
        })
    }

    fn write(&self) -> Vec<u8> {
        let mut out = Vec::new();
        let last = (self.probe.is_some() as u64) << 4 | (self.budget.is_some() as u64) << 5;
        put(&mut out, 1, self.map & !48 | last);
        if self.map & 1 != 0 {
            put(&mut out, 1, self.registers.len() as u64);
            self.registers
                .iter()
                .for_each(|units| put(&mut out, 8, *units));
        }
        if self.map & 2 != 0 {
            put(&mut out, 1, self.classes.len() as u64);
            for class in &self.classes {
                put(&mut out, 1, class.len() as u64);
                class
                    .iter()
                    .for_each(|register| put(&mut out, 1, *register));
            }
        }
        if self.map & 4 != 0 {
            put(&mut out, 2, self.fixed.len() as u64);
            self.fixed.iter().for_each(|r| r.write(&mut out));
        }
        if self.map & 8 != 0 {
            put(&mut out, 2, self.virt_regs.len() as u64);
            self.virt_regs.iter().for_each(|v| v.write(&mut out));
        }
        self.probe.iter().for_each(|(from, to)| {
            put(&mut out, 4, *from);
            put(&mut out, 4, *to);
        });
        put_optional(&mut out, 4, self.budget);
        out.extend(&self.tail);
        out
    }

    fn visit(&mut self, f: Visit) {
        self.registers
            .iter_mut()
            .for_each(|units| f(Kind::Units, units));
        self.classes
            .iter_mut()
            .flatten()
            .for_each(|register| f(Kind::Number, register));
        self.fixed.iter_mut().for_each(|r| r.visit(f));
        self.virt_regs.iter_mut().for_each(|v| v.visit(f));
        self.probe.iter_mut().for_each(|(from, to)| {
            f(Kind::Point, from);
            f(Kind::Point, to);
        });
        self.budget.iter_mut().for_each(|n| f(Kind::Number, n));
    }

    /// The fields that may be left out.
    fn visit_optional(&mut self, f: &mut dyn FnMut(&mut Option<u64>)) {
        for r in &mut self.fixed {
            [&mut r.unit, &mut r.from, &mut r.to, &mut r.value]
                .into_iter()
                .for_each(&mut *f);
        }
        for v in &mut self.virt_regs {
            [&mut v.class, &mut v.set, &mut v.spill, &mut v.size]
                .into_iter()
                .for_each(&mut *f);
        }
        f(&mut self.budget);
    }

    /// Takes a register out; what named it names nothing, what came after it
    /// keeps its register.
    fn drop_register(&mut self, gone: u64) {
        self.registers.remove(gone as usize);
        let below = |register: &mut u64| *register -= (*register > gone) as u64;
        for class in &mut self.classes {
            class.retain(|register| *register != gone);
            class.iter_mut().for_each(below);
        }
        for v in &mut self.virt_regs {
            v.hints.retain(|(register, _)| *register != gone);
            v.hints.iter_mut().for_each(|(register, _)| below(register));
            v.map &= if v.hints.is_empty() {
                !VirtReg::HINTS
            } else {
                !0
            };
        }
    }

    fn drop_class(&mut self, gone: u64) {
        self.classes.remove(gone as usize);
        for class in self.virt_regs.iter_mut().filter_map(|v| v.class.as_mut()) {
            *class -= (*class > gone) as u64;
        }
    }

    /// Clears the map bits of empty tables.
    fn drop_empty_tables(&mut self) {
        let empty = [
            self.registers.is_empty(),
            self.classes.is_empty(),
            self.fixed.is_empty(),
            self.virt_regs.is_empty(),
        ];
        self.map &= (0..4).fold(0xF0, |map, i| map | (!empty[i] as u64) << i);
    }
}

/// A call of a script.
#[derive(Clone)]
enum Call {
    Place(u64, u64, u64),
    Evict(u64),
    Run(u64),
    Check(u64, u64, Vec<Segment>),
    Spare(u64, u64, u64),
}

impl Call {
    fn read(r: &mut Reader) -> Option<Call> {
        Some(match r.number(1)? {
            1 => Call::Place(r.number(2)?, r.number(1)?, r.number(4)?),
            2 => Call::Evict(r.number(2)?),
            3 => Call::Run(r.number(4)?),
            form @ 4..=5 => Call::Check(form, r.number(1)?, r.table(true, 1, Segment::read)?),
            6 => Call::Spare(r.number(1)?, r.number(4)?, r.number(4)?),
            _ => return None,
        })
    }

    fn write(&self, out: &mut Vec<u8>) {
        let (kind, numbers): (u64, &[(usize, u64)]) = match self {
            Call::Place(number, register, weight) => {
                (1, &[(2, *number), (1, *register), (4, *weight)])
            }
            Call::Evict(number) => (2, &[(2, *number)]),
            Call::Run(budget) => (3, &[(4, *budget)]),
            Call::Check(form, register, segments) => {
                (*form, &[(1, *register), (1, segments.len() as u64)])
            }
            Call::Spare(unit, from, to) => (6, &[(1, *unit), (4, *from), (4, *to)]),
        };
        put(out, 1, kind);
        numbers
            .iter()
            .for_each(|(width, number)| put(out, *width, *number));
        if let Call::Check(_, _, segments) = self {
            segments.iter().for_each(|s| s.write(out));
        }
    }

    fn visit(&mut self, f: Visit) {
        match self {
            Call::Place(number, register, weight) => {
                f(Kind::Number, number);
                f(Kind::Number, register);
                f(Kind::Weight, weight);
            }
            Call::Evict(n) | Call::Run(n) => f(Kind::Number, n),
            Call::Check(_, register, segments) => {
                f(Kind::Number, register);
                segments.iter_mut().for_each(|s| s.visit(f));
            }
            Call::Spare(unit, from, to) => {
                f(Kind::Number, unit);
                f(Kind::Point, from);
                f(Kind::Point, to);
            }
        }
    }

    /// Follows a renumbering of virtual registers.
    fn renumber(&mut self, gone: &Range<usize>) {
        if let Call::Place(number, ..) | Call::Evict(number) = self {
            if *number as usize >= gone.end {
                *number -= gone.len() as u64;
            }
        }
    }
}

#[derive(Clone)]
enum Body {
    Parsed(Job),
    Raw(Vec<u8>),
}

impl Body {
    fn read(bytes: &[u8]) -> Body {
        Job::read(bytes).map_or(Body::Raw(bytes.to_vec()), Body::Parsed)
    }

    fn write(&self) -> Vec<u8> {
        match self {
            Body::Parsed(job) => job.write(),
            Body::Raw(bytes) => bytes.clone(),
        }
    }
}

/// A job, or a script, whose calls end with bytes that are no call.
#[derive(Clone)]
struct Input {
    job: Body,
    is_script: bool,
    calls: Vec<Call>,
    no_call: Vec<u8>,
}

impl Input {
    fn read(bytes: &[u8], is_script: bool) -> Option<Input> {
        let (mut calls, mut no_call) = (Vec::new(), Vec::new());
        if !is_script {
            return Some(Input {
                job: Body::read(bytes),
                is_script,
                calls,
                no_call,
            });
        }
        let mut reader = Reader(bytes);
        let length = reader.number(4)? as usize;
        let job = Body::read(reader.bytes(length)?);
        while !reader.0.is_empty() {
            let here = reader.0;
            let Some(call) = Call::read(&mut reader) else {
                no_call = here.to_vec();
                break;
            };
            calls.push(call);
        }
        Some(Input {
            job,
            is_script,
            calls,
            no_call,
        })
    }

    fn write(&self) -> Vec<u8> {
        let job = self.job.write();
        if !self.is_script {
            return job;
        }
        let mut out = (job.len() as u32).to_le_bytes().to_vec();
        out.extend(job);
        self.calls.iter().for_each(|call| call.write(&mut out));
        out.extend(&self.no_call);
        out
    }

    fn visit(&mut self, f: Visit) {
        match &mut self.job {
            Body::Parsed(job) => job.visit(f),
            Body::Raw(bytes) => {
                for byte in bytes {
                    let mut number = *byte as u64;
                    f(Kind::Number, &mut number);
                    *byte = number as u8;
                }
            }
        }
        self.calls.iter_mut().for_each(|call| call.visit(f));
    }

    /// Smaller inputs have fewer bytes, then lower numbers.
    fn measure(&self) -> (usize, u128) {
        let mut sum = 0;
        self.clone().visit(&mut |_, n| sum += *n as u128);
        (self.write().len(), sum)
    }
}

// ---------------------------------------------------------------------------
// Shrinking
// ---------------------------------------------------------------------------

/// One step towards a smaller input.
enum Edit {
    Bytes(Range<usize>),
    Calls(Range<usize>),
    NoCall,
    CheckSegments(usize, Range<usize>),
    VirtRegs(Range<usize>),
    Fixed(Range<usize>),
    Hints(usize, Range<usize>),
    Segments(usize, Range<usize>),
    Register(usize),
    Class(usize),
    Member(usize, usize),
    Probe,
    Tail,
    EmptyTables,
    /// Leaves the optional field with this place out.
    Optional(usize),
    /// Gives the number with this place a lower value.
    Number(usize, u64),
    /// Moves all points from this one on down.
    Points(u64, u64),
}

/// The ranges of a table that may go: halves first, single items last.
fn pieces(length: usize) -> Vec<Range<usize>> {
    let mut out = Vec::new();
    let mut size = length;
    while size > 0 {
        out.extend(
            (0..length)
                .step_by(size)
                .map(|at| at..(at + size).min(length)),
        );
        size /= 2;
    }
    out
}

/// Lower values to try for a number of a kind. Steps of 1 are for small ones
/// alone, as a large one would take forever.
fn lower(kind: Kind, n: u64) -> Vec<u64> {
    let step = if n <= 64 { 1 } else { n / 8 };
    let values = match kind {
        Kind::Number => vec![0, n / 2, n.saturating_sub(step)],
        Kind::Point => vec![0, n / 2 & !3, n & !3, n.saturating_sub(step)],
        Kind::Weight => vec![0, 0x3F80_0000, 0x4000_0000],
        Kind::Units => vec![1, n & n.wrapping_sub(1), n >> 1],
    };
    values.into_iter().filter(|value| *value < n).collect()
}

fn edits(input: &Input) -> Vec<Edit> {
    let mut out: Vec<Edit> = pieces(input.calls.len())
        .into_iter()
        .map(Edit::Calls)
        .collect();
    out.push(Edit::NoCall);
    match &input.job {
        Body::Parsed(job) => edits_of_job(job, &mut out),
        Body::Raw(bytes) => out.extend(pieces(bytes.len()).into_iter().map(Edit::Bytes)),
    }
    for (i, call) in input.calls.iter().enumerate() {
        if let Call::Check(_, _, segments) = call {
            out.extend(
                pieces(segments.len())
                    .into_iter()
                    .map(|range| Edit::CheckSegments(i, range)),
            );
        }
    }
    edits_of_numbers(input, &mut out);
    out
}

fn edits_of_job(job: &Job, out: &mut Vec<Edit>) {
    out.extend(pieces(job.virt_regs.len()).into_iter().map(Edit::VirtRegs));
    out.extend(pieces(job.fixed.len()).into_iter().map(Edit::Fixed));
    out.extend([Edit::Tail, Edit::Probe, Edit::EmptyTables]);
    out.extend((0..job.registers.len()).map(Edit::Register));
    out.extend((0..job.classes.len()).map(Edit::Class));
    for (i, v) in job.virt_regs.iter().enumerate() {
        out.extend(
            pieces(v.hints.len())
                .into_iter()
                .map(|range| Edit::Hints(i, range)),
        );
        out.extend(
            pieces(v.segments.len())
                .into_iter()
                .map(|range| Edit::Segments(i, range)),
        );
    }
    for (i, class) in job.classes.iter().enumerate() {
        out.extend((0..class.len()).map(|at| Edit::Member(i, at)));
    }
    let mut count = 0;
    job.clone().visit_optional(&mut |_| count += 1);
    out.extend((0..count).map(Edit::Optional));
}

fn edits_of_numbers(input: &Input, out: &mut Vec<Edit>) {
    let mut numbers = Vec::new();
    input.clone().visit(&mut |kind, n| numbers.push((kind, *n)));
    let mut points: Vec<u64> = numbers
        .iter()
        .filter(|(kind, _)| matches!(kind, Kind::Point))
        .map(|(_, n)| *n)
        .collect();
    points.push(0);
    points.sort();
    points.dedup();
    // Gaps between points close in whole instructions, so that slots stay.
    for pair in points.windows(2) {
        let gap = pair[1] - pair[0];
        let moves = [gap & !3, gap / 2 & !3].into_iter().filter(|by| *by > 0);
        out.extend(moves.map(|by| Edit::Points(pair[1], by)));
    }
    for (place, (kind, n)) in numbers.into_iter().enumerate() {
        out.extend(
            lower(kind, n)
                .into_iter()
                .map(|value| Edit::Number(place, value)),
        );
    }
}

fn apply(edit: &Edit, input: &Input) -> Input {
    let mut out = input.clone();
    match edit {
        Edit::Calls(range) => drop(out.calls.drain(range.clone())),
        Edit::NoCall => out.no_call.clear(),
        Edit::CheckSegments(call, range) => {
            if let Call::Check(_, _, segments) = &mut out.calls[*call] {
                segments.drain(range.clone());
            }
        }
        Edit::Number(place, value) => {
            let mut at = 0;
            out.visit(&mut |_, n| {
                *n = if at == *place { *value } else { *n };
                at += 1;
            });
        }
        Edit::Points(from, by) => out.visit(&mut |kind, n| {
            if matches!(kind, Kind::Point) && *n >= *from {
                *n -= by;
            }
        }),
        Edit::VirtRegs(range) => {
            out.calls.iter_mut().for_each(|call| call.renumber(range));
            apply_to_job(edit, &mut out.job);
        }
        _ => apply_to_job(edit, &mut out.job),
    }
    out
}

fn apply_to_job(edit: &Edit, body: &mut Body) {
    let job = match body {
        Body::Parsed(job) => job,
        Body::Raw(bytes) => {
            if let Edit::Bytes(range) = edit {
                bytes.drain(range.clone());
            }
            return;
        }
    };
    match edit {
        Edit::VirtRegs(range) => drop(job.virt_regs.drain(range.clone())),
        Edit::Fixed(range) => drop(job.fixed.drain(range.clone())),
        Edit::Hints(v, range) => {
            let v = &mut job.virt_regs[*v];
            v.hints.drain(range.clone());
            v.map &= if v.hints.is_empty() {
                !VirtReg::HINTS
            } else {
                !0
            };
        }
        Edit::Segments(v, range) => drop(job.virt_regs[*v].segments.drain(range.clone())),
        Edit::Register(register) => job.drop_register(*register as u64),
        Edit::Class(class) => job.drop_class(*class as u64),
        Edit::Member(class, at) => drop(job.classes[*class].remove(*at)),
        Edit::Probe => job.probe = None,
        Edit::Tail => job.tail.clear(),
        Edit::EmptyTables => job.drop_empty_tables(),
        Edit::Optional(place) => {
            let mut at = 0;
            job.visit_optional(&mut |field| {
                *field = if at == *place { None } else { *field };
                at += 1;
            });
        }
        _ => {}
    }
}

/// Takes steps as long as one leads to a smaller input that still differs.
fn shrink_steps(sides: &Sides, mut input: Input) -> io::Result<Input> {
    'next: loop {
        let measure = input.measure();
        for group in edits(&input).chunks(100) {
            let smaller: Vec<Input> = group
                .iter()
                .map(|e| apply(e, &input))
                .filter(|i| i.measure() < measure)
                .collect();
            let bytes: Vec<Vec<u8>> = smaller.iter().map(Input::write).collect();
            if let Some(found) = sides.first_different(&bytes)? {
                input = smaller[found].clone();
                continue 'next;
            }
        }
        return Ok(input);
    }
}

/// Shrinks by parts of the job, then by single bytes, until neither helps.
fn shrink(sides: &Sides, bytes: Vec<u8>, is_script: bool) -> io::Result<Vec<u8>> {
    let mut best = bytes;
    loop {
        let Some(input) = Input::read(&best, is_script) else {
            return Ok(best);
        };
        let mut input = shrink_steps(sides, input)?;
        input.job = Body::Raw(input.job.write());
        let shrunk = shrink_steps(sides, input)?.write();
        if shrunk == best {
            return Ok(best);
        }
        best = shrunk;
    }
}

// ---------------------------------------------------------------------------
// The command
// ---------------------------------------------------------------------------

/// Generated inputs, handed out in groups.
struct Source {
    stdout: BufReader<ChildStdout>,
    next: usize,
    count: usize,
}

impl Source {
    /// The next inputs and the place of the first one.
    fn group(&mut self, size: usize) -> io::Result<(usize, Vec<Vec<u8>>)> {
        let first = self.next;
        let size = size.min(self.count - first);
        let mut group = Vec::new();
        for _ in 0..size {
            let mut length = [0; 4];
            self.stdout.read_exact(&mut length)?;
            let mut input = vec![0; u32::from_le_bytes(length) as usize];
            self.stdout.read_exact(&mut input)?;
            group.push(input);
        }
        self.next += size;
        Ok((first, group))
    }
}

#[derive(Default)]
struct Found {
    compared: usize,
    different: usize,
    first: Option<usize>,
    shortest: Option<Vec<u8>>,
}

impl Found {
    fn note(&mut self, place: usize, input: &[u8]) {
        self.different += 1;
        self.first = Some(self.first.map_or(place, |first| first.min(place)));
        if self
            .shortest
            .as_ref()
            .is_none_or(|shortest| input.len() < shortest.len())
        {
            self.shortest = Some(input.to_vec());
        }
    }
}

/// Compares group after group until none is left.
fn compare_groups(sides: &Sides, source: &Mutex<Source>, found: &Mutex<Found>) -> io::Result<()> {
    loop {
        let (first, inputs) = source.lock().unwrap().group(250)?;
        if inputs.is_empty() {
            return Ok(());
        }
        let (right, answers) = (sides.oracle(&inputs)?, sides.program(&inputs)?);
        let mut found = found.lock().unwrap();
        found.compared += inputs.len();
        for i in (0..inputs.len()).filter(|i| right[*i] != answers[*i]) {
            found.note(first + i, &inputs[i]);
        }
    }
}

fn report(sides: &Sides, found: &Found, is_script: bool) -> io::Result<()> {
    let (Some(first), Some(shortest)) = (found.first, &found.shortest) else {
        return Ok(());
    };
    println!("first difference at input {first}");
    let smallest = shrink(sides, shortest.clone(), is_script)?;
    println!("smallest input found, {} bytes:", smallest.len());
    println!(
        "{}",
        smallest
            .iter()
            .map(|b| format!("{b:02X}"))
            .collect::<String>()
    );
    let inputs = [smallest];
    println!(
        "oracle:\n{}",
        String::from_utf8_lossy(&sides.oracle(&inputs)?[0])
    );
    println!(
        "program:\n{}",
        String::from_utf8_lossy(&sides.program(&inputs)?[0])
    );
    Ok(())
}

struct Options {
    program: Vec<String>,
    is_script: bool,
    /// Kind, seed and count, as `generate` takes them.
    generate: Vec<String>,
    count: usize,
    in_batches: bool,
    threads: usize,
    seconds: u64,
}

fn options() -> Option<Options> {
    let words: Vec<String> = std::env::args().skip(1).collect();
    let [program, form, kind, seed, count, rest @ ..] = words.as_slice() else {
        return None;
    };
    let mut options = Options {
        program: program.split_whitespace().map(String::from).collect(),
        is_script: match form.as_str() {
            "jobs" => false,
            "scripts" => true,
            _ => return None,
        },
        generate: vec![kind.clone(), seed.clone(), count.clone()],
        count: count.parse().ok()?,
        in_batches: false,
        threads: 2,
        seconds: 60,
    };
    for pair in rest.chunks(2) {
        let [name, value] = pair else { return None };
        match name.as_str() {
            "--batch-arg" => {
                options.program.push(value.clone());
                options.in_batches = true;
            }
            "--threads" => options.threads = value.parse().ok()?,
            "--seconds" => options.seconds = value.parse().ok()?,
            _ => return None,
        }
    }
    if options.program.is_empty() {
        None
    } else {
        Some(options)
    }
}

fn beside(name: &str) -> io::Result<PathBuf> {
    Ok(std::env::current_exe()?.with_file_name(name))
}

fn compare(options: Options) -> io::Result<Found> {
    let mut generator = Command::new(beside("generate")?)
        .args(&options.generate)
        .stdout(Stdio::piped())
        .spawn()?;
    let stdout = BufReader::new(generator.stdout.take().expect("piped"));
    let source = Mutex::new(Source {
        stdout,
        next: 0,
        count: options.count,
    });
    let mode = if options.is_script {
        "scripts"
    } else {
        "batch"
    };
    let calls = Arc::new(Calls::default());
    let sides = Sides {
        calls: calls.clone(),
        oracle: vec![
            beside("oracle")?.to_string_lossy().into_owned(),
            mode.to_string(),
        ],
        program: options.program,
        in_batches: options.in_batches,
        seconds: options.seconds,
    };
    thread::spawn(move || calls.watch());
    let found = Mutex::new(Found::default());
    let results: Vec<io::Result<()>> = thread::scope(|scope| {
        let workers: Vec<_> = (0..options.threads.max(1))
            .map(|_| scope.spawn(|| compare_groups(&sides, &source, &found)))
            .collect();
        workers
            .into_iter()
            .map(|worker| worker.join().expect("a worker does not panic"))
            .collect()
    });
    generator.wait()?;
    results.into_iter().collect::<io::Result<()>>()?;
    let found = found.into_inner().unwrap();
    report(&sides, &found, options.is_script)?;
    Ok(found)
}

fn main() -> ExitCode {
    let Some(options) = options() else {
        eprintln!(
            "usage: compare PROGRAM jobs|scripts KIND SEED COUNT \
             [--batch-arg WORD] [--threads N] [--seconds N]"
        );
        return ExitCode::from(2);
    };
    match compare(options) {
        Ok(found) => {
            println!("{} compared, {} different", found.compared, found.different);
            ExitCode::from((found.different > 0) as u8)
        }
        Err(error) => {
            eprintln!("compare: {error}");
            ExitCode::from(2)
        }
    }
}
