//! The register stage of the survey box: it hands out registers so that no two live numbers share one. This crate owns
//! the buffers that the static library works on, and its methods are safe; what each answers is proved there.
//!
//! ```no_run
//! let job = std::fs::read("job.bin").expect("a job");
//! let mut stage = pezhkadu::Stage::load(&job).expect("it loads");
//! let end = stage.run(stage.budget());
//! for line in stage.lines(end) {
//!     print!("{line}");
//! }
//! ```
mod raw;

/// The number of a refusal in document 01, as 8 for an unknown number and 14 for an interference.
#[derive(Clone, Copy, Debug, PartialEq, Eq)]
pub struct Refused(pub u64);

/// How a run ended.
#[derive(Clone, Copy, Debug, PartialEq, Eq)]
pub enum Ending {
    /// The queue is empty.
    Done,
    /// As many dequeues were made as the budget allows, and the queue is not empty.
    Spent,
    /// A virtual register of infinite spill weight found no register.
    TooMany,
}

/// What a run answers.
#[derive(Clone, Copy, Debug, PartialEq, Eq)]
pub struct End {
    pub ending: Ending,
    pub dequeues: u64,
}

/// How a virtual register stands.
#[derive(Clone, Copy, Debug, PartialEq, Eq)]
pub enum Standing {
    Waits,
    Left,
    In(u8),
}

/// A loaded job with its table, queue and records: the buffers, each as long as the library asks.
struct Buffers {
    header: [u64; 8],
    records: [u64; 512],
    job64: [u64; 576],
    job32: [u32; 1536],
    job16: [u16; 2067],
    job8: [u8; 2560],
    weights: [f32; 1536],
    ends: [u64; 2560],
    rests: [u64; 2560],
    queue: [u64; 1024],
    last: [u8; 512],
}

impl Buffers {
    fn new() -> Box<Buffers> {
        Box::new(Buffers {
            header: [0; 8],
            records: [0; 512],
            job64: [0; 576],
            job32: [0; 1536],
            job16: [0; 2067],
            job8: [0; 2560],
            weights: [0.0; 1536],
            ends: [0; 2560],
            rests: [0; 2560],
            queue: [0; 1024],
            last: [0; 512],
        })
    }
}

/// A call with the job's and the state's slices between the arguments before and after them. Each slice is one field's
/// own array, so no two overlap, and its length is the array's.
macro_rules! call {
    ($name:ident, $b:ident, $pointer:ident; $($before:expr),*; $($after:expr),*) => {
        // Safety: every pointer comes from a slice of the length beside it, and the slices are disjoint fields of the
        // buffers, or arguments borrowed apart from them.
        unsafe {
            raw::$name(
                $($before,)*
                $b.job64.$pointer(), $b.job64.len(),
                $b.job32.$pointer(), $b.job32.len(),
                $b.job16.$pointer(), $b.job16.len(),
                $b.job8.$pointer(), $b.job8.len(),
                $b.weights.$pointer(), $b.weights.len(),
                $b.ends.as_mut_ptr(), $b.ends.len(),
                $b.rests.as_mut_ptr(), $b.rests.len(),
                $b.queue.as_mut_ptr(), $b.queue.len(),
                $($after,)*
            )
        }
    };
}

fn carried_out(answer: u64) -> Result<(), Refused> {
    match answer {
        0 => Ok(()),
        n => Err(Refused(n)),
    }
}

/// A loaded stage.
pub struct Stage {
    buffers: Box<Buffers>,
}

impl Stage {
    /// Loads the job of these bytes, or answers why it is refused. All its virtual registers wait.
    pub fn load(bytes: &[u8]) -> Result<Stage, Refused> {
        let mut b = Buffers::new();
        carried_out(call!(
            pezhkadu_load, b, as_mut_ptr;
            bytes.as_ptr(), bytes.len(), b.header.as_mut_ptr(), b.header.len(), b.records.as_mut_ptr(), b.records.len();
            b.last.as_mut_ptr(), b.last.len()
        ))?;
        Ok(Stage { buffers: b })
    }

    /// How many virtual registers the job has.
    pub fn virt_regs(&self) -> u16 {
        self.buffers.header[2] as u16
    }

    /// The budget that the job asks for.
    pub fn budget(&self) -> u64 {
        self.buffers.header[3]
    }

    /// Runs for so many dequeues at most.
    pub fn run(&mut self, budget: u64) -> End {
        let mut answer = [0; 2];
        let b = &mut *self.buffers;
        let refused = call!(
            pezhkadu_run, b, as_ptr;
            b.records.as_mut_ptr(), b.records.len(), budget;
            b.last.as_mut_ptr(), b.last.len(), answer.as_mut_ptr(), answer.len()
        );
        assert_eq!(refused, 0, "a run is refused for short buffers alone");
        let ending = match answer[0] {
            1 => Ending::Done,
            2 => Ending::Spent,
            _ => Ending::TooMany,
        };
        End { ending, dequeues: answer[1] }
    }

    /// Places the virtual register v in a register with a weight, or answers 8, 9, 13 or 14.
    pub fn assign(&mut self, v: u64, reg: u64, weight: f32) -> Result<(), Refused> {
        let b = &mut *self.buffers;
        let weight = u64::from(weight.to_bits());
        carried_out(call!(
            pezhkadu_assign, b, as_ptr;
            b.header.as_ptr(), b.header.len(), b.records.as_mut_ptr(), b.records.len(), v, reg, weight;
            b.last.as_mut_ptr(), b.last.len()
        ))
    }

    /// Evicts the virtual register v and answers the register that it held, or answers 8 or 13.
    pub fn evict(&mut self, v: u64) -> Result<u64, Refused> {
        let mut answer = [0; 1];
        let b = &mut *self.buffers;
        let refused = call!(
            pezhkadu_evict, b, as_ptr;
            b.header.as_ptr(), b.header.len(), b.records.as_mut_ptr(), b.records.len(), v;
            b.last.as_ptr(), b.last.len(), answer.as_mut_ptr(), answer.len()
        );
        carried_out(refused).map(|()| answer[0])
    }

    /// How the virtual register v stands, or 8 where there is none such.
    pub fn standing(&self, v: u64) -> Result<Standing, Refused> {
        let b = &*self.buffers;
        // Safety: each pointer comes from an array of the length beside it, and nothing is written.
        let answer = unsafe {
            raw::pezhkadu_standing(b.header.as_ptr(), b.header.len(), b.records.as_ptr(), b.records.len(), v)
        };
        match answer {
            0 => Ok(Standing::Waits),
            1 => Ok(Standing::Left),
            n if n >= 256 => Ok(Standing::In((n - 256) as u8)),
            n => Err(Refused(n)),
        }
    }

    /// The lines of the printed sheet after a run that ended so, each with its end of line.
    pub fn lines(&self, end: End) -> Lines<'_> {
        let ending = match end.ending {
            Ending::Done => 1,
            Ending::Spent => 2,
            Ending::TooMany => 3,
        };
        Lines { stage: self, answer: [ending, end.dequeues], position: 0 }
    }
}

/// An iterator over the lines of a sheet.
pub struct Lines<'a> {
    stage: &'a Stage,
    answer: [u64; 2],
    position: u64,
}

impl Iterator for Lines<'_> {
    type Item = String;

    fn next(&mut self) -> Option<String> {
        let b = &*self.stage.buffers;
        let mut line = [0u8; 256];
        let mut next = [0u64; 2];
        // Safety: each pointer comes from an array of the length beside it; `line` and `next` alone are written.
        let refused = unsafe {
            raw::pezhkadu_sheet_line(
                b.header.as_ptr(),
                b.header.len(),
                b.records.as_ptr(),
                b.records.len(),
                self.answer.as_ptr(),
                self.answer.len(),
                self.position,
                b.job64.as_ptr(),
                b.job64.len(),
                b.ends.as_ptr(),
                b.ends.len(),
                b.rests.as_ptr(),
                b.rests.len(),
                line.as_mut_ptr(),
                line.len(),
                next.as_mut_ptr(),
                next.len(),
            )
        };
        assert_eq!(refused, 0, "a line is refused for short buffers alone");
        if next[0] == 0 {
            return None;
        }
        self.position = next[1];
        Some(String::from_utf8_lossy(&line[..next[0] as usize]).into_owned())
    }
}
