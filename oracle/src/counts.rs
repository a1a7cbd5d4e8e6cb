//! How often each outcome occurred over a batch.

use std::collections::BTreeMap;
use std::fmt::Write;

use crate::Stats;
use crate::internal::allocator::direct::End;
use crate::job::{Answer, Job};
use crate::listing::line;

#[derive(Default)]
pub struct Counts {
    jobs: u64,
    loaded: u64,
    refused: BTreeMap<u8, u64>,
    pub bad_scripts: u64,
    done: u64,
    spent: u64,
    toomany: u64,
    dequeues: u64,
    cost_evicted: u64,
    cost_dequeues: u64,
    preference_evicted: u64,
    preference_dequeues: u64,
    flags_on: u64,
    left: u64,
    requeued: u64,
    /// For each kind of call, how often each refusal (0: none) was given.
    calls: BTreeMap<(&'static str, u8), u64>,
}

impl Counts {
    pub fn loading(&mut self, job: &Answer<Job>) {
        self.jobs += 1;
        match job {
            Ok(_) => self.loaded += 1,
            Err(refusal) => *self.refused.entry(refusal.0).or_default() += 1,
        }
    }

    /// Adds a run, of which `stats` holds what was recorded.
    pub fn run(&mut self, end: End, stats: &Stats) {
        let toomany = u64::from(end == End::TooMany);
        self.done += u64::from(end == End::Done);
        self.spent += u64::from(end == End::Spent);
        self.toomany += toomany;
        self.dequeues += stats.dequeued;
        self.cost_evicted += stats.cost_evicted;
        self.cost_dequeues += stats.cost_dequeues;
        self.preference_evicted += stats.preference_evicted();
        self.preference_dequeues += stats.preference_dequeues;
        self.flags_on += stats.flags_on;
        self.left += stats.left;
        // `try_evict` ends in an eviction, in `toomany` or in stage Split.
        self.requeued += stats.tried - stats.cost_dequeues - toomany;
    }

    /// Adds a call and hands its answer on.
    pub fn call<T>(&mut self, kind: &'static str, answer: Answer<T>) -> Answer<T> {
        let number = answer.as_ref().err().map_or(0, |refusal| refusal.0);
        *self.calls.entry((kind, number)).or_default() += 1;
        answer
    }

    pub fn print(&self) -> String {
        let mut text = String::new();
        line!(text, "jobs {}", self.jobs);
        line!(text, "loaded {}", self.loaded);
        for number in 1..=15 {
            line!(
                text,
                "refused {number} {}",
                self.refused.get(&number).unwrap_or(&0)
            );
        }
        line!(text, "end done {}", self.done);
        line!(text, "end spent {}", self.spent);
        line!(text, "end toomany {}", self.toomany);
        line!(text, "dequeues {}", self.dequeues);
        line!(
            text,
            "evicted by cost {} in {} dequeues",
            self.cost_evicted,
            self.cost_dequeues
        );
        line!(
            text,
            "evicted by preference {} in {} dequeues",
            self.preference_evicted,
            self.preference_dequeues
        );
        line!(text, "flags turned on {}", self.flags_on);
        line!(text, "left over {}", self.left);
        line!(text, "requeued at Split {}", self.requeued);
        text
    }

    /// The counts of scripts: those of their jobs and runs, then their calls.
    pub fn print_scripts(&self) -> String {
        let mut text = self.print();
        line!(text, "bad scripts {}", self.bad_scripts);
        for ((kind, number), count) in &self.calls {
            match number {
                0 => line!(text, "call {kind} ok {count}"),
                _ => line!(text, "call {kind} refused {number} {count}"),
            }
        }
        text
    }
}
