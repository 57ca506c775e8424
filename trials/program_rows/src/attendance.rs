//! A gate at which two parts wait for each other at every question, and which notes who comes.

use std::sync::atomic::{AtomicBool, AtomicU32, Ordering};

/// How often a part looks whether the other one has come.
const MOST_READINGS: u32 = 100_000_000;

/// How many parts there are.
const PARTS: u32 = 8;

/// Who has come to the searches of a run.
#[derive(Drop)]
pub(crate) struct Attendance {
    /// How often each part has come.
    came: [AtomicU32; 8],
    /// How often any has.
    calls: AtomicU32,
    /// How often any has since something is learned.
    later: AtomicU32,
    /// Whether a part waited in vain, came twice to a question or not at all, or with other
    /// candidates than its own.
    is_broken: AtomicBool,
}

impl Attendance {
    pub(crate) fn new() -> Attendance {
        Attendance {
            came: [
                AtomicU32::new(0),
                AtomicU32::new(0),
                AtomicU32::new(0),
                AtomicU32::new(0),
                AtomicU32::new(0),
                AtomicU32::new(0),
                AtomicU32::new(0),
                AtomicU32::new(0),
            ],
            calls: AtomicU32::new(0),
            later: AtomicU32::new(0),
            is_broken: AtomicBool::new(false),
        }
    }

    /// Whether each part has come once to each of so many questions, with its candidates, and
    /// neither of the first two waited in vain. To so many of the questions they came since
    /// something is learned.
    pub(crate) fn was_whole(&self, questions: u32, later: u32) -> bool {
        !self.is_broken.load(Ordering::SeqCst)
            && self.calls.load(Ordering::SeqCst) == questions.saturating_mul(PARTS)
            && self.later.load(Ordering::SeqCst) == later.saturating_mul(PARTS)
    }

    /// Notes that a part comes with the candidates from `first` to below `end`. It is to come once
    /// where eight calls are a question's, and with the candidates of its eighth.
    fn note(&self, job: u32, first: u32, end: u32, all: u32, learned: u32) {
        let size = all.div_ceil(PARTS);
        let start = all.min(job.saturating_mul(size));
        let is_part = first == start && end == all.min(start.saturating_add(size));
        let turn = self.came[job as usize].fetch_add(1, Ordering::SeqCst);
        let question = self.calls.fetch_add(1, Ordering::SeqCst) / PARTS;
        if learned > 0 {
            self.later.fetch_add(1, Ordering::SeqCst);
        }
        if !is_part || turn != question {
            self.is_broken.store(true, Ordering::SeqCst);
        }
    }

    /// Holds one part until the other has come as often.
    fn meet(&self, part: u32, other: u32) {
        let turn = self.came[part as usize].load(Ordering::SeqCst);
        for _ in 0..MOST_READINGS {
            let came = self.came[other as usize].load(Ordering::SeqCst);
            if came >= turn || self.is_broken.load(Ordering::SeqCst) {
                return;
            }
        }
        self.is_broken.store(true, Ordering::SeqCst);
    }

    /// Notes a part, and holds part 0 until part 1 has come to the same question, and part 1 until
    /// part 0 has.
    pub(crate) fn come(&self, job: u32, first: u32, end: u32, all: u32, learned: u32) {
        self.note(job, first, end, all, learned);
        match job {
            0 => self.meet(0, 1),
            1 => self.meet(1, 0),
            _ => {}
        }
    }
}
