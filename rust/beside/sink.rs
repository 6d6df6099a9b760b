//! Takes the frames of rust/frames' generators, compares each at once, and counts. In that program a sink writes them out.

use std::io;
use std::time::{Duration, Instant};

use crate::answers::Difference;
use crate::bodies::Bodies;
use crate::domain::REASONS;
use crate::scripts::Scripts;
use crate::sources::Sources;

const PROGRESS_EVERY: Duration = Duration::from_secs(5);

/// Between two looks at the clock.
const CASES: u64 = 256;

/// What is shown of an input that differs.
const SHOWN: usize = 8192;

#[derive(Default, Clone)]
pub(crate) struct Tally {
    pub(crate) sources: u64,
    pub(crate) bodies: u64,
    pub(crate) scripts: u64,
    /// Scripts over a source that both sides refuse, which are no cases: no call of theirs is compared.
    pub(crate) unlisted: u64,
    /// Sources outside the domain of equality, by reason in the order of `REASONS`.
    pub(crate) outside: [u64; REASONS.len()],
}

impl Tally {
    pub(crate) fn cases(&self) -> u64 {
        self.sources + self.bodies + self.scripts
    }

    pub(crate) fn add(&mut self, other: &Tally) {
        self.sources += other.sources;
        self.bodies += other.bodies;
        self.scripts += other.scripts;
        self.unlisted += other.unlisted;

        for (sum, more) in self.outside.iter_mut().zip(other.outside) {
            *sum += more;
        }
    }
}

pub(crate) struct Sink {
    sources: Sources,
    bodies: Bodies,
    scripts: Scripts,
    name: String,
    tally: Tally,
    began: Instant,
    shown: Instant,
}

impl Sink {
    pub(crate) fn new() -> Self {
        Self {
            sources: Sources::new(),
            bodies: Bodies::new(),
            scripts: Scripts::new(),
            name: String::new(),
            tally: Tally::default(),
            began: Instant::now(),
            shown: Instant::now(),
        }
    }

    /// Begins to count a stream of frames under its name.
    pub(crate) fn begin(&mut self, name: &str) {
        self.name = name.to_owned();
        self.tally = Tally::default();
        self.began = Instant::now();
    }

    /// What the stream came to, and the seconds that it took.
    pub(crate) fn end(&self) -> (Tally, f64) {
        (self.tally.clone(), self.began.elapsed().as_secs_f64())
    }

    pub(crate) fn frame(&mut self, mode: u8, payload: &[u8]) -> io::Result<()> {
        let compared = match mode {
            b'L' => self.source(payload),
            _ => self.body(mode, payload),
        };

        compared.map_err(|Difference(said)| {
            let cut = &payload[..payload.len().min(SHOWN)];
            let (mode, length, input) = (char::from(mode), payload.len(), cut.escape_ascii());
            self.differs(format!("mode {mode}, {length} bytes:\n  {input}\n{said}"))
        })?;

        self.progress();
        Ok(())
    }

    pub(crate) fn script(&mut self, keep: bool, source: &[u8], ops: &[(u8, u8)]) -> io::Result<()> {
        let compared = self.scripts.compare(keep, source, ops).map_err(|Difference(said)| {
            self.differs(format!("white space kept {keep}:\n  {}\n  {ops:?}\n{said}", source.escape_ascii()))
        })?;

        self.tally.scripts += u64::from(compared);
        self.tally.unlisted += u64::from(!compared);
        self.progress();
        Ok(())
    }

    fn differs(&self, said: String) -> io::Error {
        io::Error::other(format!("{}: case {}, {said}", self.name, self.tally.cases()))
    }

    fn progress(&mut self) {
        if self.tally.cases() % CASES == 0 && self.shown.elapsed() >= PROGRESS_EVERY {
            self.shown = Instant::now();
            eprintln!("compare-all: {}: {} cases equal so far", self.name, self.tally.cases());
        }
    }

    fn source(&mut self, source: &[u8]) -> Result<(), Difference> {
        let outside = self.sources.compare(source)?;
        self.tally.sources += 1;

        for (count, (reason, _)) in self.tally.outside.iter_mut().zip(REASONS) {
            *count += u64::from(outside == Some(reason));
        }

        Ok(())
    }

    fn body(&mut self, mode: u8, body: &[u8]) -> Result<(), Difference> {
        if !self.bodies.compare(mode, body)? {
            return Err(Difference::new("a mode", "  one of Ltpcsb", &format!("  {}", char::from(mode))));
        }

        self.tally.bodies += 1;
        Ok(())
    }
}
