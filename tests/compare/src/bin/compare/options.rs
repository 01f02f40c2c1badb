//! The command line.

use std::env;
use std::ffi::OsStr;
use std::path::PathBuf;
use std::time::{SystemTime, UNIX_EPOCH};

use comparing::queue::{ByQueue, Queue, QUEUES};

pub const USAGE: &str = "usage: compare [--seed N] [--cases N] [--only CASE] \
     [--program PATH] [--cas-program PATH] [--operations PATH] [--library-only] [EXAMPLE...]";

pub struct Options {
    pub seed: u64,
    /// How many random cases.
    pub cases: u64,
    pub programs: ByQueue<PathBuf>,
    /// The program that calls single functions.
    pub operations: PathBuf,
    /// No program is run.
    pub library_only: bool,
    /// Nothing but this random case.
    pub only: Option<u64>,
    /// Files to take through everything, beside those of `examples/`.
    pub examples: Vec<PathBuf>,
}

impl Options {
    /// The options that say which programs are run.
    pub fn paths(&self) -> String {
        if self.library_only {
            return "--library-only".to_owned();
        }
        let [program, cas_program] = QUEUES.map(|queue| self.programs[queue].display());
        let operations = self.operations.display();
        format!("--program {program} --cas-program {cas_program} --operations {operations}")
    }
}

pub fn options() -> Result<Options, String> {
    let mut options = Options {
        seed: clock_seed(),
        cases: 200_000,
        programs: ByQueue::new(|queue| match queue {
            Queue::Locking => PathBuf::from("crates/rehearse/out/rehearse"),
            Queue::Swapping => PathBuf::from("crates/rehearse_cas/out/rehearse_cas"),
        }),
        operations: PathBuf::from("crates/operations/out/operations"),
        library_only: false,
        only: None,
        examples: Vec::new(),
    };
    let mut arguments = env::args_os().skip(1);
    while let Some(argument) = arguments.next() {
        let mut value = || arguments.next().ok_or("an option lacks its value");
        match argument.to_str() {
            Some("--seed") => options.seed = number(&value()?)?,
            Some("--cases") => options.cases = number(&value()?)?,
            Some("--only") => options.only = Some(number(&value()?)?),
            Some("--program") => options.programs[Queue::Locking] = value()?.into(),
            Some("--cas-program") => options.programs[Queue::Swapping] = value()?.into(),
            Some("--operations") => options.operations = value()?.into(),
            Some("--library-only") => options.library_only = true,
            Some(other) if other.starts_with("--") => return Err(format!("unknown {other}")),
            _ => options.examples.push(argument.into()),
        }
    }
    Ok(options)
}

fn number(text: &OsStr) -> Result<u64, String> {
    let parsed = text.to_str().and_then(|text| text.parse().ok());
    parsed.ok_or_else(|| format!("not a number: {}", text.to_string_lossy()))
}

fn clock_seed() -> u64 {
    let now = SystemTime::now().duration_since(UNIX_EPOCH);
    now.map_or(0, |since| since.as_nanos() as u64)
}
