//! Single functions of the proved libraries, by the program `operations`,
//! against those of the reference.

use std::io;
use std::path::{Path, PathBuf};
use std::sync::Mutex;

use crate::arrays::Arrays;
use crate::checks::{on, Case, Disagreement, Verdict};
use crate::edges;
use crate::operations::{Operations, LONGEST};
use crate::program::overlong;
use crate::queue::QUEUES;

pub struct Single {
    path: PathBuf,
    /// Programs that nobody asks just now; each thread needs one to itself.
    idle: Mutex<Vec<Operations>>,
}

impl Single {
    pub fn new(path: &Path) -> Self {
        Single {
            path: path.to_path_buf(),
            idle: Mutex::new(Vec::new()),
        }
    }

    /// Asks a program on behalf of a case. One that fails is not asked again.
    pub fn ask<T>(
        &self,
        case: &Case,
        question: impl FnOnce(&mut Operations) -> io::Result<T>,
    ) -> Result<T, Disagreement> {
        self.try_ask(question)
            .map_err(|error| case.disagreement(format!("program {}: {error}", self.path.display())))
    }

    fn try_ask<T>(&self, question: impl FnOnce(&mut Operations) -> io::Result<T>) -> io::Result<T> {
        let idle = || self.idle.lock().expect("nobody panics with the lock");
        let free = idle().pop();
        let mut program = free.map_or_else(|| Operations::start(&self.path), Ok)?;
        let answer = question(&mut program)?;
        idle().push(program);
        Ok(answer)
    }

    pub fn hold_entry(&self, arrays: &Arrays) -> Verdict {
        let Arrays {
            kinds,
            operands,
            sizes,
            place,
        } = arrays;
        let both = [&kinds[..], operands].concat();
        let case = Case::new(&both, 0);
        let proved = self.ask(&case, |program| program.entry_at(arrays))?;
        // Where none is allowed, a step of a thief that no machine has stands in.
        let nobody = (6, u32::MAX);
        let reference = reference::entry_at(kinds, operands, sizes.thieves, *place);
        let what = format!(
            "entry {place} of {} kinds, then operands, {sizes:?}",
            kinds.len()
        );
        case.same(&what, proved, reference.unwrap_or(nobody))
    }

    pub fn hold_check(&self, arrays: &Arrays) -> Verdict {
        let Arrays {
            kinds,
            operands,
            sizes,
            ..
        } = arrays;
        let both = [&kinds[..], operands].concat();
        let case = Case::new(&both, 0);
        let proved = self.ask(&case, |program| program.check_entries(arrays))?;
        let reference = match reference::check_entries(sizes, kinds, operands) {
            Ok(()) => (0, 0),
            Err(refusal) => (refusal.number as u8, refusal.place),
        };
        let what = format!("check of {} kinds, then operands, {sizes:?}", kinds.len());
        case.same(&what, proved, reference)
    }

    pub fn hold_parts(&self, file: &[u8]) -> Verdict {
        let case = Case::new(file, 0);
        let (kinds, operands) = self.ask(&case, |program| program.parts(file))?;
        let reference = reference::parts(file);
        case.same_bytes("kind part", &kinds, reference.0)?;
        case.same_bytes("operand part", &operands, reference.1)
    }

    pub fn hold_lines(&self, file: &[u8]) -> Verdict {
        let case = Case::new(file, 0);
        for queue in QUEUES {
            let printed = self.ask(&case, |program| program.lines(queue, file))?;
            let held = case.hold_lines("library's lines", &queue.lines(file), &printed);
            held.map_err(on(queue))?;
        }
        Ok(())
    }
}

/// Files at the edges of every range, and as long as a request can be.
pub fn edge_files() -> Vec<Vec<u8>> {
    let edges = edges::files().into_iter().map(|edge| edge.file);
    let files = edges.chain(overlong());
    files.filter(|file| file.len() <= LONGEST).collect()
}
