//! The programs, from their standard input to their standard output.

use std::io::{self, ErrorKind, Read, Write};
use std::path::PathBuf;
use std::process::{Command, Stdio};
use std::thread;
use std::time::Duration;

use crate::checks::{Case, Verdict};
use crate::damage::damaged;
use crate::edges::drains;
use crate::generate;
use crate::queue::{ByQueue, Queue, QUEUES};
use crate::random::Random;
use crate::schedule::{HEADER, MOST_ENTRIES};

/// Where the program of each queue is.
pub struct Programs<'a>(pub &'a ByQueue<PathBuf>);

/// How the bytes reach a program's standard input.
#[derive(Clone, Copy, PartialEq)]
pub enum Feed {
    AtOnce,
    /// In three pieces with pauses, so that one read isn't enough.
    InPieces,
}

impl Programs<'_> {
    /// Holds both programs to the reference's lines.
    pub fn compare(&self, file: &[u8], feed: Feed) -> Verdict {
        let mut queues = QUEUES.into_iter();
        queues.try_for_each(|queue| self.hold(queue, file, feed, &queue.lines(file)))
    }

    pub fn compare_both(&self, file: &[u8]) -> Verdict {
        self.compare(file, Feed::AtOnce)?;
        self.compare(file, Feed::InPieces)
    }

    /// Holds a program to given lines.
    pub fn hold(&self, queue: Queue, file: &[u8], feed: Feed, expected: &str) -> Verdict {
        let case = Case::new(file, 0);
        let what = format!("program {}", self.0[queue].display());
        let printed = self.printed(queue, file, feed);
        let printed = printed.map_err(|error| case.disagreement(format!("{what}: {error}")))?;
        case.hold_lines(&what, expected, &printed)
    }

    fn printed(&self, queue: Queue, file: &[u8], feed: Feed) -> io::Result<Vec<u8>> {
        let mut child = Command::new(&self.0[queue])
            .stdin(Stdio::piped())
            .stdout(Stdio::piped())
            .stderr(Stdio::null())
            .spawn()?;
        let input = child.stdin.take().expect("standard input is piped");
        let mut output = child.stdout.take().expect("standard output is piped");
        let mut printed = Vec::new();
        // Both pipes can be full at once, so they are served at once.
        let fed = thread::scope(|scope| {
            let feeder = scope.spawn(|| feed_all(input, file, feed));
            let read = output.read_to_end(&mut printed);
            let fed = feeder.join().expect("the feeder doesn't panic");
            read.and(fed)
        });
        let status = child.wait()?;
        fed?;
        if status.code().is_none() {
            return Err(io::Error::other("ended by a signal"));
        }
        Ok(printed)
    }
}

/// A program that knows its answer may leave the rest unread.
fn feed_all(mut input: impl Write, file: &[u8], feed: Feed) -> io::Result<()> {
    let piece = match feed {
        Feed::AtOnce => file.len(),
        Feed::InPieces => file.len() / 3 + 1,
    };
    for bytes in file.chunks(piece.max(1)) {
        match input.write_all(bytes) {
            Err(error) if error.kind() == ErrorKind::BrokenPipe => return Ok(()),
            written => written?,
        }
        if feed == Feed::InPieces {
            thread::sleep(Duration::from_millis(3));
        }
    }
    Ok(())
}

/// The largest file, and inputs longer than any file.
pub fn overlong() -> Vec<Vec<u8>> {
    let most = drains(MOST_ENTRIES);
    let largest = most.len();
    let mut files = Vec::new();
    for length in [
        largest - 1,
        largest,
        largest + 1,
        largest + 5,
        65_536,
        65_537,
        100_000,
        1_000_000,
    ] {
        for mut file in [drains(0), most.clone(), drains(MOST_ENTRIES + 1)] {
            file.resize(length, 0);
            files.push(file);
        }
        files.push(vec![255; length]);
    }
    // Kinds after the header that no reader may look at before the length.
    let mut wild = most;
    wild[HEADER..].fill(255);
    wild.push(255);
    files.push(wild);
    files
}

/// Random files for the programs, every other one damaged.
pub fn random_file(seed: u64, number: u64) -> Vec<u8> {
    let mut random = Random::of_case(!seed, number);
    let most = random.pick(&[10, 100, 1000, MOST_ENTRIES]);
    let length = random.place(most + 1);
    let file = generate::schedule(length, &mut random).bytes();
    if number.is_multiple_of(2) {
        file
    } else {
        damaged(&file, &mut random)
    }
}
