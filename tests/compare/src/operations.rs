//! The test program `operations`, which calls single functions of the proved
//! libraries: one request after another, each waiting for its response.
//!
//! What the bytes mean is said in `crates/operations`.

use std::io::{self, Read, Write};
use std::path::Path;
use std::process::{Child, ChildStdin, ChildStdout, Command, Stdio};

use crate::arrays::Arrays;
use crate::image::NUMBERS;
use crate::queue::Queue;
use crate::schedule::{number_at, Entry};
use crate::sides::in_file_order;

/// The bytes of a machine.
const IMAGE: usize = 8 * NUMBERS;
/// The longest request that the program takes.
pub const LONGEST: usize = 65_536;

/// The outcome's number and value, the totals, the takes hidden and the machine
/// after a step.
pub type Stepped = (u8, u32, [u32; 3], u32, Vec<u8>);

/// All functions fail only where the program has ended.
pub struct Operations {
    child: Child,
    /// `None` once the program is told to end.
    requests: Option<ChildStdin>,
    responses: ChildStdout,
}

impl Operations {
    pub fn start(path: &Path) -> io::Result<Self> {
        let mut child = Command::new(path)
            .stdin(Stdio::piped())
            .stdout(Stdio::piped())
            .stderr(Stdio::null())
            .spawn()?;
        Ok(Operations {
            requests: child.stdin.take(),
            responses: child.stdout.take().expect("standard output is piped"),
            child,
        })
    }

    /// One step of a run.
    pub fn step(
        &mut self,
        image: &[u8],
        totals: [u32; 3],
        (kind, operand): Entry,
    ) -> io::Result<Stepped> {
        assert_eq!(image.len(), IMAGE);
        let totals = totals.map(u32::to_le_bytes).concat();
        let response = self.ask(b'o', &[image, &totals, &[kind], &operand.to_le_bytes()])?;
        assert_eq!(response.len(), 21 + IMAGE);
        let word = |at: usize| number_at(&response[at..at + 4]);
        let totals = [word(5), word(9), word(13)];
        let after = response[21..].to_vec();
        Ok((response[0], word(1), totals, word(17), after))
    }

    /// The entry to obey at a place of two parallel arrays, its kind and its operand.
    pub fn entry_at(&mut self, arrays: &Arrays) -> io::Result<(u8, u32)> {
        let place = arrays.place.to_le_bytes();
        self.ask_of_arrays(b'e', arrays, &place)
    }

    /// The check of two parallel arrays: a refusal's number and its place, or twice 0.
    pub fn check_entries(&mut self, arrays: &Arrays) -> io::Result<(u8, u32)> {
        self.ask_of_arrays(b'c', arrays, &[])
    }

    fn ask_of_arrays(&mut self, name: u8, arrays: &Arrays, more: &[u8]) -> io::Result<(u8, u32)> {
        let Arrays {
            kinds, operands, ..
        } = arrays;
        let sizes = in_file_order(&arrays.sizes).map(u32::to_le_bytes).concat();
        let length = (kinds.len() as u32).to_le_bytes();
        let response = self.ask(name, &[&sizes, more, &length, kinds, operands])?;
        assert_eq!(response.len(), 5);
        Ok((response[0], number_at(&response[1..])))
    }

    /// The kinds and the operands of a file.
    pub fn parts(&mut self, file: &[u8]) -> io::Result<(Vec<u8>, Vec<u8>)> {
        let response = self.ask(b'p', &[file])?;
        let (length, parts) = response.split_at(4);
        let (kinds, operands) = parts.split_at(number_at(length) as usize);
        Ok((kinds.to_vec(), operands.to_vec()))
    }

    /// The lines that are printed for a file.
    pub fn lines(&mut self, queue: Queue, file: &[u8]) -> io::Result<Vec<u8>> {
        let name = match queue {
            Queue::Locking => b'l',
            Queue::Swapping => b's',
        };
        self.ask(name, &[file])
    }

    fn ask(&mut self, name: u8, parts: &[&[u8]]) -> io::Result<Vec<u8>> {
        let payload = parts.concat();
        assert!(payload.len() <= LONGEST);
        let length = (payload.len() as u32).to_le_bytes();
        let requests = self.requests.as_mut().expect("the program runs");
        // At once: the program reads a request whole before it responds.
        requests.write_all(&[&[name], &length[..], &payload].concat())?;
        let mut length = [0; 4];
        self.responses.read_exact(&mut length)?;
        let mut response = vec![0; u32::from_le_bytes(length) as usize];
        self.responses.read_exact(&mut response)?;
        Ok(response)
    }
}

impl Drop for Operations {
    /// The program ends where its input does.
    fn drop(&mut self) {
        self.requests = None;
        let _ = self.child.wait();
    }
}
