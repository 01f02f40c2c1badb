//! What every file is taken through: read, a run of each queue, round trip and
//! share sheets, on both sides.

use std::fmt::Debug;

use crate::lent::Lent;
use crate::queue::{ByQueue, Queue, QUEUES};
use crate::schedule::{number_at, trace_room, Draft, ABORT, TASK, WAIT};
use crate::sheets;
use crate::sides::{Answer, Side, PROVED, REFERENCE, SIZES_ROOM, TOTALS_ROOM};
use crate::tally::{Tally, OUTCOMES};

/// The refusal when lent memory is too short.
pub const NO_ROOM: Answer = Answer::refused(8, 0);

/// Two answers that should be equal and are not, and the files that led there.
#[derive(Debug)]
pub struct Disagreement {
    pub what: String,
    pub files: Vec<Vec<u8>>,
}

impl Disagreement {
    /// One that no file is to blame for.
    pub fn without_file(what: String) -> Self {
        Disagreement {
            what,
            files: Vec::new(),
        }
    }

    /// The same with the name of what was being compared.
    pub fn of(mut self, name: &str) -> Self {
        self.what = format!("{name}: {}", self.what);
        self
    }
}

pub type Verdict = Result<(), Disagreement>;

/// The runs of one file.
pub type Runs = ByQueue<Ran>;

/// A run as both sides gave it.
pub struct Ran {
    pub outcomes: Vec<u8>,
    pub values: Vec<u32>,
    /// Given, aborts, waits and hidden.
    totals: Vec<u32>,
}

impl Ran {
    fn of(trace: &[u8], totals: &[u8], entries: usize) -> Self {
        let (outcomes, values) = trace[4..trace_room(entries)].split_at(entries);
        let numbers = |bytes: &[u8]| bytes.chunks_exact(4).map(number_at).collect();
        Ran {
            outcomes: outcomes.to_vec(),
            values: numbers(values),
            totals: numbers(totals),
        }
    }

    /// The most takes that were hidden after any entry: their stores of the
    /// tail, by which they begin, were pending.
    pub fn hidden(&self) -> u32 {
        self.totals[3]
    }

    fn count(&self, wanted: u8) -> u32 {
        let seen = self.outcomes.iter().filter(|&&outcome| outcome == wanted);
        seen.count() as u32
    }
}

/// One file on its way through the comparisons.
pub struct Case<'a> {
    file: &'a [u8],
    pub pattern: u64,
}

impl<'a> Case<'a> {
    /// `pattern` decides the bytes of all memory lent for this case.
    pub const fn new(file: &'a [u8], pattern: u64) -> Self {
        Case { file, pattern }
    }

    /// All comparisons of a single file. Gives the runs of an accepted file, the
    /// refusal of another.
    pub fn examine(&self, tally: &mut Tally) -> Result<Result<Runs, Answer>, Disagreement> {
        let (read, sizes) = self.read(SIZES_ROOM)?;
        if read.is_refused() {
            tally.refusal(read.number);
            self.hold("a refused read leaves its memory", true, sizes.untouched())?;
            for queue in QUEUES {
                self.refused_run(queue, read).map_err(on(queue))?;
            }
            sheets::refused(self, read, tally)?;
            return Ok(Err(read));
        }
        let given = sizes.content();
        self.hold("sizes as written", &self.file[..SIZES_ROOM], given)?;
        let entries = read.low as usize;
        let draft = Draft::of_accepted(self.file);
        let runs = ByQueue::try_new(|queue| {
            let ran = self.run(queue, entries, &draft, tally);
            ran.map_err(on(queue))
        })?;
        self.round_trip(&draft, tally)?;
        sheets::accepted(self, &draft, &runs[Queue::Locking], tally)?;
        Ok(Ok(runs))
    }

    /// The same for a file that must be accepted.
    pub fn accepted(&self, tally: &mut Tally) -> Result<Runs, Disagreement> {
        let refused = |answer| self.disagreement(format!("a sound file is refused: {answer:?}"));
        self.examine(tally)?.map_err(refused)
    }

    /// Reads on both sides, with `room` bytes lent for the sizes.
    pub fn read(&self, room: usize) -> Result<(Answer, Lent), Disagreement> {
        let (answer, [sizes]) = self.lend("read", [("sizes", room)], |side, [lent]| {
            (side.read)(self.file, lent)
        })?;
        Ok((answer, sizes))
    }

    /// Runs on both sides with given room for the trace and the totals.
    pub fn raw_run(
        &self,
        queue: Queue,
        rooms: [usize; 2],
    ) -> Result<(Answer, [Lent; 2]), Disagreement> {
        let rooms = [("trace", rooms[0]), ("totals", rooms[1])];
        self.lend("run", rooms, |side, [trace, totals]| {
            (side.run)(queue, self.file, trace, totals)
        })
    }

    /// A refused file is refused alike by a run, whatever room there is.
    fn refused_run(&self, queue: Queue, read: Answer) -> Verdict {
        let room = (self.pattern % 67) as usize;
        let (answer, lent) = self.raw_run(queue, [room, room % (TOTALS_ROOM + 1)])?;
        self.hold("a run's refusal", read, answer)?;
        let untouched = lent.iter().all(Lent::untouched);
        self.hold("a refused run leaves its memory", true, untouched)
    }

    /// A run, with room for it and with too little.
    fn run(
        &self,
        queue: Queue,
        entries: usize,
        draft: &Draft,
        tally: &mut Tally,
    ) -> Result<Ran, Disagreement> {
        let needed = trace_room(entries);
        // Half of the cases lend exactly what is needed, the rest some more.
        let spare = (self.pattern % 32).saturating_sub(16) as usize;
        let (answer, [trace, totals]) = self.raw_run(queue, [needed + spare, TOTALS_ROOM])?;
        self.hold("an accepted run", Answer::value(0), answer)?;
        self.hold("trace beyond", true, trace.untouched_beyond(needed))?;
        let ran = Ran::of(trace.content(), totals.content(), entries);
        let head = number_at(&trace.content()[..4]);
        self.hold("entries in the trace", entries, head as usize)?;
        self.sound_run(draft, &ran)?;
        tally.run(queue, draft, &ran);
        self.short_run(queue, entries, tally)?;
        Ok(ran)
    }

    /// What any run must be, whoever made it.
    fn sound_run(&self, draft: &Draft, ran: &Ran) -> Verdict {
        let known = |outcome: &u8| OUTCOMES.iter().any(|row| row.0 == *outcome);
        self.hold("only known outcomes", true, ran.outcomes.iter().all(known))?;
        let mut pairs = ran.outcomes.iter().zip(&ran.values);
        let valued = pairs.all(|(&outcome, &value)| outcome == TASK || value == 0);
        self.hold("only TASK has a value", true, valued)?;
        let counted = [TASK, ABORT, WAIT].map(|outcome| ran.count(outcome));
        self.hold("totals", &counted[..], &ran.totals[..3])?;
        // Whichever margin the file sets.
        let beyond = ran.hidden().saturating_sub(draft.needed_margin());
        self.hold("takes hidden beyond the needed margin", 0, beyond)
    }

    /// A run whose trace is lent one byte less than it needs.
    fn short_run(&self, queue: Queue, entries: usize, tally: &mut Tally) -> Verdict {
        let (answer, lent) = self.raw_run(queue, [trace_room(entries) - 1, TOTALS_ROOM])?;
        self.hold("a trace one byte short", NO_ROOM, answer)?;
        tally.refusal(answer.number);
        let untouched = lent.iter().all(Lent::untouched);
        self.hold("too short a trace is left", true, untouched)
    }

    /// Writing what was read gives the file again, and nothing where it
    /// doesn't fit.
    fn round_trip(&self, draft: &Draft, tally: &mut Tally) -> Verdict {
        let (kinds, operands) = (draft.kinds(), draft.operands());
        let length = self.file.len();
        let spare = (self.pattern % 9) as usize;
        let (answer, file) = self.written(&draft.sizes, &kinds, &operands, length + spare)?;
        self.hold("write", Answer::value(length as u32), answer)?;
        self.hold("round trip", true, file.content()[..length] == *self.file)?;
        self.hold("file beyond", true, file.untouched_beyond(length))?;

        let (answer, file) = self.written(&draft.sizes, &kinds, &operands, length - 1)?;
        self.hold("a file one byte short", NO_ROOM, answer)?;
        tally.refusal(answer.number);
        self.hold("too short a file is left", true, file.untouched())
    }

    /// Writes on both sides into `room` bytes.
    pub fn written(
        &self,
        sizes: &[u32; 6],
        kinds: &[u8],
        operands: &[u32],
        room: usize,
    ) -> Result<(Answer, Lent), Disagreement> {
        let (answer, [file]) = self.lend("write", [("file", room)], |side, [lent]| {
            (side.write)(sizes, kinds, operands, lent)
        })?;
        Ok((answer, file))
    }

    /// Writes the share sheet of `count` blocks on both sides into `room` bytes.
    pub fn sheet(&self, count: u32, room: usize) -> Result<(Answer, Lent), Disagreement> {
        let (answer, [sheet]) = self.lend("share sheet", [("sheet", room)], |side, [lent]| {
            (side.share_sheet)(self.file, count, lent)
        })?;
        Ok((answer, sheet))
    }

    /// Calls both sides with equal lent memory, each with its name and its room,
    /// and compares the answers and every byte, the guards included.
    fn lend<const N: usize>(
        &self,
        what: &str,
        rooms: [(&str, usize); N],
        call: impl Fn(&Side, [&mut [u8]; N]) -> Answer,
    ) -> Result<(Answer, [Lent; N]), Disagreement> {
        let fresh = || rooms.map(|(_, room)| Lent::new(room, self.pattern));
        let (mut lent, mut other) = (fresh(), fresh());
        let proved = call(&PROVED, lent.each_mut().map(Lent::room));
        let reference = call(&REFERENCE, other.each_mut().map(Lent::room));
        self.same(what, proved, reference)?;
        for ((name, _), (one, two)) in rooms.iter().zip(lent.iter().zip(&other)) {
            if let Some((place, proved, reference)) = one.first_difference(two) {
                let what = format!("{what}, byte {place} of the lent {name}");
                self.same(&what, proved, reference)?;
            }
        }
        Ok((proved, lent))
    }

    /// The two sides against each other.
    pub fn same<T: PartialEq + Debug>(&self, what: &str, proved: T, reference: T) -> Verdict {
        if proved == reference {
            return Ok(());
        }
        let [one, two] = [PROVED.name, REFERENCE.name];
        let what = format!("{what}: {one} gives {proved:?}, {two} gives {reference:?}");
        Err(self.disagreement(what))
    }

    /// The same for bytes, by the first that differs.
    pub fn same_bytes(&self, what: &str, proved: &[u8], reference: &[u8]) -> Verdict {
        self.same(&format!("length of {what}"), proved.len(), reference.len())?;
        for (place, (one, two)) in proved.iter().zip(reference).enumerate() {
            if one != two {
                self.same(&format!("{what}, byte {place}"), one, two)?;
            }
        }
        Ok(())
    }

    /// What both sides gave against what it must be.
    pub fn hold<T: PartialEq + Debug>(&self, what: &str, expected: T, given: T) -> Verdict {
        if expected == given {
            return Ok(());
        }
        Err(self.disagreement(format!("{what}: expected {expected:?}, given {given:?}")))
    }

    /// A text against the lines that it must be, by the first that differs.
    pub fn hold_lines(&self, what: &str, expected: &str, given: &[u8]) -> Verdict {
        if given == expected.as_bytes() {
            return Ok(());
        }
        let given = String::from_utf8_lossy(given);
        let mut lines = given.split_inclusive('\n');
        for (line, expected) in expected.split_inclusive('\n').enumerate() {
            let what = format!("{what}, line {}", line + 1);
            self.hold(&what, Some(expected), lines.next())?;
        }
        self.hold(&format!("{what}, a further line"), None, lines.next())
    }

    pub fn disagreement(&self, what: String) -> Disagreement {
        Disagreement {
            what,
            files: vec![self.file.to_vec()],
        }
    }
}

/// Names the queue that a disagreement is about.
pub fn on(queue: Queue) -> impl Fn(Disagreement) -> Disagreement {
    move |found| found.of(queue.name())
}
