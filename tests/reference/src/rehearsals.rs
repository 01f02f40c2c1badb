//! The rehearsals M1 to M9 and the edges around them, as short stories.
//!
//! A [`Stage`] obeys and remembers: when its story ends, the same entries go
//! through the schedule file, and the trace must tell the story again. After
//! every entry the number that the machine keeps of takes' stores pending must
//! be the one that a pass over all stores finds.
//!
//! Stories of the queue with compare-and-swap are told in `swapping`, all
//! others on the queue with a lock.

mod hidden;
mod spacing;
mod swapping;

use crate::bench::Bench;
use crate::calls::Locking;
use crate::entry::Entry;
use crate::outcome::Outcome::{
    self, Abort, Early, Empty, End, Full, Moved, Place, Stored, Task, Wait,
};
use crate::plain_queue::{judge_on, Difference, Verdict, Watched};
use crate::sizes::{needed_margin, Sizes};
use crate::trace::run_on;
use crate::{write, Summary};

const ROOMY: Sizes = Sizes {
    slots: 4,
    buffer: 2,
    spacing: 0,
    margin: 2,
    thieves: 2,
    start: 0,
};

struct Stage<Q: Watched = Locking> {
    sizes: Sizes,
    bench: Bench<Q, u32>,
    kinds: Vec<u8>,
    operands: Vec<u32>,
    outcomes: Vec<Outcome<u32>>,
    /// What the machine told, after each entry, of takes' stores pending.
    hidden: Vec<u32>,
}

/// For the queue with a lock, which most stories are about.
impl Stage {
    fn new(sizes: Sizes) -> Stage {
        Stage::on(sizes)
    }

    fn steal(&mut self, thief: u32) -> Outcome<u32> {
        assert_eq!(self.begin_steal(thief), Moved);
        self.thief_steps(thief, 5);
        self.thief(thief)
    }
}

impl<Q: Watched> Stage<Q> {
    fn on(sizes: Sizes) -> Self {
        Stage {
            sizes,
            bench: Bench::new(&sizes),
            kinds: Vec::new(),
            operands: Vec::new(),
            outcomes: Vec::new(),
            hidden: Vec::new(),
        }
    }

    /// The stage with tasks 1 to `tasks` put, all of them in memory.
    fn holding(mut self, tasks: u32) -> Self {
        for task in 1..=tasks {
            assert_eq!(self.put_with_drains(task), Stored);
        }
        assert_eq!(self.hidden(), 0);
        self
    }

    fn obey(&mut self, kind: u8, operand: u32) -> Outcome<u32> {
        let entry = Entry::of_kind(kind, operand).expect("a story's kinds are 0 to 6");
        let outcome = self.bench.obey(entry);
        self.kinds.push(kind);
        self.operands.push(operand);
        self.outcomes.push(outcome);
        self.hidden.push(self.hidden());
        assert_eq!(self.hidden(), self.bench.machine().hidden_by_a_pass());
        outcome
    }

    fn drain(&mut self) -> Outcome<u32> {
        self.obey(0, 0)
    }

    fn client_store(&mut self) -> Outcome<u32> {
        self.obey(1, 0)
    }

    fn begin_put(&mut self, task: u32) -> Outcome<u32> {
        self.obey(2, task)
    }

    fn begin_take(&mut self) -> Outcome<u32> {
        self.obey(3, 0)
    }

    fn worker(&mut self) -> Outcome<u32> {
        self.obey(4, 0)
    }

    fn begin_steal(&mut self, thief: u32) -> Outcome<u32> {
        self.obey(5, thief)
    }

    fn thief(&mut self, thief: u32) -> Outcome<u32> {
        self.obey(6, thief)
    }

    fn drain_all(&mut self) {
        while self.drain() == Moved {}
    }

    /// Takes tasks from `newest` down to `oldest`, with no drain and no more
    /// client stores in between than they need.
    fn take_close_together(&mut self, newest: u32, oldest: u32) {
        for task in (oldest..=newest).rev() {
            assert_eq!(self.take(), Task(task));
            if task > oldest {
                for _ in 0..self.sizes.spacing {
                    assert_eq!(self.client_store(), Moved);
                }
            }
        }
    }

    fn thief_steps(&mut self, thief: u32, steps: usize) {
        for _ in 0..steps {
            assert_eq!(self.thief(thief), Moved);
        }
    }

    fn worker_steps(&mut self, steps: usize) {
        for _ in 0..steps {
            assert_eq!(self.worker(), Moved);
        }
    }

    /// Steps until the worker answers, or cannot go on without help.
    fn worker_goes_on(&mut self) -> Outcome<u32> {
        loop {
            let outcome = self.worker();
            if outcome != Moved {
                return outcome;
            }
        }
    }

    fn put(&mut self, task: u32) -> Outcome<u32> {
        assert_eq!(self.begin_put(task), Moved);
        self.worker_goes_on()
    }

    /// A put with a drain wherever it has to wait for one, and after it.
    fn put_with_drains(&mut self, task: u32) -> Outcome<u32> {
        let mut outcome = self.put(task);
        while outcome == Wait {
            self.drain_all();
            outcome = self.worker_goes_on();
        }
        self.drain_all();
        outcome
    }

    fn take(&mut self) -> Outcome<u32> {
        assert_eq!(self.begin_take(), Moved);
        self.worker_goes_on()
    }

    /// A take with a drain wherever it has to wait for one.
    fn take_with_drains(&mut self) -> Outcome<u32> {
        let mut outcome = self.take();
        while outcome == Wait {
            self.drain_all();
            outcome = self.worker_goes_on();
        }
        outcome
    }

    fn indices(&self) -> (i64, i64) {
        (
            self.bench.machine().head(),
            self.bench.machine().worker_tail(),
        )
    }

    /// The stores of take step 1 that are pending now.
    fn hidden(&self) -> u32 {
        self.bench.machine().hidden()
    }

    fn file(&self) -> Vec<u8> {
        let mut file = vec![0; 28 + 5 * self.kinds.len()];
        write(&self.sizes, &self.kinds, &self.operands, &mut file).expect("a story is a schedule");
        file
    }

    /// The summary and the trace of the same entries in a schedule file.
    fn told_again(&self) -> (Summary, Vec<u8>) {
        let mut trace = vec![0xee; 4 + 5 * self.outcomes.len()];
        let summary = run_on::<Q>(&self.file(), &mut trace).expect("a story has room");
        (summary, trace)
    }

    /// Tells the story again through the file, and once more to the judge.
    fn ends(self) -> Verdict {
        let entries = self.outcomes.len();
        let (summary, trace) = self.told_again();
        let mut told = (entries as u32).to_le_bytes().to_vec();
        told.extend(self.outcomes.iter().map(Outcome::number));
        told.extend(
            self.outcomes
                .iter()
                .flat_map(|outcome| outcome.value().to_le_bytes()),
        );
        assert_eq!(trace, told);
        let most = self.hidden.iter().copied().max();
        assert_eq!(summary.hidden, most.unwrap_or(0));
        judge_on::<Q>(&self.file()).expect("a story is a schedule")
    }

    fn ends_well(self) {
        assert_eq!(
            self.ends(),
            Verdict {
                given_twice: 0,
                lost: 0,
                first_difference: None
            }
        );
    }
}

#[test]
fn m1_the_needed_margin_is_rounded_up() {
    assert_eq!(needed_margin(33, 1), 17);
    assert_eq!(needed_margin(32, 0), 32);
    assert_eq!(needed_margin(64, 63), 1);
    assert_eq!(needed_margin(1, 63), 1);
    assert_eq!(needed_margin(u32::MAX, u32::MAX), 1);
    assert_eq!(needed_margin(u32::MAX, 0), u32::MAX);
}

/// Two tasks in memory, both taken, and both tail stores still pending.
fn two_tasks_taken_late(margin: u32) -> Stage {
    let mut stage = Stage::new(Sizes { margin, ..ROOMY });
    assert_eq!(stage.put(11), Stored);
    stage.drain_all();
    assert_eq!(stage.put(12), Stored);
    stage.drain_all();
    assert_eq!(stage.take(), Task(12));
    assert_eq!(stage.take(), Task(11));
    stage
}

#[test]
fn m2_a_short_margin_gives_a_task_twice() {
    let mut stage = two_tasks_taken_late(1);
    assert_eq!(stage.steal(0), Task(11));
    let verdict = Verdict {
        given_twice: 1,
        lost: 0,
        first_difference: Some(Difference {
            entry: stage.outcomes.len() - 3, // the steal's fourth step of six
            why: "a steal without ABORT where no task stands",
        }),
    };
    assert_eq!(stage.ends(), verdict);
}

#[test]
fn after_m2_a_put_behind_the_head_is_lost() {
    let mut stage = two_tasks_taken_late(1);
    assert_eq!(stage.steal(0), Task(11));
    assert_eq!(stage.indices(), (1, 0));
    stage.drain_all();
    assert_eq!(stage.put(13), Stored);
    stage.drain_all();
    assert_eq!(stage.take_with_drains(), Empty);
    assert_eq!(stage.steal(0), Abort);
    let verdict = stage.ends();
    assert_eq!((verdict.given_twice, verdict.lost), (1, 1));
}

#[test]
fn m3_the_needed_margin_aborts_instead() {
    for margin in [2, 0] {
        let mut stage = two_tasks_taken_late(margin);
        assert_eq!(stage.steal(0), Abort);
        assert_eq!(stage.indices(), (0, 0));
        stage.ends_well();
    }
}

#[test]
fn m4_two_slots_hold_one_task() {
    let mut stage = Stage::new(Sizes { slots: 2, ..ROOMY });
    assert_eq!(stage.put(1), Stored);
    stage.drain_all();
    assert_eq!(stage.put(2), Full);
    stage.ends_well();
}

#[test]
fn m5_a_lifted_head_lets_one_more_put_in() {
    for steps in [3, 4] {
        let mut stage = Stage::new(Sizes { slots: 2, ..ROOMY });
        assert_eq!(stage.put(1), Stored);
        stage.drain_all();
        assert_eq!(stage.begin_steal(0), Moved);
        stage.thief_steps(0, steps);
        assert_eq!(stage.put(2), Stored);
        assert_eq!(stage.put(3), Full);
        stage.thief_steps(0, 5 - steps);
        assert_eq!(stage.thief(0), Abort);
        stage.drain_all();
        assert_eq!(stage.take(), Task(2));
        assert_eq!(stage.take(), Task(1));
        stage.ends_well();
    }
}

#[test]
fn m6_an_empty_take_goes_below_zero_and_back() {
    let mut stage = Stage::new(ROOMY);
    assert_eq!(stage.begin_take(), Moved);
    stage.worker_steps(2);
    assert_eq!(stage.indices(), (0, -1));
    assert_eq!(stage.worker(), Wait, "the lock needs an empty store buffer");
    assert_eq!(stage.drain(), Moved);
    stage.worker_steps(3);
    assert_eq!(stage.indices(), (0, 0));
    assert_eq!(stage.worker(), Wait, "so does the unlock");
    assert_eq!(stage.drain(), Moved);
    assert_eq!(stage.worker(), Empty);
    assert_eq!(stage.indices(), (0, 0));
    stage.ends_well();
}

#[test]
fn m7_the_last_index_ends_all_puts() {
    let mut stage = Stage::new(Sizes {
        start: 0x7fff_ffff,
        ..ROOMY
    });
    assert_eq!(stage.put(1), End);
    assert_eq!(stage.take_with_drains(), Empty);
    stage.ends_well();

    let mut stage = Stage::new(Sizes {
        start: 0x7fff_fffe,
        ..ROOMY
    });
    assert_eq!(stage.put(1), Stored);
    assert_eq!(stage.put(2), End);
    assert_eq!(stage.begin_steal(0), Moved);
    stage.drain_all();
    stage.thief_steps(0, 5);
    assert_eq!(stage.thief(0), Abort);
    assert_eq!(stage.take(), Task(1));
    stage.drain_all();
    assert_eq!(stage.put(3), Stored, "a take gives the last index back");
    stage.ends_well();
}

#[test]
fn end_comes_before_full() {
    let sizes = Sizes {
        slots: 2,
        start: 0x7fff_fffe,
        ..ROOMY
    };
    let mut stage = Stage::new(sizes);
    assert_eq!(stage.put(1), Stored);
    assert_eq!(stage.put(2), End);
    stage.ends_well();
}

#[test]
fn m8_takes_keep_their_spacing() {
    let mut stage = Stage::new(Sizes {
        spacing: 1,
        ..ROOMY
    });
    assert_eq!(stage.take_with_drains(), Empty);
    assert_eq!(stage.begin_take(), Early);
    assert_eq!(stage.client_store(), Moved);
    assert_eq!(stage.begin_take(), Moved);
    stage.ends_well();
}

#[test]
fn m9_the_worker_wins_the_last_task() {
    let mut stage = Stage::new(ROOMY);
    assert_eq!(stage.put(7), Stored);
    stage.drain_all();
    assert_eq!(stage.begin_steal(1), Moved);
    stage.thief_steps(1, 3);
    assert_eq!(stage.begin_take(), Moved);
    stage.worker_steps(2);
    stage.drain_all();
    assert_eq!(stage.worker(), Wait, "the thief has the lock");
    stage.thief_steps(1, 2);
    assert_eq!(stage.thief(1), Abort);
    stage.worker_steps(3);
    assert_eq!(stage.worker(), Task(7));
    stage.ends_well();
}

#[test]
fn a_thief_takes_the_oldest_and_sees_nothing_pending() {
    let mut stage = Stage::new(Sizes {
        buffer: 8,
        margin: 1,
        spacing: 7,
        ..ROOMY
    });
    assert_eq!(stage.put(1), Stored);
    assert_eq!(stage.put(2), Stored);
    assert_eq!(stage.steal(0), Abort, "both puts are pending");
    stage.drain_all();
    assert_eq!(stage.steal(1), Task(1));
    assert_eq!(stage.steal(1), Abort, "one task is within the margin");
    stage.ends_well();
}

#[test]
fn a_locked_out_thief_and_worker_wait() {
    let mut stage = Stage::new(ROOMY);
    assert_eq!(stage.begin_steal(0), Moved);
    assert_eq!(stage.begin_steal(1), Moved);
    assert_eq!(stage.thief(0), Moved);
    assert_eq!(stage.thief(1), Wait);
    stage.thief_steps(0, 4);
    assert_eq!(stage.thief(0), Abort);
    assert_eq!(stage.begin_take(), Moved);
    stage.worker_steps(2);
    stage.drain_all();
    assert_eq!(stage.worker(), Moved);
    assert_eq!(stage.thief(1), Wait, "the worker has the lock");
    stage.worker_steps(2);
    stage.drain_all();
    assert_eq!(stage.worker(), Empty);
    assert_eq!(stage.thief(1), Moved);
    stage.ends_well();
}

#[test]
fn entries_out_of_order_are_in_the_wrong_place() {
    let mut stage = Stage::new(ROOMY);
    assert_eq!(stage.worker(), Place);
    assert_eq!(stage.thief(1), Place);
    assert_eq!(stage.drain(), Wait);
    assert_eq!(stage.begin_put(1), Moved);
    assert_eq!(stage.begin_put(2), Place);
    assert_eq!(stage.begin_take(), Place);
    assert_eq!(stage.client_store(), Place);
    assert_eq!(
        stage.begin_steal(0),
        Moved,
        "a thief does not mind the worker"
    );
    assert_eq!(stage.begin_steal(0), Place);
    assert_eq!(stage.begin_steal(1), Moved);
    assert_eq!(stage.worker_goes_on(), Stored);
    assert_eq!(stage.worker(), Place);
    stage.ends_well();
}

#[test]
fn a_full_store_buffer_holds_up_put_and_take() {
    let mut stage = Stage::new(Sizes {
        buffer: 1,
        margin: 1,
        ..ROOMY
    });
    assert_eq!(stage.client_store(), Moved);
    assert_eq!(stage.begin_put(5), Moved);
    assert_eq!(stage.worker(), Moved, "loading needs no place");
    assert_eq!(stage.worker(), Wait);
    assert_eq!(stage.drain(), Moved);
    assert_eq!(stage.worker(), Moved);
    assert_eq!(stage.worker(), Wait);
    assert_eq!(stage.drain(), Moved);
    assert_eq!(stage.worker(), Stored);
    assert_eq!(stage.begin_take(), Moved);
    assert_eq!(stage.worker(), Wait);
    assert_eq!(stage.drain(), Moved);
    assert_eq!(
        stage.worker_goes_on(),
        Task(5),
        "a pending tail does not hold up a load"
    );
    stage.ends_well();
}

#[test]
fn the_worker_loads_its_own_pending_task() {
    let mut stage = Stage::new(Sizes {
        buffer: 64,
        margin: 0,
        ..ROOMY
    });
    for task in [u32::MAX, 0, 3] {
        assert_eq!(stage.put(task), Stored);
        assert_eq!(stage.take(), Task(task));
    }
    stage.ends_well();
}
