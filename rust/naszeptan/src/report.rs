//! The failures of a tape, one row for each.

use std::error::Error;
use std::fmt;

use crate::raw::MEMORY;
use crate::{Answer, Cause, Event, FailureRegisters, Machine, State, Tape, Texasr, Thread};

/// The report of a tape: each failure that was recorded, and each transaction
/// that was reclaimed, in the order of the tape.
///
/// ```
/// use naszeptan::{Event, Profile, Report, Tape};
///
/// let mut tape = Tape::new();
/// tape.push(0, Event::Tbegin { r: false })
///     .push(0, Event::Ld { rt: 4, index: 0 })
///     .push(1, Event::Std { ra: 5, index: 0 });
/// let report = Report::of(&tape).unwrap();
/// let row = &report.rows[0];
/// assert_eq!((row.record, row.thread, row.by), (2, 0, 1));
/// assert_eq!(row.registers.texasr.0, 0x0008_0000_1800_0001);
///
/// // What a processor shows, and which bits it may show otherwise.
/// let shown = Profile::default().shown(row.registers.texasr).unwrap();
/// assert_eq!(shown.value, row.registers.texasr);
/// assert_eq!(shown.free(), "32:35, 39:63");
/// ```
#[derive(Clone, Debug, PartialEq, Eq)]
pub struct Report {
    /// One row for each failure recorded or reclaim.
    pub rows: Vec<Row>,
    /// How many records were done.
    pub records: usize,
    /// The record that was refused, at which the run stopped, and its number.
    pub stopped: Option<(usize, Answer)>,
    /// The registers of each thread after the last record done.
    pub last: Vec<FailureRegisters>,
}

/// One failure that was recorded, or one reclaim.
#[derive(Clone, Copy, Debug, PartialEq, Eq)]
pub struct Row {
    /// The index of the record.
    pub record: usize,
    /// The thread that did it. Where it is not `thread`, its event is what made
    /// the transaction fail.
    pub by: u8,
    /// What it did.
    pub event: Event,
    /// The thread that failed.
    pub thread: u8,
    /// Its registers after the record.
    pub registers: FailureRegisters,
    /// Its state after the record: S where handling still waits.
    pub state: State,
    /// The record in which the failure was recorded. It is `record` but for a
    /// treclaim. of a transaction that had failed before; None where that
    /// failure is none of this tape.
    pub recorded: Option<usize>,
}

/// How often a thread failed by a cause.
#[derive(Clone, Copy, Debug, PartialEq, Eq)]
pub struct Count {
    /// The thread.
    pub thread: u8,
    /// The cause.
    pub cause: Cause,
    /// How many failures were recorded.
    pub failures: usize,
}

/// Why there is no report: the first record that is none, and its number.
#[derive(Clone, Copy, Debug, PartialEq, Eq, Hash)]
pub struct NotReported {
    /// The record's index; with [`Answer::TapeLength`], how many whole records
    /// there are.
    pub index: usize,
    /// Why.
    pub answer: Answer,
}

impl Report {
    /// The report of a tape on the fresh machine with the largest memory, on
    /// which the program runs it.
    pub fn of(tape: &Tape) -> Result<Report, NotReported> {
        Report::on(&mut Machine::fresh(), &mut vec![0; MEMORY], tape)
    }

    /// The report of a tape on a machine, which is then that after the run.
    pub fn on(
        machine: &mut Machine,
        memory: &mut [u64],
        tape: &Tape,
    ) -> Result<Report, NotReported> {
        let whole = |(index, read): (usize, Result<_, _>)| {
            read.map_err(|answer| NotReported { index, answer })
        };
        let records: Vec<(u8, Event)> = match tape.is_ragged() {
            true => Err(NotReported {
                index: tape.len() - 1,
                answer: Answer::TapeLength,
            }),
            false => tape.records().enumerate().map(whole).collect(),
        }?;
        let mut report = Report {
            rows: Vec::new(),
            records: 0,
            stopped: None,
            last: Vec::new(),
        };
        for (index, (by, event)) in records.into_iter().enumerate() {
            let before = machine.clone();
            let answer = machine.step(memory, by, event);
            if !answer.is_done() {
                report.stopped = Some((index, answer));
                break;
            }
            report.records += 1;
            for thread in 0..machine.count {
                let threads = (&before.threads[thread], &machine.threads[thread]);
                report.meet(index, (by, event), thread as u8, threads);
            }
        }
        let threads = machine.threads.iter().take(machine.count);
        report.last = threads.map(FailureRegisters::of).collect();
        Ok(report)
    }

    /// What a record did to a thread: a live transaction has FS = 0 (rule V9),
    /// so where FS = 1 after it, a failure was recorded.
    fn meet(
        &mut self,
        record: usize,
        (by, event): (u8, Event),
        thread: u8,
        (before, after): (&Thread, &Thread),
    ) {
        let failed = live(before) && after.control.texasr.failed();
        let reclaimed = by == thread && matches!(event, Event::Treclaim { .. });
        if !failed && !reclaimed {
            return;
        }
        let registers = FailureRegisters::of(after);
        let last = self.failures(thread).last();
        let earlier = last.filter(|row| row.registers.texasr == registers.texasr);
        let earlier = earlier.map(|row| row.record);
        self.rows.push(Row {
            record,
            by,
            event,
            thread,
            registers,
            state: after.control.state,
            recorded: if failed { Some(record) } else { earlier },
        });
    }

    /// The failures recorded for a thread, in order, without reclaims of what
    /// had failed before: one for each value that a handler can read.
    pub fn failures(&self, thread: u8) -> impl Iterator<Item = &Row> {
        let own = move |row: &&Row| row.thread == thread && row.is_failure();
        self.rows.iter().filter(own)
    }

    /// The failures recorded by thread and cause, in the order in which they
    /// first came.
    pub fn counts(&self) -> Vec<Count> {
        let mut counts: Vec<Count> = Vec::new();
        for row in self.rows.iter().filter(|row| row.is_failure()) {
            let (thread, cause) = (row.thread, row.registers.texasr.cause());
            let same = |count: &&mut Count| count.thread == thread && count.cause == cause;
            match counts.iter_mut().find(same) {
                Some(count) => count.failures += 1,
                None => counts.push(Count {
                    thread,
                    cause,
                    failures: 1,
                }),
            }
        }
        counts
    }

    /// The registers of a thread that went on, to hold a TEXASR to that was
    /// read: as they stand where no failure is recorded in them, else those
    /// behind the commit of a transaction that the tape has not, and so with
    /// ROT as it was read.
    pub fn went_on(&self, thread: u8, read: Texasr) -> FailureRegisters {
        let last = self.last.get(usize::from(thread)).copied();
        let mut registers = last.unwrap_or_default();
        if registers.texasr.failed() {
            registers.texasr = Texasr(read.0 & ROT);
        }
        registers
    }
}

impl Row {
    /// A failure was recorded; else a transaction that had failed before was
    /// reclaimed.
    pub fn is_failure(&self) -> bool {
        self.recorded == Some(self.record)
    }

    /// The registers as the failure's handler reads them: CR0 is 0b1010 once a
    /// failure that waits in Suspended state is handled (rule F6).
    pub fn handler(&self) -> FailureRegisters {
        let cr0 = match self.state {
            State::S => 0b1010,
            _ => self.registers.cr0,
        };
        FailureRegisters {
            cr0,
            ..self.registers
        }
    }

    /// The registers to hold a CR0 to that was read: of a reclaim it may have
    /// been read right after treclaim., or by the handler that trechkpt. leads
    /// to (rule B8).
    pub fn read_with(&self, cr0: Option<u8>) -> FailureRegisters {
        let handler = self.handler();
        match cr0 {
            Some(0b1010 | 0b1011) if self.is_reclaim() => FailureRegisters {
                cr0: 0b1010,
                ..handler
            },
            _ => handler,
        }
    }

    /// A treclaim. of the thread's transaction.
    pub fn is_reclaim(&self) -> bool {
        matches!(self.event, Event::Treclaim { .. })
    }
}

/// Bit 38 of TEXASR.
const ROT: u64 = 1 << (63 - 38);

/// Rule M12.
fn live(thread: &Thread) -> bool {
    match thread.control.state {
        State::N => false,
        State::T => true,
        State::S => !thread.control.doomed,
    }
}

impl fmt::Display for NotReported {
    fn fmt(&self, f: &mut fmt::Formatter<'_>) -> fmt::Result {
        let NotReported { index, answer } = self;
        match answer {
            Answer::TapeLength => f.write_str("the tape: ")?,
            _ => write!(f, "record {index}: ")?,
        }
        write!(f, "{}, {answer}", answer.number())
    }
}

impl Error for NotReported {}
