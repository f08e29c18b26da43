//! The machine with typed fields, and what can be done with it.

use std::fmt;

use crate::raw::{self, Registers, Transaction, THREADS};
use crate::{Answer, Ended, Event, Texasr, ThreadSet};

/// A thread's state.
#[derive(Clone, Copy, Debug, Default, PartialEq, Eq, Hash)]
pub enum State {
    /// Non-transactional.
    #[default]
    N,
    /// Transactional.
    T,
    /// Suspended.
    S,
}

/// The rest of a thread's record beside its registers and transaction.
#[derive(Clone, Debug, Default, PartialEq, Eq, Hash)]
pub struct Control {
    /// Next instruction address.
    pub nia: u64,
    /// PR: in problem state.
    pub pr: bool,
    /// TM: the facility is on.
    pub tm: bool,
    /// N, T or S.
    pub state: State,
    /// TDOOMED.
    pub doomed: bool,
    /// Where handling goes on.
    pub tfhar: u64,
    /// Where the failure was. Recording makes the low two bits 0 and PR.
    pub tfiar: u64,
    /// Why it failed.
    pub texasr: Texasr,
    /// SRR0: where an interrupt came, and where rfid goes on.
    pub srr0: u64,
    /// SRR1: TS, TM and PR as an interrupt met them, and as rfid asks for them
    /// (docs/RULES.md, M15).
    pub srr1: u64,
}

/// One thread's record. The default is the record of a thread that is not
/// there: all zero.
#[derive(Clone, Debug, Default, PartialEq, Eq, Hash)]
pub struct Thread {
    /// The live registers, but for CR0.
    pub live: Registers,
    /// CR field 0, which no checkpoint keeps.
    pub cr0: u8,
    /// The checkpoint.
    pub checkpoint: Registers,
    /// NIA, PR, TM, state, TDOOMED and the five special registers.
    pub control: Control,
    /// Read set, write set and log.
    pub transaction: Transaction,
}

/// A machine of one to four threads. Its memory is lent to each call.
///
/// All fields may be read and set. A machine that is not valid (docs/RULES.md,
/// V1 to V15) can so be made; each call then refuses it and changes nothing.
///
/// ```
/// use naszeptan::{Answer, Event, Machine, State};
///
/// let mut machine = Machine::fresh();
/// let mut memory = vec![0; 4096];
/// machine.threads[2].live.gpr[3] = 7;
/// machine.threads[2].control.nia = 0x1000;
/// assert_eq!(machine.valid(memory.len()), Ok(()));
///
/// let answer = machine.step(&mut memory, 2, Event::Std { ra: 3, index: 17 });
/// assert_eq!(answer, Answer::Done);
/// assert_eq!(memory[17], 7);
/// assert_eq!(machine.threads[2].control.nia, 0x1004);
///
/// // Transactional, yet at no level: not a valid machine.
/// machine.threads[2].control.state = State::T;
/// assert_eq!(machine.valid(memory.len()), Err(Answer::NoMachine));
/// let before = machine.clone();
/// let answer = machine.step(&mut memory, 0, Event::Trechkpt);
/// assert_eq!(answer, Answer::NoMachine);
/// assert_eq!(machine, before);
/// ```
#[derive(Clone, Debug, PartialEq, Eq, Hash)]
pub struct Machine {
    /// How many threads there are, 1 to 4.
    pub count: usize,
    /// The records; the first `count` are the machine's threads, and those
    /// past them are all zero.
    pub threads: [Thread; THREADS],
}

/// What a step gave.
#[derive(Clone, Copy, Debug, PartialEq, Eq, Hash)]
pub struct Done {
    /// The event's answer, which tells of its own thread alone.
    pub answer: Answer,
    /// The threads that failed in the event, its own and others
    /// (docs/RULES.md, H8). Empty where the event was refused.
    pub failed: ThreadSet,
}

impl Machine {
    /// The fresh machine: four threads, Non-transactional, PR = 1, TM = 1, all
    /// else zero.
    pub fn fresh() -> Machine {
        Machine::promised(&raw::fresh())
    }

    /// Whether this is a machine over a memory of `len` doublewords;
    /// [`Answer::Size`] or [`Answer::NoMachine`] where it is not.
    pub fn valid(&self, len: usize) -> Result<(), Answer> {
        match Answer::promised(raw::valid(self.into(), len)) {
            Answer::Done => Ok(()),
            refused => Err(refused),
        }
    }

    /// Does one event by a thread. A refused one leaves machine and memory
    /// untouched. [`Machine::step_with_failed`] also tells which threads
    /// failed.
    ///
    /// ```
    /// use naszeptan::{Answer, Event, Machine};
    ///
    /// let mut machine = Machine::fresh();
    /// let mut memory = [0; 16];
    /// let begin = Event::Tbegin { r: false };
    /// assert_eq!(machine.step(&mut memory, 0, begin), Answer::Done);
    /// assert_eq!(machine.step(&mut memory, 4, begin), Answer::NoThread);
    /// assert_eq!(machine.step(&mut memory, 0, Event::Disallowed), Answer::Handled);
    /// assert_eq!(machine.step(&mut memory, 0, Event::Trechkpt), Answer::Privileged);
    /// ```
    #[must_use = "the event may have been refused"]
    pub fn step(&mut self, memory: &mut [u64], thread: u8, event: Event) -> Answer {
        self.step_with_failed(memory, thread, event).answer
    }

    /// Does one event by a thread, as [`Machine::step`] does, and also tells
    /// which threads failed in it: its own where the answer is
    /// [`Answer::Handled`], and each whose transaction was live before the
    /// event and is not after it, unless it is the thread's own commit.
    ///
    /// A failure recorded in Suspended state is so told twice, when it is
    /// recorded and when tresume, rfid or mtmsrd handles it; one of these after
    /// trechkpt. that handles is told too. treclaim. of a live transaction is
    /// told, and of a doomed one not.
    ///
    /// ```
    /// use naszeptan::{Answer, Event, Machine};
    ///
    /// let (mut machine, mut memory) = (Machine::fresh(), [0; 16]);
    /// let mut step = |thread, event| {
    ///     let done = machine.step_with_failed(&mut memory, thread, event);
    ///     (done.answer, done.failed.to_string())
    /// };
    /// step(0, Event::Tbegin { r: false });
    /// step(0, Event::Ld { rt: 4, index: 0 });
    /// step(0, Event::Tsr { l: false }); // tsuspend
    /// // The answer is that of thread 1, and says nothing of thread 0.
    /// let (answer, failed) = step(1, Event::Std { ra: 5, index: 0 });
    /// assert_eq!((answer, failed.as_str()), (Answer::Done, "thread 0"));
    /// let (answer, failed) = step(0, Event::Tsr { l: true }); // tresume
    /// assert_eq!((answer, failed.as_str()), (Answer::Handled, "thread 0"));
    /// let (answer, failed) = step(0, Event::Trechkpt);
    /// assert_eq!((answer, failed.as_str()), (Answer::Privileged, "none"));
    /// ```
    #[must_use = "the event may have been refused"]
    pub fn step_with_failed(&mut self, memory: &mut [u64], thread: u8, event: Event) -> Done {
        let done = raw::step((&*self).into(), memory, event.to_raw(thread));
        let answer = Answer::promised(done.answer);
        if answer.is_done() {
            *self = Machine::promised(&done.machine);
        }
        Done {
            answer,
            failed: ThreadSet::of(done.failed),
        }
    }

    /// Runs a tape, if every record of it is one. Else nothing is run, and
    /// [`Ended::bad_record`] tells the first that is none. The events are done
    /// one after another until one is refused or the tape ends; the machine is
    /// then the one after exactly the records that were done.
    ///
    /// ```
    /// use naszeptan::{Answer, Event, Machine, Tape};
    ///
    /// let mut tape = Tape::new();
    /// tape.push(0, Event::Addi { rt: 3, ra: 0, si: 7 })
    ///     .push(0, Event::Std { ra: 3, index: 99 });
    /// let mut machine = Machine::fresh();
    /// let mut memory = [0; 64];
    /// let ended = machine.run(&mut memory, &tape);
    /// assert_eq!(ended.answer, Answer::Operand); // there is no doubleword 99
    /// assert_eq!(ended.count, 1);
    /// assert_eq!(ended.to_string(), "record 1: 4, an operand is out of range");
    /// assert_eq!(machine.threads[0].live.gpr[3], 7);
    ///
    /// // With a byte that is wrong in the second record, nothing is run.
    /// let mut bytes = tape.into_bytes();
    /// bytes[16] = 0;
    /// let mut machine = Machine::fresh();
    /// let ended = machine.run(&mut memory, &bytes);
    /// assert_eq!(ended.bad_record(), Some((1, Answer::BadFirstByte)));
    /// assert_eq!(ended.count, 0);
    /// assert_eq!(machine, Machine::fresh());
    /// ```
    #[must_use = "a record may have been refused"]
    pub fn run(&mut self, memory: &mut [u64], tape: impl AsRef<[u8]>) -> Ended {
        let ended = raw::run((&*self).into(), memory, tape.as_ref());
        if ended.count > 0 {
            *self = Machine::promised(&ended.machine);
        }
        Ended {
            answer: Answer::promised(ended.answer),
            count: ended.count,
            index: ended.index,
        }
    }

    /// The machine that the archive gave back after doing something.
    pub(crate) fn promised(from: &raw::Machine) -> Machine {
        Machine::try_from(from).expect("proved: an event that is done leaves a valid machine")
    }
}

impl Default for Machine {
    /// The fresh machine.
    fn default() -> Machine {
        Machine::fresh()
    }
}

impl Thread {
    /// CR field `n`, 0 to 7.
    ///
    /// # Panics
    ///
    /// If `n` is above 7.
    pub fn cr(&self, n: usize) -> u8 {
        match n {
            0 => self.cr0,
            _ => self.live.cr[n - 1],
        }
    }
}

impl fmt::Display for State {
    fn fmt(&self, f: &mut fmt::Formatter<'_>) -> fmt::Result {
        f.pad(match self {
            State::N => "N",
            State::T => "T",
            State::S => "S",
        })
    }
}

impl TryFrom<u8> for State {
    type Error = Answer;

    /// The state of this number in the C header; [`Answer::NoMachine`] if
    /// there is none.
    fn try_from(number: u8) -> Result<State, Answer> {
        match number {
            0 => Ok(State::N),
            1 => Ok(State::T),
            2 => Ok(State::S),
            _ => Err(Answer::NoMachine),
        }
    }
}

/// A byte as one bit of a machine.
fn bit(byte: u8) -> Result<bool, Answer> {
    match byte {
        0 => Ok(false),
        1 => Ok(true),
        _ => Err(Answer::NoMachine),
    }
}

impl From<&Control> for raw::Control {
    fn from(from: &Control) -> raw::Control {
        raw::Control {
            nia: from.nia,
            pr: u8::from(from.pr),
            tm: u8::from(from.tm),
            state: from.state as u8,
            doomed: u8::from(from.doomed),
            tfhar: from.tfhar,
            tfiar: from.tfiar,
            texasr: from.texasr.0,
            srr0: from.srr0,
            srr1: from.srr1,
        }
    }
}

impl TryFrom<&raw::Control> for Control {
    type Error = Answer;

    fn try_from(from: &raw::Control) -> Result<Control, Answer> {
        Ok(Control {
            nia: from.nia,
            pr: bit(from.pr)?,
            tm: bit(from.tm)?,
            state: State::try_from(from.state)?,
            doomed: bit(from.doomed)?,
            tfhar: from.tfhar,
            tfiar: from.tfiar,
            texasr: Texasr(from.texasr),
            srr0: from.srr0,
            srr1: from.srr1,
        })
    }
}

impl From<&Thread> for raw::Thread {
    fn from(from: &Thread) -> raw::Thread {
        raw::Thread {
            live: from.live,
            cr0: from.cr0,
            checkpoint: from.checkpoint,
            control: (&from.control).into(),
            transaction: from.transaction,
        }
    }
}

impl TryFrom<&raw::Thread> for Thread {
    type Error = Answer;

    fn try_from(from: &raw::Thread) -> Result<Thread, Answer> {
        Ok(Thread {
            live: from.live,
            cr0: from.cr0,
            checkpoint: from.checkpoint,
            control: Control::try_from(&from.control)?,
            transaction: from.transaction,
        })
    }
}

impl From<&Machine> for raw::Machine {
    fn from(from: &Machine) -> raw::Machine {
        raw::Machine {
            count: from.count,
            threads: from.threads.each_ref().map(raw::Thread::from),
        }
    }
}

impl TryFrom<&raw::Machine> for Machine {
    type Error = Answer;

    /// [`Answer::NoMachine`] where a state or a bit is out of range. The
    /// machine need not be valid; ask [`Machine::valid`].
    fn try_from(from: &raw::Machine) -> Result<Machine, Answer> {
        let mut threads: [Thread; THREADS] = Default::default();
        for (to, from) in threads.iter_mut().zip(&from.threads) {
            *to = Thread::try_from(from)?;
        }
        Ok(Machine {
            count: from.count,
            threads,
        })
    }
}
