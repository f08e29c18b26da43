//! The C header `naszeptan.h` in Rust: the same structs, bit for bit, and the
//! same functions.
//!
//! The functions are safe. The proved code takes any bits: what is no
//! machine, no event or no record is refused by a number, and then nothing is
//! changed. Use this module to hand in such bits, or to keep a machine in the
//! archive's own form between calls; for everything else the typed layer of
//! the [crate root](crate) is shorter.
//!
//! ```
//! use naszeptan::raw;
//!
//! let mut machine = raw::fresh();
//! machine.threads[2].control.state = 7; // no state at all
//! assert_eq!(raw::valid(machine, raw::MEMORY), 2);
//!
//! let mut memory = [5; 16];
//! let begin = raw::Event { kind: 1, ..raw::Event::default() };
//! let done = raw::step(machine, &mut memory, begin);
//! assert_eq!(done.answer, 2);
//! assert_eq!(done.machine, machine);
//! assert_eq!(memory, [5; 16]);
//! ```

use crate::sys;

/// Thread records of a machine.
pub const THREADS: usize = 4;
/// General registers of a thread.
pub const GPRS: usize = 32;
/// CR fields 1 to 7; CR0 stands apart.
pub const CR_FIELDS: usize = 7;
/// Words of a line set: 256 lines.
pub const LINE_WORDS: usize = 4;
/// Doublewords of a line.
pub const LINE: usize = 16;
/// Lines of a page.
pub const PAGE: usize = 32;
/// Doublewords of the largest memory.
pub const MEMORY: usize = 4096;
/// Places of a transaction's log.
pub const PLACES: usize = 64;
/// The marks of a log place all of whose eight bytes were stored.
pub const ALL_MARKS: u8 = 0xFF;
/// The highest level of a transaction, and the most that TEXASR's TL holds.
pub const LEVELS: u16 = 4095;
/// Bytes of a tape record.
pub const RECORD_SIZE: usize = 16;
/// The first byte of each record.
pub const FIRST_BYTE: u8 = 0xE3;
/// The most bytes of an unfinished record, which a session holds.
pub const HELD: usize = 15;

/// SRR0's number for mtspr and mfspr.
pub const SPR_SRR0: u8 = 26;
/// SRR1's.
pub const SPR_SRR1: u8 = 27;
/// TFHAR's.
pub const SPR_TFHAR: u8 = 128;
/// TFIAR's.
pub const SPR_TFIAR: u8 = 129;
/// TEXASR's.
pub const SPR_TEXASR: u8 = 130;
/// That of TEXASR's upper half.
pub const SPR_TEXASRU: u8 = 131;

/// The version of the rules that this crate was written for: the model's
/// version in the upper 16 bits, the change requests that have landed in the
/// lower. [`version`] gives the archive's.
pub const VERSION: u32 = 0x0004_000A;

/// The registers that a checkpoint keeps.
#[repr(C)]
#[derive(Clone, Copy, Debug, Default, PartialEq, Eq, Hash)]
pub struct Registers {
    /// General registers 0 to 31.
    pub gpr: [u64; GPRS],
    /// `cr[n - 1]` is CR field n, 1 to 7.
    pub cr: [u8; CR_FIELDS],
}

/// A set of lines.
///
/// ```
/// use naszeptan::LineSet;
///
/// let mut lines: LineSet = [3, 200].into_iter().collect();
/// assert!(lines.contains(200));
/// lines.remove(3);
/// assert_eq!(lines.iter().collect::<Vec<_>>(), [200]);
/// assert_eq!(format!("{lines:?}"), "{200}");
/// ```
#[repr(C)]
#[derive(Clone, Copy, Default, PartialEq, Eq, Hash)]
pub struct Lines {
    /// The 256 bits: line l is bit l % 64 of `words[l / 64]`, bit 0 the
    /// lowest.
    pub words: [u64; LINE_WORDS],
}

/// A place of the log: a doubleword that was stored to, and which of its bytes.
///
/// ```
/// use naszeptan::{Entry, ALL_MARKS};
///
/// let word = Entry { index: 2, marks: 0x0F, value: 7 };
/// assert!(word.is_stored(4) && !word.is_stored(3));
/// assert_eq!(word.over(0xAAAA_AAAA_BBBB_BBBB), 0xAAAA_AAAA_0000_0007);
/// let whole = Entry { marks: ALL_MARKS, ..word };
/// assert_eq!(whole.over(0xAAAA_AAAA_BBBB_BBBB), 7);
/// ```
#[repr(C)]
#[derive(Clone, Copy, Debug, Default, PartialEq, Eq, Hash)]
pub struct Entry {
    /// The doubleword's index in memory.
    pub index: u32,
    /// Which of its eight bytes were stored: `0x80 >> k` is the mark of byte k,
    /// of which 0 is the highest. A used place has some mark.
    pub marks: u8,
    /// The stored bytes, where they stand in the doubleword; the others are 0. A
    /// commit puts the stored ones into memory.
    pub value: u64,
}

/// What a transaction has read and written.
///
/// ```
/// use naszeptan::{Answer, Event, Machine};
///
/// let mut machine = Machine::fresh();
/// let mut memory = vec![0; 4096];
/// assert_eq!(machine.step(&mut memory, 0, Event::Tbegin { r: false }), Answer::Done);
/// assert_eq!(machine.step(&mut memory, 0, Event::Ld { rt: 3, index: 16 }), Answer::Done);
/// assert_eq!(machine.step(&mut memory, 0, Event::Std { ra: 4, index: 33 }), Answer::Done);
///
/// let transaction = &machine.threads[0].transaction;
/// assert!(transaction.reads.contains(1));
/// assert!(transaction.writes.contains(2));
/// assert_eq!(transaction.footprint(), 2);
/// assert_eq!(transaction.entries().len(), 1);
/// let place = transaction.logged(33).unwrap();
/// assert_eq!((place.marks, place.value), (0xFF, 0));
/// assert_eq!(transaction.logged(34), None);
/// ```
#[repr(C)]
#[derive(Clone, Copy, PartialEq, Eq, Hash)]
pub struct Transaction {
    /// The read set.
    pub reads: Lines,
    /// The write set.
    pub writes: Lines,
    /// How many places of the log are used.
    pub count: usize,
    /// The log, in order of first store. Places past `count` are 0.
    pub log: [Entry; PLACES],
}

/// The rest of a thread's record beside its registers and transaction.
#[repr(C)]
#[derive(Clone, Copy, Debug, Default, PartialEq, Eq, Hash)]
pub struct Control {
    /// Next instruction address.
    pub nia: u64,
    /// 1 = problem state; other than 0 and 1 is no machine.
    pub pr: u8,
    /// 1 = facility on; other than 0 and 1 is no machine.
    pub tm: u8,
    /// 0 = N, 1 = T, 2 = S; anything else is no machine.
    pub state: u8,
    /// TDOOMED; other than 0 and 1 is no machine.
    pub doomed: u8,
    /// Where handling goes on.
    pub tfhar: u64,
    /// Where the failure was.
    pub tfiar: u64,
    /// TEXASR, its bit 0 the highest of the 64.
    pub texasr: u64,
    /// SRR0: where an interrupt came, and where rfid goes on.
    pub srr0: u64,
    /// SRR1: TS, TM and PR as an interrupt met them, and as rfid asks for them
    /// (docs/RULES.md, M15).
    pub srr1: u64,
}

/// One thread's record.
#[repr(C)]
#[derive(Clone, Copy, Debug, Default, PartialEq, Eq, Hash)]
pub struct Thread {
    /// The live registers, but for CR0.
    pub live: Registers,
    /// CR field 0.
    pub cr0: u8,
    /// The checkpoint, which has no CR0.
    pub checkpoint: Registers,
    /// NIA, PR, TM, state, TDOOMED and the five special registers.
    pub control: Control,
    /// Read set, write set and log.
    pub transaction: Transaction,
}

/// A machine: the first `count` of the records are its threads.
#[repr(C)]
#[derive(Clone, Copy, Debug, Default, PartialEq, Eq, Hash)]
pub struct Machine {
    /// How many threads there are, 1 to 4.
    pub count: usize,
    /// The records; those past `count` are 0.
    pub threads: [Thread; THREADS],
}

/// One event and the thread that executes it. `kind`, 1 to 26, says what the
/// other fields mean; a field that its kind does not use must be 0.
#[repr(C)]
#[derive(Clone, Copy, Debug, Default, PartialEq, Eq, Hash)]
pub struct Event {
    /// The number of the event's kind.
    pub kind: u8,
    /// The thread.
    pub thread: u8,
    /// SPR, BF or TO, else RT.
    pub x: u8,
    /// RA; for mfspr, RT.
    pub ra: u8,
    /// RB.
    pub rb: u8,
    /// R, A or L; for kind 17, PR + 2 * TM; for kind 19, TS + 4 * TM + 8 * PR.
    pub flags: u8,
    /// The doubleword of a load or store; for kinds 20 to 25, the byte address;
    /// for kind 26, the page.
    pub index: u32,
    /// SI, as its 16 bits.
    pub si: u16,
}

/// A step's answer, which threads failed in its event, and the machine after
/// it.
#[repr(C)]
#[derive(Clone, Copy, Debug, PartialEq, Eq)]
pub struct Done {
    /// The number given back.
    pub answer: u8,
    /// Bit v, counted from the lowest, stands for thread v (docs/RULES.md,
    /// H8). It is 1 for the event's own thread where the answer is 20, and for
    /// each thread that had a live transaction before the event and has none
    /// after it, unless the event is that thread's own tend., which commits.
    /// All other bits are 0, and so is the byte of a refused event.
    pub failed: u8,
    /// The machine handed in, if the event was refused.
    pub machine: Machine,
}

/// How a run ended.
#[repr(C)]
#[derive(Clone, Copy, Debug, PartialEq, Eq)]
pub struct Ended {
    /// The answer that ended the run; 0 at the tape's end.
    pub answer: u8,
    /// How many records were done.
    pub count: usize,
    /// The record that the answer is about: the first bad one for 7, 8 and 9,
    /// the number of whole records for 6, and 0 for 1 and 2. Nothing was run
    /// then. Else, and of a session that was not refused, it is `count`.
    pub index: usize,
    /// The machine after exactly the records done.
    pub machine: Machine,
}

/// A reader's answer: 0 and the event, or 6 to 9 and an event of zeros.
#[repr(C)]
#[derive(Clone, Copy, Debug, PartialEq, Eq)]
pub struct Record {
    /// The number given back.
    pub answer: u8,
    /// The event, if the answer is 0.
    pub event: Event,
}

/// What a converter gives.
#[repr(C)]
#[derive(Clone, Copy, Debug, PartialEq, Eq)]
pub struct Converted {
    /// The number given back.
    pub answer: u8,
    /// Where the answer is 0, how many records were converted; with 6, how
    /// many whole records there are; with 10, 0. With any other, the index of
    /// the record that was refused.
    pub index: usize,
}

/// A tape in pieces, as the caller keeps it between them (docs/RULES.md, Q1 and
/// Q2). [`open`] makes one, [`feed`] gives the next.
#[repr(C)]
#[derive(Clone, Copy, Debug, Default, PartialEq, Eq, Hash)]
pub struct Session {
    /// The machine after exactly the records done.
    pub machine: Machine,
    /// How many records were done, modulo 2^64.
    pub count: u64,
    /// How many bytes of an unfinished record are held, 0 to 15.
    pub held: usize,
    /// 0 while the session goes on, else the number that stopped it.
    pub answer: u8,
    /// The held bytes, then zeros.
    pub bytes: [u8; HELD],
}

/// What feeding a piece gives.
#[repr(C)]
#[derive(Clone, Copy, Debug, PartialEq, Eq)]
pub struct Fed {
    /// The session's answer, or 1 or 2 where what was handed in is no session.
    pub answer: u8,
    /// How many records the piece finished, the one that stopped it among them.
    pub finished: usize,
    /// The next session; the one handed in where that was refused or had
    /// stopped.
    pub session: Session,
}

/// What is known of a POWER processor (docs/RULES.md, B4).
#[repr(C)]
#[derive(Clone, Copy, Debug, PartialEq, Eq, Hash)]
pub struct Profile {
    /// The highest level: 15, 31, 63 and so on to 4095.
    pub highest: u64,
    /// HV, 0 or 1.
    pub hv: u8,
    /// 0 or 1: imprecise failures may be recorded late.
    pub late: u8,
    /// Bit 7 of a nesting overflow: 0, 1, or 2 for free.
    pub nesting: u8,
}

/// The registers that tell of a failure, as a handler reads them.
#[repr(C)]
#[derive(Clone, Copy, Debug, Default, PartialEq, Eq, Hash)]
pub struct Failure {
    /// TEXASR.
    pub texasr: u64,
    /// TFIAR.
    pub tfiar: u64,
    /// TFHAR.
    pub tfhar: u64,
    /// CR field 0.
    pub cr0: u8,
}

/// What hardware shows for a TEXASR of the model.
#[repr(C)]
#[derive(Clone, Copy, Debug, PartialEq, Eq, Hash)]
pub struct Shown {
    /// 0; or 4 with zeros: no profile, or FS = 1 without exactly one cause.
    pub answer: u8,
    /// The value.
    pub value: u64,
    /// The bits of it that the Power ISA fixes; the others are free.
    pub care: u64,
}

/// A verdict on registers that were read on hardware.
#[repr(C)]
#[derive(Clone, Copy, Debug, PartialEq, Eq, Hash)]
pub struct Compared {
    /// 0; or 4 with zeros, as for [`Shown`].
    pub answer: u8,
    /// 0 equal, 1 allowed, 2 contradicts.
    pub verdict: u8,
    /// The bits of CR0 that decide it.
    pub cr0: u8,
    /// The bits of TEXASR that decide it.
    pub texasr: u64,
    /// The bits of TFIAR that decide it.
    pub tfiar: u64,
    /// The bits of TFHAR that decide it.
    pub tfhar: u64,
}

/// The version of the rules that the archive keeps; compare it with
/// [`VERSION`].
pub fn version() -> u32 {
    sys::version()
}

/// The fresh machine: four threads, Non-transactional, PR = 1, TM = 1, all
/// else 0. Its memory, 4,096 doublewords of 0, is the caller's to lend.
pub fn fresh() -> Machine {
    sys::fresh()
}

/// Whether these bits are a machine over a memory of `len` doublewords: 0, or
/// 1 (memory length or thread count), or 2 (not a valid machine).
pub fn valid(machine: Machine, len: usize) -> u8 {
    sys::valid(machine, len)
}

/// One event. Refused by 1, 2, 8, 9, 3, 4, 5, 11, 12, 13: the first that
/// applies in this order. What is given back also tells which threads failed.
pub fn step(machine: Machine, memory: &mut [u64], event: Event) -> Done {
    sys::step(machine, memory, event)
}

/// A tape. Refused as a whole, and nothing of it run, by 1, 2 and 6, also where
/// it is empty, and then by 7, 8 or 9 of the first record that one of these
/// applies to. Else its events are done, one after another, until one is
/// refused or the tape ends.
pub fn run(machine: Machine, memory: &mut [u64], tape: &[u8]) -> Ended {
    sys::run(machine, memory, tape)
}

/// A session on this machine over a memory of `len` doublewords: no byte held,
/// the count 0. Refused by 1 and 2: then its answer is that number, and it is
/// no session.
pub fn open(machine: Machine, len: usize) -> Session {
    sys::open(machine, len)
}

/// The next piece, cut at any byte. Each record that it finishes is read and
/// done before the next is looked at; its answer goes to the buffer, the first
/// one's to place 0, as far as there are places. What remains of it is held.
/// The first record that is none, and the first event that is refused, stops
/// the session, and what was done before stays.
///
/// Refused by 1 and 2. Then nothing changes, as nothing does where the session
/// has stopped before.
///
/// ```
/// use naszeptan::raw;
///
/// let (mut memory, mut answers) = ([0; 16], [9; 4]);
/// let mut tape = [0; 17];
/// tape[..2].copy_from_slice(&[0xE3, 0x0F]); // and 14 zeros: a disallowed instruction
/// let session = raw::open(raw::fresh(), memory.len());
/// let fed = raw::feed(session, &mut memory, &tape, &mut answers);
/// assert_eq!((fed.answer, fed.finished, answers), (0, 1, [0, 9, 9, 9]));
/// assert_eq!((fed.session.count, fed.session.held), (1, 1));
///
/// // A byte that is held is not looked at. At the close it is one too many.
/// assert_eq!(raw::close(fed.session, memory.len()).answer, 6);
///
/// // Bits that are no session.
/// let wrong = raw::Session { held: 16, ..fed.session };
/// let refused = raw::feed(wrong, &mut memory, &tape, &mut answers);
/// assert_eq!((refused.answer, refused.finished, refused.session), (2, 0, wrong));
/// ```
pub fn feed(session: Session, memory: &mut [u64], piece: &[u8], answers: &mut [u8]) -> Fed {
    sys::feed(session, memory, piece, answers)
}

/// How the session ends where no piece follows: its answer if it has stopped,
/// else 6 if bytes are held, else 0; the count, as `index` too; and the machine.
/// Refused by 1 and 2, with count and index 0.
pub fn close(session: Session, len: usize) -> Ended {
    sys::close(session, len)
}

/// One record of 16 bytes as an event. Refused by 6, 7, 8, 9 in this order.
pub fn read(record: &[u8]) -> Record {
    sys::read(record)
}

/// One event as a record, in the buffer's first 16 bytes. Refused by 8, 9, 10
/// in this order.
pub fn write(event: Event, buffer: &mut [u8]) -> u8 {
    sys::write(event, buffer)
}

/// One record of edition two as an event. Refused by 6, 7, 8, 9 in this order;
/// 7 is a first byte, the thread, above 3.
pub fn read_two(record: &[u8]) -> Record {
    sys::read_two(record)
}

/// One event as a record of edition two, in the buffer's first 16 bytes.
/// Refused by 8 and 9 (no event), 3 (a thread above 3), 8 (a kind above 17) and
/// 10 in this order.
pub fn write_two(event: Event, buffer: &mut [u8]) -> u8 {
    sys::write_two(event, buffer)
}

/// A tape of edition two as one of edition three, in the buffer's first bytes,
/// as many as the tape has. Refused by 6, 10, and by the number of the first
/// record that is refused; then the buffer keeps all its bytes.
pub fn two_to_three(tape: &[u8], buffer: &mut [u8]) -> Converted {
    sys::two_to_three(tape, buffer)
}

/// A tape of edition three as one of edition two: [`two_to_three`] the other
/// way.
pub fn three_to_two(tape: &[u8], buffer: &mut [u8]) -> Converted {
    sys::three_to_two(tape, buffer)
}

/// What hardware shows for a TEXASR of the model, and the bits of it that are
/// fixed. Refused by 4.
pub fn on_hardware(profile: Profile, texasr: u64) -> Shown {
    sys::on_hardware(profile, texasr)
}

/// The registers read on hardware against the model's. Refused by 4.
pub fn compare(profile: Profile, model: Failure, hardware: Failure) -> Compared {
    sys::compare(profile, model, hardware)
}
