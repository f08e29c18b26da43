//! The bench values of docs/RULES.md, K1 to K10 and K14 to K36, through the
//! archive.

use naszeptan::{Answer, Entry, Event, Machine, State, Ts, LEVELS, LINE, MEMORY};

const BEGIN: Event = Event::Tbegin { r: false };
const ADDI: Event = Event::Addi {
    rt: 9,
    ra: 0,
    si: 0,
};

/// A fresh machine with its memory, and steps of which the answer is told.
struct Desk {
    machine: Machine,
    memory: Vec<u64>,
}

impl Desk {
    fn new() -> Desk {
        let mut machine = Machine::fresh();
        machine.threads[0].control.nia = 0x1000;
        Desk {
            machine,
            memory: vec![0; MEMORY],
        }
    }

    fn privileged() -> Desk {
        let mut desk = Desk::new();
        desk.machine.threads[0].control.pr = false;
        desk
    }

    fn step(&mut self, thread: u8, event: Event, answer: Answer) {
        let given = self.machine.step(&mut self.memory, thread, event);
        assert_eq!(given, answer, "{event}");
    }

    fn texasr(&self) -> u64 {
        self.machine.threads[0].control.texasr.0
    }
}

#[test]
fn k1_abort() {
    let mut desk = Desk::new();
    desk.step(0, BEGIN, Answer::Done);
    desk.step(0, ADDI, Answer::Done);
    desk.step(0, Event::Tabort { ra: 0 }, Answer::Handled);
    let thread = &desk.machine.threads[0];
    assert_eq!(thread.control.texasr.0, 0x0000_0001_1C00_0001);
    assert_eq!(thread.control.tfiar, 0x1009);
    assert_eq!(thread.control.tfhar, 0x1004);
    assert_eq!(thread.cr0, 0b1010);
    assert_eq!(thread.control.nia, 0x1004);
}

#[test]
fn k2_abort_with_code() {
    let mut desk = Desk::new();
    desk.machine.threads[0].live.gpr[3] = 0x1A5;
    desk.step(0, BEGIN, Answer::Done);
    desk.step(0, ADDI, Answer::Done);
    desk.step(0, Event::Tabort { ra: 3 }, Answer::Handled);
    assert_eq!(desk.texasr(), 0xA500_0001_1C00_0001);
}

#[test]
fn k3_disallowed() {
    let mut desk = Desk::privileged();
    desk.step(0, BEGIN, Answer::Done);
    desk.step(0, BEGIN, Answer::Done);
    desk.step(0, Event::Disallowed, Answer::Handled);
    assert_eq!(desk.texasr(), 0x0080_0000_0C00_0002);
}

#[test]
fn k4_conflict() {
    let mut desk = Desk::new();
    desk.step(0, BEGIN, Answer::Done);
    desk.step(0, Event::Ld { rt: 3, index: 5 }, Answer::Done);
    desk.step(1, Event::Std { ra: 0, index: 6 }, Answer::Done);
    assert_eq!(desk.texasr(), 0x0008_0000_1800_0001);
    assert_eq!(desk.machine.threads[0].control.state, State::N);
}

#[test]
fn k5_own_store_in_suspended_state() {
    let mut desk = Desk::new();
    desk.step(0, BEGIN, Answer::Done);
    desk.step(0, Event::Ld { rt: 3, index: 5 }, Answer::Done);
    desk.step(0, Event::Tsr { l: false }, Answer::Done);
    desk.machine.threads[0].live.gpr[4] = 77;
    desk.step(0, Event::Std { ra: 4, index: 5 }, Answer::Recorded);
    assert_eq!(desk.texasr(), 0x0010_0000_9C00_0001);
    assert_eq!(desk.memory[5], 77);
    desk.step(0, Event::Tsr { l: true }, Answer::Handled);
}

#[test]
fn k6_footprint() {
    let mut desk = Desk::privileged();
    let load = |line: usize| Event::Ld {
        rt: 3,
        index: (line * LINE) as u32,
    };
    desk.step(0, BEGIN, Answer::Done);
    for line in 0..32 {
        desk.step(0, load(line), Answer::Done);
    }
    assert_eq!(desk.machine.threads[0].transaction.footprint(), 32);
    desk.step(0, load(32), Answer::Handled);
    assert_eq!(desk.texasr(), 0x0020_0000_0C00_0001);
}

#[test]
fn k7_nesting() {
    let mut desk = Desk::new();
    desk.step(0, BEGIN, Answer::Done);
    desk.machine.threads[0].control.texasr.0 = u64::from(LEVELS - 1);
    desk.step(0, BEGIN, Answer::Done);
    assert_eq!(desk.texasr(), 0xFFF);
    desk.step(0, BEGIN, Answer::Handled);
    assert_eq!(desk.texasr(), 0x0040_0000_1C00_0FFF);
}

#[test]
fn k8_rollback_only() {
    let mut desk = Desk::new();
    desk.step(0, Event::Tbegin { r: true }, Answer::Done);
    assert_eq!(desk.texasr(), 0x0200_0001);
}

#[test]
fn k9_last_address() {
    let mut desk = Desk::new();
    desk.machine.threads[0].control.nia = 0xFFFF_FFFF_FFFF_FFFC;
    desk.machine.threads[0].control.tfhar = 0x2000;
    desk.step(0, BEGIN, Answer::Done);
    assert_eq!(desk.machine.threads[0].control.tfhar, 0);
    assert_eq!(desk.machine.threads[0].control.nia, 0);
}

#[test]
fn k10_word_and_doubleword() {
    let (to, ra, rb) = (16, 3, 4);
    let mut desk = Desk::new();
    desk.machine.threads[0].live.gpr[3] = 0xFFFF_FFFF;
    desk.step(0, BEGIN, Answer::Done);
    desk.step(0, Event::Tabortdc { to, ra, rb }, Answer::Done);
    desk.step(0, Event::Tabortwc { to, ra, rb }, Answer::Handled);
}

impl Desk {
    /// tbegin. at 0x1000, the events, and an interrupt.
    fn interrupted(events: &[Event]) -> Desk {
        let mut desk = Desk::new();
        desk.step(0, BEGIN, Answer::Done);
        for &event in events {
            desk.step(0, event, Answer::Done);
        }
        desk.step(0, Event::Interrupt, Answer::Done);
        desk
    }

    /// Thread 0's state, PR, TM and NIA.
    fn at(&self) -> (State, bool, bool, u64) {
        let control = &self.machine.threads[0].control;
        (control.state, control.pr, control.tm, control.nia)
    }
}

/// By the flags of its record.
fn mtmsrd(flags: u8) -> Event {
    Event::Mtmsrd {
        ts: Ts::of(flags),
        tm: flags & 4 != 0,
        pr: flags & 8 != 0,
    }
}

#[test]
fn k14_an_interrupt_and_back() {
    let mut desk = Desk::interrupted(&[]);
    let control = &desk.machine.threads[0].control;
    assert_eq!(
        (control.srr0, control.srr1),
        (0x1004, 0x0000_0005_0000_4000)
    );
    assert_eq!(desk.at(), (State::S, false, false, 0x500));
    desk.step(0, Event::Rfid, Answer::Done);
    assert_eq!(desk.at(), (State::T, true, true, 0x1004));
    assert_eq!(desk.machine.threads[0].cr0, 0b0000);
}

#[test]
fn k15_doomed_meanwhile() {
    let mut desk = Desk::interrupted(&[Event::Ld { rt: 3, index: 17 }]);
    desk.step(1, Event::Std { ra: 0, index: 17 }, Answer::Done);
    assert_eq!(desk.texasr(), 0x0008_0000_8800_0001);
    assert_eq!(desk.machine.threads[0].control.tfiar, 0x500);
    desk.step(0, Event::Rfid, Answer::Handled);
    assert_eq!(desk.at(), (State::N, true, true, 0x1004));
    assert_eq!(desk.machine.threads[0].control.tfhar, 0x1004);
    assert_eq!(desk.machine.threads[0].cr0, 0b1010);
}

#[test]
fn k16_in_t() {
    for event in [Event::Rfid].into_iter().chain((0..16).map(mtmsrd)) {
        let mut desk = Desk::privileged();
        desk.step(0, BEGIN, Answer::Done);
        desk.step(0, event, Answer::Handled);
        assert_eq!(desk.texasr(), 0x0080_0000_0C00_0001);
    }
}

#[test]
fn k17_what_is_saved() {
    let mut desk = Desk::new();
    desk.step(0, BEGIN, Answer::Done);
    desk.step(0, Event::Tsr { l: false }, Answer::Done);
    desk.step(0, Event::Interrupt, Answer::Done);
    assert_eq!(desk.machine.threads[0].control.srr1, 0x0000_0003_0000_4000);
    let mut desk = Desk::privileged();
    desk.machine.threads[0].control.tm = false;
    desk.machine.threads[0].control.srr1 = u64::MAX;
    desk.step(0, Event::Interrupt, Answer::Done);
    assert_eq!(desk.machine.threads[0].control.srr1, 0);
}

#[test]
fn k18_s_is_asked_for_n() {
    for (tm, answer, pr) in [(false, Answer::Done, true), (true, Answer::BadThing, false)] {
        let mut desk = Desk::privileged();
        desk.step(0, BEGIN, Answer::Done);
        desk.step(0, Event::Tsr { l: false }, Answer::Done);
        desk.machine.threads[0].control.tm = tm;
        desk.step(0, mtmsrd(8), answer);
        let (state, is_pr, is_tm, _) = desk.at();
        assert_eq!((state, is_pr, is_tm), (State::S, pr, tm));
    }
}

const fn ld(index: u32) -> Event {
    Event::Ld { rt: 4, index }
}

const fn tlbie(page: u32) -> Event {
    Event::Tlbie { page }
}

impl Desk {
    /// The fresh machine, on which one thread is privileged and thread 0 then
    /// does these.
    fn with_pages(privileged: u8, events: &[Event]) -> Desk {
        let (machine, memory) = (Machine::fresh(), vec![0; MEMORY]);
        let mut desk = Desk { machine, memory };
        let (pr, tm) = (false, true);
        desk.step(privileged, Event::Host { pr, tm }, Answer::Done);
        for &event in events {
            desk.step(0, event, Answer::Done);
        }
        desk
    }
}

#[test]
fn k19_and_k20_ones_own_page_and_another() {
    let suspended = || Desk::with_pages(0, &[BEGIN, ld(17), Event::Tsr { l: false }]);
    let mut desk = suspended();
    desk.step(0, tlbie(0), Answer::Recorded);
    assert_eq!(desk.texasr(), 0x0002_0000_8800_0001);
    let thread = &desk.machine.threads[0];
    let control = &thread.control;
    assert_eq!((control.tfiar, control.doomed), (0x000C, true));
    assert_eq!((control.nia, thread.cr0), (0x0010, 0b0100));
    desk.step(0, Event::Tsr { l: true }, Answer::Handled);
    assert_eq!(desk.machine.threads[0].control.nia, 0x0004);

    let mut desk = suspended();
    desk.step(0, tlbie(1), Answer::Done);
    let control = &desk.machine.threads[0].control;
    assert_eq!((control.texasr.0, control.tfiar), (1, 0));
    assert_eq!((control.doomed, control.nia), (false, 0x0010));
    desk.step(0, Event::Tsr { l: true }, Answer::Done);
    assert_eq!(desk.machine.threads[0].control.state, State::T);
}

#[test]
fn k21_to_k24_another_thread_s_page() {
    let (rot, suspend) = (Event::Tbegin { r: true }, Event::Tsr { l: false });
    let std = Event::Std { ra: 4, index: 17 };
    for (events, page, texasr, state) in [
        (&[BEGIN, ld(17)][..], 0, 0x0002_0000_1800_0001, State::N),
        (
            &[BEGIN, ld(17), suspend],
            0,
            0x0002_0000_9800_0001,
            State::S,
        ),
        (&[rot, ld(17)], 0, 0x0200_0001, State::T),
        (&[rot, std], 0, 0x0002_0000_1A00_0001, State::N),
        (&[BEGIN, ld(511)], 1, 0x0000_0001, State::T),
        (&[BEGIN, ld(512)], 1, 0x0002_0000_1800_0001, State::N),
    ] {
        let mut desk = Desk::with_pages(1, events);
        desk.step(1, tlbie(page), Answer::Done);
        assert_eq!(desk.texasr(), texasr, "{events:?}");
        assert_eq!(desk.machine.threads[0].control.state, state, "{events:?}");
    }
}

#[test]
fn k25_in_t() {
    let mut desk = Desk::with_pages(0, &[BEGIN]);
    desk.step(1, BEGIN, Answer::Done);
    desk.step(1, ld(17), Answer::Done);
    desk.step(0, tlbie(0), Answer::Handled);
    assert_eq!(desk.texasr(), 0x0080_0000_0C00_0001);
    assert_eq!(desk.machine.threads[1].control.state, State::T);
}

#[test]
fn k26_the_last_page() {
    for (len, last) in [(1040, 2), (1024, 1), (MEMORY, 7)] {
        let mut desk = Desk::with_pages(0, &[]);
        desk.memory.truncate(len);
        desk.step(0, tlbie(last), Answer::Done);
        desk.step(0, tlbie(last + 1), Answer::Operand);
    }
}

const END: Event = Event::Tend { a: false };
const fn lbz(rt: u8, address: u32) -> Event {
    Event::Lbz { rt, address }
}
const fn lhz(rt: u8, address: u32) -> Event {
    Event::Lhz { rt, address }
}
const fn lwz(rt: u8, address: u32) -> Event {
    Event::Lwz { rt, address }
}
const fn stb(ra: u8, address: u32) -> Event {
    Event::Stb { ra, address }
}
const fn sth(ra: u8, address: u32) -> Event {
    Event::Sth { ra, address }
}
const fn stw(ra: u8, address: u32) -> Event {
    Event::Stw { ra, address }
}

impl Desk {
    /// The fresh machine over this much memory, of zeros.
    fn over(len: usize) -> Desk {
        let (machine, memory) = (Machine::fresh(), vec![0; len]);
        Desk { machine, memory }
    }

    /// Thread 0's register, which starts with no byte at zero, after a load.
    fn loads(&mut self, event: Event, rt: usize) -> u64 {
        self.machine.threads[0].live.gpr[rt] = u64::MAX;
        self.step(0, event, Answer::Done);
        self.machine.threads[0].live.gpr[rt]
    }

    /// Thread 0 stores this value, of its register 3.
    fn stores(&mut self, value: u64, event: Event) {
        self.machine.threads[0].live.gpr[3] = value;
        self.step(0, event, Answer::Done);
    }

    fn log(&self) -> &[Entry] {
        self.machine.threads[0].transaction.entries()
    }
}

#[test]
fn k27_stores_of_bytes() {
    let (mut desk, value) = (Desk::over(MEMORY), 0x1122_3344_5566_7788);
    for (event, doubleword) in [
        (stb(3, 8), 0x8800_0000_0000_0000),
        (sth(3, 10), 0x8800_7788_0000_0000),
        (stw(3, 12), 0x8800_7788_5566_7788),
    ] {
        desk.stores(value, event);
        assert_eq!(desk.memory[..3], [0, doubleword, 0]);
    }
}

#[test]
fn k28_loads_of_bytes() {
    let mut desk = Desk::over(MEMORY);
    desk.memory[1] = 0x1122_3344_5566_7788;
    for (event, value) in [
        (lbz(4, 8), 0x11),
        (lbz(4, 15), 0x88),
        (lhz(4, 10), 0x3344),
        (lwz(4, 12), 0x5566_7788),
    ] {
        assert_eq!(desk.loads(event, 4), value, "{event}");
    }
    assert!(desk.machine.threads[0].transaction.reads.is_empty());
}

#[test]
fn k29_marks() {
    let mut desk = Desk::over(MEMORY);
    desk.step(0, BEGIN, Answer::Done);
    for (value, event, marks, logged) in [
        (1, stw(3, 4), 0x0F, 1),
        (2, stw(3, 0), 0xFF, 0x0000_0002_0000_0001),
    ] {
        desk.stores(value, event);
        let (index, value) = (0, logged);
        let place = Entry {
            index,
            marks,
            value,
        };
        assert_eq!(desk.log(), [place]);
        assert_eq!(desk.memory[0], 0);
    }
}

#[test]
fn k30_the_log_over_memory() {
    let mut desk = Desk::over(MEMORY);
    desk.memory[2] = 0x1111_1111_1111_1111;
    desk.step(0, BEGIN, Answer::Done);
    desk.stores(0xABCD, sth(3, 18));
    let seen = desk.loads(Event::Ld { rt: 4, index: 2 }, 4);
    assert_eq!(seen, 0x1111_ABCD_1111_1111);
    let transaction = &desk.machine.threads[0].transaction;
    assert_eq!(transaction.logged(2).unwrap().over(desk.memory[2]), seen);
    for set in [&transaction.reads, &transaction.writes] {
        assert_eq!(set.iter().collect::<Vec<_>>(), [0]);
    }
    assert_eq!(desk.loads(lbz(4, 18), 4), 0xAB);
    assert_eq!(desk.loads(lwz(4, 16), 4), 0x1111_ABCD);
    assert_eq!(desk.loads(lwz(4, 20), 4), 0x1111_1111);
}

#[test]
fn k31_a_commit_of_four_bytes() {
    let mut desk = Desk::over(MEMORY);
    desk.memory[0] = 0xAAAA_AAAA_0000_0000;
    desk.step(0, BEGIN, Answer::Done);
    desk.stores(7, stw(3, 4));
    desk.step(0, END, Answer::Done);
    assert_eq!(desk.memory[0], 0xAAAA_AAAA_0000_0007);
}

#[test]
fn k32_addresses() {
    let mut desk = Desk::over(LINE);
    for event in [
        lhz(4, 1),
        lwz(4, 2),
        stw(3, 6),
        lbz(4, 128),
        stw(3, 128),
        ld(16),
    ] {
        desk.step(0, event, Answer::Operand);
    }
    for event in [lbz(4, 127), stw(3, 124), lbz(4, 16)] {
        desk.step(0, event, Answer::Done);
    }
}

#[test]
fn k33_conflicts_go_by_the_line() {
    let mut desk = Desk::over(MEMORY);
    desk.step(0, BEGIN, Answer::Done);
    desk.step(0, lbz(4, 0), Answer::Done);
    desk.step(1, stb(3, 128), Answer::Done);
    assert_eq!(desk.machine.threads[0].control.state, State::T);
    desk.step(1, stb(3, 127), Answer::Done);
    assert_eq!(desk.texasr(), 0x0008_0000_1800_0001);
}

#[test]
fn k34_bytes_in_suspended_state() {
    let mut desk = Desk::over(MEMORY);
    desk.step(0, BEGIN, Answer::Done);
    desk.stores(0xFF, stb(3, 0));
    desk.step(0, Event::Tsr { l: false }, Answer::Done);
    assert_eq!(desk.loads(lbz(4, 0), 4), 0xFF);
    desk.step(0, stb(3, 9), Answer::Recorded);
    assert_eq!(desk.texasr(), 0x0010_0000_9C00_0001);
    assert_eq!(desk.memory[..2], [0, 0x00FF_0000_0000_0000]);
}

#[test]
fn k35_a_log_full_of_bytes() {
    let mut desk = Desk::over(MEMORY);
    desk.step(0, BEGIN, Answer::Done);
    for n in 0..64 {
        desk.stores(1, stb(3, 8 * n));
    }
    assert_eq!(desk.log().len(), 64);
    desk.stores(2, stb(3, 505));
    let last = desk.log().last().unwrap();
    assert_eq!(
        (desk.log().len(), last.index, last.marks, last.value),
        (64, 63, 0xC0, 0x0102_0000_0000_0000)
    );
    desk.step(0, stb(3, 512), Answer::Handled);
    assert_eq!(desk.texasr(), 0x0020_0000_1C00_0001);
}

#[test]
fn k36_a_lock_s_word_beside_a_counter() {
    for taken in [false, true] {
        let mut desk = Desk::over(MEMORY);
        desk.machine.threads[1].live.gpr[6] = 1;
        desk.step(0, BEGIN, Answer::Done);
        assert_eq!(desk.loads(lwz(4, 0), 4), 0);
        assert_eq!(desk.loads(lwz(5, 4), 5), 0);
        let (rt, ra, si) = (5, 5, 1);
        desk.step(0, Event::Addi { rt, ra, si }, Answer::Done);
        desk.step(0, stw(5, 4), Answer::Done);
        if taken {
            desk.step(1, stw(6, 0), Answer::Done);
            assert_eq!(desk.texasr(), 0x0008_0000_1800_0001);
            assert_eq!(desk.memory[0], 0x0000_0001_0000_0000);
        } else {
            desk.step(0, END, Answer::Done);
            assert_eq!(desk.memory[0], 0x0000_0000_0000_0001);
        }
    }
}
