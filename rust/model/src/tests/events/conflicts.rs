//! Rule A3: who fails whom.

use super::*;

/// Thread 0 makes an access to a line that thread 1 has.
struct Meeting {
    /// Thread 0 in N, T, S live, S doomed.
    accessor: u8,
    /// Thread 1 writes the line, or reads it.
    victim_writes: bool,
    /// Thread 1 in S, or in T.
    victim_suspended: bool,
    store: bool,
}

impl Meeting {
    /// One of the 32.
    fn number(n: u8) -> Meeting {
        Meeting {
            accessor: n >> 3,
            victim_writes: n & 4 != 0,
            victim_suspended: n & 2 != 0,
            store: n & 1 != 0,
        }
    }

    /// Thread 1 has its line; thread 0 has done nothing.
    fn victim(&self) -> Bench {
        let mut b = Bench::fresh();
        b.m.threads[1].pr = false;
        // The inner tbegin. turns ROT off, so that loads are tracked.
        b.done_by(1, TBEGIN_ROT).done_by(1, TBEGIN);
        let first = if self.victim_writes {
            std(1, 33)
        } else {
            ld(1, 33)
        };
        b.done_by(1, first);
        if self.victim_suspended {
            b.done_by(1, TSUSPEND);
        }
        b
    }

    /// Takes thread 0 to its state.
    fn ready_accessor(&self, b: &mut Bench) {
        if self.accessor > 0 {
            b.done(TBEGIN);
        }
        if self.accessor > 1 {
            b.done(TSUSPEND);
        }
        if self.accessor > 2 {
            b.gives(TABORT, 21);
        }
    }

    /// Thread 1 is to have failed; `nia` is where it was.
    fn has_failed(&self, t: &Thread, nia: u64) {
        let cause = if self.accessor == 1 {
            0x0004_0000_0000_0000
        } else {
            0x0008_0000_0000_0000
        };
        let s = if self.victim_suspended {
            texasr::SUSPENDED
        } else {
            0
        };
        assert_eq!(t.texasr, cause | s | texasr::FS | 2);
        assert_eq!(t.tfiar, nia);
        if self.victim_suspended {
            assert_eq!((t.state, t.doomed), (State::S, true));
            assert_eq!(t.nia, nia);
        } else {
            assert_eq!((t.state, t.doomed), (State::N, false));
            assert_eq!((t.nia, t.cr0), (4, 10));
        }
    }
}

#[test]
fn who_fails_whom() {
    for meeting in (0..32).map(Meeting::number) {
        let mut b = meeting.victim();
        let nia = b.thread(1).nia;
        meeting.ready_accessor(&mut b);
        let before = b.thread(1).clone();
        b.done(if meeting.store { std(2, 40) } else { ld(2, 40) });
        if meeting.store || meeting.victim_writes {
            meeting.has_failed(b.thread(1), nia);
        } else {
            assert_eq!(*b.thread(1), before);
        }
    }
}

#[test]
fn a_store_in_s_fails_itself_and_others() {
    // Threads 0 and 1 both read line 2; thread 0 stores to it in S.
    let mut b = Bench::fresh();
    b.done(TBEGIN).done_by(1, TBEGIN);
    b.done(ld(1, 32)).done_by(1, ld(1, 32));
    b.done(addi(7, 0, 70)).done(TSUSPEND).gives(std(7, 33), 21);
    assert_eq!(b.thread(0).texasr, 0x0010_0000_9C00_0001);
    assert_eq!(b.thread(1).texasr, 0x0008_0000_1800_0001);
    assert_eq!(b.mem[33], 70);
    // With FS = 1 the next one records nothing and gives 0.
    b.done(std(7, 34));
    assert_eq!(b.mem[34], 70);
}

#[test]
fn many_victims() {
    let mut b = Bench::fresh();
    for thread in 1..4 {
        b.done_by(thread, TBEGIN).done_by(thread, ld(1, 64));
    }
    b.done_by(3, TSUSPEND);
    b.done(TBEGIN).done(std(1, 70));
    for thread in 1..3 {
        assert_eq!(b.thread(thread).texasr, 0x0004_0000_1800_0001);
        assert_eq!(b.thread(thread).state, State::N);
    }
    assert_eq!(b.thread(3).texasr, 0x0004_0000_9800_0001);
    assert_eq!(b.thread(3).state, State::S);
    b.is(State::T);
}
