//! Numbers 4, 5 and 11 to 13: an event that is not to be done.

use super::*;

/// Each event that has a register, or a TO, with this number in one of them.
fn with_operand(n: u8) -> Vec<Event> {
    let one_of_three = [(0, n, 0), (0, 0, n), (n, 0, 0)];
    let words = one_of_three.map(|(to, ra, rb)| Event::Tabortwc { to, ra, rb });
    let doublewords = one_of_three.map(|(to, ra, rb)| Event::Tabortdc { to, ra, rb });
    let others = [
        Event::Tabort { ra: n },
        Event::Treclaim { ra: n },
        Event::Mtspr { spr: 128, ra: n },
        Event::Mfspr { rt: n, spr: 128 },
        ld(n, 0),
        std(n, 0),
        addi(n, 0, 0),
        addi(0, n, 0),
    ];
    let narrow = LOADS
        .into_iter()
        .chain(STORES)
        .map(|(_, access)| access(n, 0));
    let wide = words.into_iter().chain(doublewords).chain(others);
    wide.chain(narrow).collect()
}

/// Each event that has an operand out of range, which is alone in that.
fn operands_out_of_range() -> Vec<Event> {
    let registers = [32, 33, 128, 255].into_iter().flat_map(with_operand);
    let fields = [8, 9, 255].map(|bf| Event::Tcheck { bf });
    let sprs = [0, 25, 28, 127, 132, 255]
        .into_iter()
        .flat_map(|spr| [Event::Mtspr { spr, ra: 0 }, Event::Mfspr { rt: 0, spr }]);
    let indices = [4096, 4097, 1 << 16, u32::MAX]
        .into_iter()
        .flat_map(|index| [ld(0, index), std(0, index)]);
    // 512 x page is 0 or small, modulo 2^32, in some of these.
    let pages = [8, 9, 1 << 23, (1 << 23) + 1, 1 << 31, u32::MAX].map(tlbie);
    let fields = registers.chain(fields).chain(sprs);
    let accesses = indices.chain(addresses_out_of_range(32_768));
    fields.chain(accesses).chain(pages).collect()
}

/// Each narrow access with an address that is no multiple of its width, or that is
/// not below this end of the memory, which is a multiple of 8; or both.
fn addresses_out_of_range(end: u32) -> Vec<Event> {
    let mut refused = Vec::new();
    for (width, access) in LOADS.into_iter().chain(STORES) {
        let within = [0, 8, end / 2, end - 8].into_iter();
        let odd = within.flat_map(|from| (from..from + 8).filter(|at| at % width != 0));
        let past = [0, 1, 2, 4, 7, 8, 1 << 16].map(|more| end + more);
        let last = [1 << 31, u32::MAX - 3, u32::MAX - 1, u32::MAX];
        refused.extend(odd.chain(past).chain(last).map(|at| access(0, at)));
    }
    refused
}

#[test]
fn number_4_operands() {
    // 4 comes before 5, 11, 12 and 13, and is asked whatever the state.
    for (pr, tm) in [(true, false), (false, true)] {
        in_each_state(pr, tm).iter_mut().for_each(refuses_operands);
    }
}

fn refuses_operands(b: &mut Bench) {
    for e in operands_out_of_range() {
        b.refused(e, 4);
    }
}

#[test]
fn number_4_is_not_for_the_last_of_a_range() {
    for mut b in in_each_state(false, true) {
        takes_operands(&b);
        b.mem[4095] = 6;
        b.done(ld(31, 4095));
        assert_eq!(b.thread(0).live.gpr[31], 6);
    }
}

fn takes_operands(b: &Bench) {
    for e in with_operand(31).into_iter().chain(EACH) {
        let mut b = b.clone();
        assert_ne!(step(&mut b.m, &mut b.mem, 0, e), 4);
    }
}

#[test]
fn number_4_by_the_memory_that_is_lent() {
    let mut b = Bench::fresh();
    b.mem.resize(48, 0);
    b.refused(ld(0, 48), 4).refused(std(0, 48), 4);
    b.done(ld(0, 47)).done(std(0, 47));
    // An address by 8 x its length.
    for end in [128, 256, 384, 32_760] {
        let mut b = Bench::fresh();
        b.mem.resize(end as usize / 8 / 16 * 16, 0);
        let end = 8 * b.mem.len() as u32;
        for e in addresses_out_of_range(end) {
            b.refused(e, 4);
        }
        for (width, access) in LOADS.into_iter().chain(STORES) {
            b.done(access(0, 0)).done(access(0, end - width));
        }
    }
    // A page by its first doubleword.
    for (len, pages) in [(16, 1), (512, 1), (528, 2), (1008, 2), (1024, 2), (1040, 3)] {
        let mut b = Bench::privileged();
        b.mem.resize(len, 0);
        b.done(tlbie(0)).done(tlbie(pages - 1));
        for page in [pages, pages + 1, 1 << 23, u32::MAX] {
            b.refused(tlbie(page), 4);
        }
    }
}

/// A tlbie is no TM instruction, and its page and then PR are asked in T too.
#[test]
fn numbers_4_and_12_of_tlbie_in_every_state() {
    for tm in [false, true] {
        for mut b in in_each_state(true, tm) {
            b.refused(tlbie(8), 4).refused(tlbie(0), 12);
        }
        for mut b in in_each_state(false, tm) {
            b.refused(tlbie(8), 4);
            let number = match (b.thread(0).state, b.thread(0).doomed) {
                (State::T, _) => 20,
                (State::S, false) => 21,
                _ => 0,
            };
            b.gives(tlbie(0), number);
        }
    }
}

#[test]
fn number_5_host_in_t() {
    for pr in [false, true] {
        for tm in [false, true] {
            let host = Event::Host { pr, tm };
            for (old_pr, old_tm) in [(false, false), (false, true), (true, false), (true, true)] {
                let [mut n, mut t, mut s, mut doomed] = in_each_state(old_pr, old_tm);
                t.refused(host, 5);
                n.done(host);
                s.done(host);
                doomed.done(host);
            }
        }
    }
}

#[test]
fn number_11_facility_off() {
    for pr in [false, true] {
        for e in EACH {
            for mut b in in_each_state(pr, false) {
                if e.kind() <= 11 {
                    // Also before 12 and 13.
                    b.refused(e, 11);
                } else {
                    let mut b = b.clone();
                    assert_ne!(b.step(0, e), 11);
                }
            }
            for mut b in in_each_state(pr, true) {
                assert_ne!(b.step(0, e), 11);
            }
        }
    }
}

#[test]
fn number_12_privileged() {
    for e in EACH {
        for mut b in in_each_state(true, true) {
            if matches!(e.kind(), 8 | 9 | 18 | 19 | 26) {
                // Also before 13.
                b.refused(e, 12);
            } else {
                assert_ne!(b.step(0, e), 12);
            }
        }
        for mut b in in_each_state(false, true) {
            assert_ne!(b.step(0, e), 12);
        }
    }
}

/// SRR0 and SRR1 are privileged, and no part of the facility: 12 with PR = 1
/// whatever TM is, and never 11. mtspr of them is a Bad Thing in T alone.
#[test]
fn numbers_12_and_13_of_srr0_and_srr1() {
    for spr in [26, 27] {
        let (set, get) = (Event::Mtspr { spr, ra: 31 }, Event::Mfspr { rt: 31, spr });
        for tm in [false, true] {
            for mut b in in_each_state(true, tm) {
                b.refused(set, 12).refused(get, 12);
            }
            for mut b in in_each_state(false, tm) {
                b.done(get);
                match b.thread(0).state {
                    State::T => b.refused(set, 13),
                    _ => b.done(set),
                };
            }
        }
    }
}

/// 12 comes before all that rule E0.11 says, in T too.
#[test]
fn number_12_of_rfid_and_mtmsrd_in_every_state() {
    for tm in [false, true] {
        for mut b in in_each_state(true, tm) {
            for flags in 0..16 {
                let asked = [flags & 3, flags >> 2 & 1, flags >> 3];
                let [ts, tm, pr] = asked.map(u64::from);
                b.m.threads[0].srr1 = ts << 33 | tm << 32 | pr << 14;
                b.refused(Event::Rfid, 12).refused(mtmsrd(flags), 12);
            }
        }
    }
}

#[test]
fn number_13_bad_thing() {
    // For each kind: Bad Thing in N (with FS = 1), T, S live, S doomed.
    for e in EACH {
        let bad = match e.kind() {
            2 => [false, false, true, true],
            8 => [true, false, false, false],
            9 => [false, true, true, true],
            10 => [false, true, true, true],
            17 => continue,
            // TM is 1; SRR1 is 0 and so asks for N with TM = 0.
            18 => [false, false, true, true],
            // No state has TS = 3.
            19 => [true, false, true, true],
            _ => [false; 4],
        };
        for (mut b, bad) in in_each_state(false, true).into_iter().zip(bad) {
            if bad {
                b.refused(e, 13);
            } else {
                assert_ne!(b.step(0, e), 13, "{e:?}");
            }
        }
    }
    // trechkpt. in N asks for FS = 1.
    let mut b = Bench::privileged();
    b.m.threads[0].texasr = !texasr::FS;
    b.refused(Event::Trechkpt, 13);
    b.m.threads[0].texasr = texasr::FS;
    b.done(Event::Trechkpt);
    // A tend. in S is bad with A = 0 too.
    for mut b in in_each_state(false, true).into_iter().skip(2) {
        b.refused(TEND, 13);
    }
}
