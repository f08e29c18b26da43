//! Rules N1 to N3: each refusal, when it is given and when not, and the
//! order of the tests.

mod events;
mod machine;
mod records;

use super::*;
use crate::machine::texasr;
use crate::tape::LAST_KIND;
use crate::{read, write};

/// One event of each kind with operands in range.
const EACH: [Event; 26] = [
    Event::Tbegin { r: true },
    Event::Tend { a: true },
    Event::Tabort { ra: 31 },
    Event::Tabortwc {
        to: 31,
        ra: 31,
        rb: 31,
    },
    Event::Tabortdc {
        to: 31,
        ra: 31,
        rb: 31,
    },
    Event::Tsr { l: true },
    Event::Tcheck { bf: 7 },
    Event::Treclaim { ra: 31 },
    Event::Trechkpt,
    Event::Mtspr { spr: 131, ra: 31 },
    Event::Mfspr { rt: 31, spr: 131 },
    Event::Ld {
        rt: 31,
        index: 4095,
    },
    Event::Std {
        ra: 31,
        index: 4095,
    },
    Event::Addi {
        rt: 31,
        ra: 31,
        si: 65535,
    },
    Event::Disallowed,
    Event::Interrupt,
    Event::Host {
        pr: true,
        tm: false,
    },
    Event::Rfid,
    Event::Mtmsrd {
        ts: 3,
        tm: true,
        pr: true,
    },
    lbz(31, 32767),
    lhz(31, 32766),
    lwz(31, 32764),
    stb(31, 32767),
    sth(31, 32766),
    stw(31, 32764),
    Event::Tlbie { page: 7 },
];

/// Thread 0 in N, T, S live, S doomed, with this PR and TM.
fn in_each_state(pr: bool, tm: bool) -> [Bench; 4] {
    let mut n = Bench::fresh();
    n.m.threads[0].texasr = texasr::FS;
    let mut t = Bench::fresh();
    t.done(TBEGIN).done(std(1, 3)).done(ld(1, 100));
    let mut s = t.clone();
    s.done(TSUSPEND);
    let mut doomed = s.clone();
    doomed.gives(TABORT, 21);
    [n, t, s, doomed].map(|mut b| {
        b.m.threads[0].pr = pr;
        b.m.threads[0].tm = tm;
        assert!(valid(&b.m, 4096));
        b
    })
}
