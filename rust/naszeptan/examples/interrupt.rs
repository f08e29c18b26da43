//! An interrupt in a transaction, and the way back. Thread 0 is in a transaction
//! when the interrupt comes; the handler runs suspended. Meanwhile thread 1 stores
//! to what thread 0 has read, and so the rfid that goes back into the transaction
//! handles its failure. Behind each event stands what it left of thread 0;
//! `interrupt.txt` has all that is written.

use std::fmt::Write;

use naszeptan::{Done, Event, Machine, MEMORY, SPR_SRR0, SPR_SRR1};

/// What the transaction reads and stores: line 0.
const DATA: u32 = 0;
/// Where the handler counts interrupts: line 1.
const COUNT: u32 = 16;

/// A register gets a small number.
fn li(rt: u8, si: u16) -> Event {
    Event::Addi { rt, ra: 0, si }
}

/// Each event with its thread, and what it is there for.
fn story() -> [(u8, Event, &'static str); 11] {
    let tbegin = Event::Tbegin { r: false };
    let get = |rt, spr| Event::Mfspr { rt, spr };
    [
        (0, li(3, 42), "thread 0 has a number"),
        (0, tbegin, "and begins a transaction,"),
        (0, Event::Ld { rt: 4, index: DATA }, "reads"),
        (0, Event::Std { ra: 3, index: DATA }, "and stores."),
        (0, Event::Interrupt, "The interrupt suspends it."),
        (0, get(10, SPR_SRR0), "The handler sees where it was"),
        (0, get(11, SPR_SRR1), "and in what state,"),
        (0, li(3, 1), "changes a register"),
        (
            0,
            Event::Std {
                ra: 3,
                index: COUNT,
            },
            "and stores past the log.",
        ),
        (
            1,
            Event::Std { ra: 5, index: DATA },
            "Thread 1 stores to what thread 0 read.",
        ),
        (0, Event::Rfid, "Back into T: the failure is handled."),
    ]
}

/// What is told of the story.
pub fn report() -> String {
    let (mut machine, mut memory) = (Machine::fresh(), vec![0; MEMORY]);
    machine.threads[0].control.nia = 0x1000;
    machine.threads[1].live.gpr[5] = 7;
    let mut said = String::new();
    for (thread, event, words) in story() {
        let Done { answer, failed } = machine.step_with_failed(&mut memory, thread, event);
        let number = answer.number();
        // Writing to a string does not fail.
        let _ = writeln!(said, "{words}");
        let _ = writeln!(
            said,
            "thread {thread}, {event}: {number}, {answer}; failed: {failed}"
        );
        let _ = writeln!(said, "    {}\n", machine.threads[0]);
    }
    let (data, count) = (memory[DATA as usize], memory[COUNT as usize]);
    let _ = writeln!(said, "Memory: data {data}, count {count}");
    said
}

// Unused where the test takes this file in.
#[allow(dead_code)]
fn main() {
    print!("{}", report());
}
