//! A critical section run as a transaction, which fails because another
//! thread takes the lock: the tape, each record's answer, and what the
//! failure left behind. The last record is the failure handler's first
//! instruction, which reads TEXASR.

use naszeptan::{Done, Event, Machine, Tape, MEMORY, SPR_TEXASR};

/// The doubleword that is the lock: line 0.
const LOCK: u32 = 0;
/// What the lock guards: line 1.
const DATA: u32 = 16;

/// A register gets a small number.
fn li(rt: u8, si: u16) -> Event {
    Event::Addi { rt, ra: 0, si }
}

fn tape() -> Tape {
    let mut tape = Tape::new();
    tape.push(0, li(3, 42))
        .push(0, Event::Tbegin { r: false })
        .push(0, Event::Ld { rt: 4, index: LOCK })
        .push(0, Event::Std { ra: 3, index: DATA })
        .push(1, li(5, 1))
        .push(1, Event::Std { ra: 5, index: LOCK })
        .push(
            0,
            Event::Mfspr {
                rt: 6,
                spr: SPR_TEXASR,
            },
        );
    tape
}

fn main() {
    let tape = tape();
    println!("The tape:\n{tape}\n");

    let mut machine = Machine::fresh();
    let mut memory = vec![0; MEMORY];
    println!("Record, its answer, who failed in it, and the state of thread 0 after it:");
    for (number, record) in tape.records().enumerate() {
        let (thread, event) = record.expect("the tape was made of events");
        let Done { answer, failed } = machine.step_with_failed(&mut memory, thread, event);
        let state = machine.threads[0].control.state;
        println!(
            "{number:>5}  {} {answer}; failed: {failed}; {state}",
            answer.number()
        );
    }

    let thread = &machine.threads[0];
    let control = &thread.control;
    println!("\nThread 0:");
    println!("    CR0    {:04b}", thread.cr0);
    println!("    TFHAR  0x{:016X}", control.tfhar);
    println!("    TFIAR  0x{:016X}", control.tfiar);
    println!("    TEXASR 0x{:016X}", control.texasr.0);
    println!("    {}", control.texasr);
    assert_eq!(thread.live.gpr[6], control.texasr.0);

    let (lock, data) = (memory[LOCK as usize], memory[DATA as usize]);
    println!("\nMemory: lock {lock}, data {data}");
}
