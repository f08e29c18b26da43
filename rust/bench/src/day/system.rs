//! What the operating system does with a thread that an interrupt meets.

use model::machine::LINE;
use model::{Event, State};

/// The lines from here on are where the system saves registers, one for each
/// thread.
const SAVED: usize = 248;
/// The registers that it uses for that.
const USED: [u8; 3] = [10, 11, 12];
/// TFHAR, TFIAR, TEXASR.
const SPECIAL: [u8; 3] = [128, 129, 130];

/// The facility on, in the system and still suspended.
const FACILITY: Event = Event::Mtmsrd {
    ts: 1,
    tm: true,
    pr: false,
};
/// Back to the program, with the facility on.
const RETURN: Event = Event::Host { pr: true, tm: true };

fn saved(thread: usize, place: usize) -> u32 {
    ((SAVED + thread) * LINE + place) as u32
}

/// A short interrupt, after which the program goes on where it was. It came in
/// this state; a transaction is suspended meanwhile. The way back is rfid, or the
/// host's. Some invalidate a page, where a program has lines or the system has.
pub fn pause(thread: usize, state: State, by_rfid: bool, page: Option<u32>) -> Vec<Event> {
    let index = saved(thread, 0);
    let mut events = vec![
        Event::Interrupt,
        Event::Std { ra: 16, index },
        Event::Addi {
            rt: 13,
            ra: 13,
            si: 1,
        },
        Event::Ld { rt: 16, index },
    ];
    events.extend(page.map(|page| Event::Tlbie { page }));
    if by_rfid {
        events.push(Event::Rfid);
        return events;
    }
    events.push(RETURN);
    if state == State::T {
        events.push(Event::Tsr { l: true });
    }
    events
}

/// An interrupt after which another program has the processor for a while. The
/// transaction is reclaimed, its registers saved and put back, and the program
/// comes back to a transaction that has failed.
pub fn reclaim(thread: usize) -> Vec<Event> {
    let places = || USED.into_iter().zip(SPECIAL).enumerate();
    let mut events = vec![Event::Interrupt, FACILITY, Event::Treclaim { ra: 0 }];
    for (place, (r, spr)) in places() {
        let index = saved(thread, place);
        events.extend([Event::Mfspr { rt: r, spr }, Event::Std { ra: r, index }]);
    }
    for (place, (r, spr)) in places() {
        let index = saved(thread, place);
        events.extend([Event::Ld { rt: r, index }, Event::Mtspr { spr, ra: r }]);
    }
    events.extend([Event::Trechkpt, RETURN, Event::Tsr { l: true }]);
    events
}
