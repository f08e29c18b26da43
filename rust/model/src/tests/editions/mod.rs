//! Rules T8 to T13: records of edition two, and tapes converted between the
//! editions.

mod converters;
mod reader;
mod writer;

use super::*;
use crate::edition_two::{read, write};

/// The record of a std by thread 0 of register 3 to doubleword 17, and that of
/// rule T5.
const STD_IN_TWO: [u8; 16] = [0, 0x0D, 0, 3, 0, 0, 0, 0, 0x11, 0, 0, 0, 0, 0, 0, 0];
const STD_IN_THREE: [u8; 16] = [0xE3, 0x0D, 0, 0, 3, 0, 0, 0, 0, 0, 0, 0x11, 0, 0, 0, 0];

/// The record of edition two that is written.
fn written(thread: u8, e: Event) -> [u8; 16] {
    let mut record = [0xAA; 16];
    assert_eq!(write(thread, e, &mut record), 0, "{e:?}");
    record
}
