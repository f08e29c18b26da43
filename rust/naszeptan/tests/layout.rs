//! The mirrors in `raw` lie in memory as the C header has them: on x86-64
//! Linux, size_t and uint64_t have 8 bytes and are aligned to 8.

use std::mem::{align_of, offset_of, size_of};

use naszeptan::raw::{
    Compared, Control, Converted, Done, Ended, Entry, Event, Failure, Fed, Lines, Machine, Profile,
    Record, Registers, Session, Shown, Thread, Transaction,
};

/// The size and alignment of a type, and where its fields start.
macro_rules! layout {
    ($type:ty, $($field:ident),*) => {
        (size_of::<$type>(), align_of::<$type>(), vec![$(offset_of!($type, $field)),*])
    };
}

#[test]
fn registers() {
    assert_eq!(layout!(Registers, gpr, cr), (264, 8, vec![0, 256]));
}

#[test]
fn lines() {
    assert_eq!(layout!(Lines, words), (32, 8, vec![0]));
}

#[test]
fn entry() {
    assert_eq!(layout!(Entry, index, marks, value), (16, 8, vec![0, 4, 8]));
}

#[test]
fn transaction() {
    assert_eq!(
        layout!(Transaction, reads, writes, count, log),
        (1096, 8, vec![0, 32, 64, 72])
    );
}

#[test]
fn control() {
    assert_eq!(
        layout!(Control, nia, pr, tm, state, doomed, tfhar, tfiar, texasr, srr0, srr1),
        (56, 8, vec![0, 8, 9, 10, 11, 16, 24, 32, 40, 48])
    );
}

#[test]
fn thread() {
    assert_eq!(
        layout!(Thread, live, cr0, checkpoint, control, transaction),
        (1688, 8, vec![0, 264, 272, 536, 592])
    );
}

#[test]
fn machine() {
    assert_eq!(layout!(Machine, count, threads), (6760, 8, vec![0, 8]));
}

#[test]
fn event() {
    assert_eq!(
        layout!(Event, kind, thread, x, ra, rb, flags, index, si),
        (16, 4, vec![0, 1, 2, 3, 4, 5, 8, 12])
    );
}

#[test]
fn answers() {
    assert_eq!(
        layout!(Done, answer, failed, machine),
        (6768, 8, vec![0, 1, 8])
    );
    assert_eq!(
        layout!(Ended, answer, count, index, machine),
        (6784, 8, vec![0, 8, 16, 24])
    );
    assert_eq!(layout!(Record, answer, event), (20, 4, vec![0, 4]));
    assert_eq!(layout!(Converted, answer, index), (16, 8, vec![0, 8]));
}

#[test]
fn session() {
    assert_eq!(
        layout!(Session, machine, count, held, answer, bytes),
        (6792, 8, vec![0, 6760, 6768, 6776, 6777])
    );
    assert_eq!(
        layout!(Fed, answer, finished, session),
        (6808, 8, vec![0, 8, 16])
    );
}

#[test]
fn hardware() {
    assert_eq!(
        layout!(Profile, highest, hv, late, nesting),
        (16, 8, vec![0, 8, 9, 10])
    );
    assert_eq!(
        layout!(Failure, texasr, tfiar, tfhar, cr0),
        (32, 8, vec![0, 8, 16, 24])
    );
    assert_eq!(layout!(Shown, answer, value, care), (24, 8, vec![0, 8, 16]));
    assert_eq!(
        layout!(Compared, answer, verdict, cr0, texasr, tfiar, tfhar),
        (32, 8, vec![0, 1, 2, 8, 16, 24])
    );
}
