//! The examples write what is stored.

#[path = "../examples/interrupt.rs"]
mod interrupt;
#[path = "../examples/retry.rs"]
mod retry;

/// The C host's text, which `tools/test-c` holds `c/retry.c` to.
#[test]
fn the_retry_policy() {
    assert_eq!(retry::report(), include_str!("../../../c/retry.txt"));
}

#[test]
fn an_interrupt_in_a_transaction() {
    let stored = include_str!("../examples/interrupt.txt");
    assert_eq!(interrupt::report(), stored);
}
