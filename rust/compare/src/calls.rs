//! The calls beside the step and the run: valid, read and write, and bits that
//! are no machine, which the model cannot hold.

use model::gen::{self, Rng};
use model::{Done, Ended};
use naszeptan::raw;

use crate::batch::Found;
use crate::cells::Call;
use crate::counts::Counts;
use crate::marks::By;
use crate::pair::to_raw;
use crate::plan::damaged;
use crate::runs::loose_bytes;
use crate::sides::{self, model_valid, Side};
use crate::start::{Kind, Start};

/// The calls of one batch.
pub fn all(side: &dyn Side, rng: &mut Rng, counts: &mut Counts) -> Result<(), Found> {
    for _ in 0..4 {
        valid(side, rng, counts)?;
        no_machine(side, rng, counts)?;
    }
    for _ in 0..40 {
        read(side, rng, counts)?;
        write(side, rng, counts)?;
    }
    Ok(())
}

/// A difference, unless what was given is what is right.
pub(crate) fn same<T: PartialEq + std::fmt::Debug>(
    input: impl FnOnce() -> String,
    right: T,
    given: T,
) -> Result<(), Found> {
    if right == given {
        return Ok(());
    }
    let input = input();
    Err(Found::Call(format!(
        "{input}: model {right:?}, proved {given:?}"
    )))
}

/// A memory length: mostly one that fits.
fn length(rng: &mut Rng, fits: usize) -> usize {
    let any = rng.bits() as usize;
    let near = rng.pick([0, 1, 15, 17, 4095, 4097, 4112, usize::MAX - 15]);
    rng.pick([fits, fits, fits, near, any, any & 0xFFF0])
}

fn valid(side: &dyn Side, rng: &mut Rng, counts: &mut Counts) -> Result<(), Found> {
    let kind = rng.pick([Kind::Valid, Kind::Size, Kind::Broken, Kind::Shaken]);
    let start = Start {
        kind,
        seed: rng.bits(),
    };
    let (m, memory) = start.build();
    let len = length(rng, memory.len());
    let right = model_valid(&m, len);
    let given = side.valid(&to_raw(&m), len);
    same(|| format!("valid of {start:?} with {len}"), right, given)?;
    counts.call(Call::Valid, right);
    if right == 2 {
        counts.marks.refused(By::Valid, &m, len);
    }
    Ok(())
}

/// Puts into one thread record a value that its field cannot have.
pub(crate) fn spoil(rng: &mut Rng, m: &mut raw::Machine) -> String {
    let thread = rng.below(raw::THREADS);
    let control = &mut m.threads[thread].control;
    let (name, field, least) = match rng.below(4) {
        0 => ("state", &mut control.state, 3),
        1 => ("pr", &mut control.pr, 2),
        2 => ("tm", &mut control.tm, 2),
        _ => ("doomed", &mut control.doomed, 2),
    };
    let any = rng.byte().max(least);
    *field = rng.pick([least, any, 128, 255]);
    format!("thread {thread} {name} {field}")
}

/// Bits that are no machine: 2, or 1 if the size is wrong too, by each call,
/// and nothing changed.
fn no_machine(side: &dyn Side, rng: &mut Rng, counts: &mut Counts) -> Result<(), Found> {
    let kind = rng.pick([Kind::Valid, Kind::Two, Kind::Size, Kind::Broken]);
    let start = Start {
        kind,
        seed: rng.bits(),
    };
    let (m, memory) = start.build();
    let right = if m.shape_fits(memory.len()) { 2 } else { 1 };
    let mut bits = to_raw(&m);
    let spoilt = spoil(rng, &mut bits);
    let input = |call| format!("{call} of {start:?} with {spoilt}");

    let given = side.valid(&bits, memory.len());
    same(|| input("valid"), right, given)?;
    counts.call(Call::BitsValid, right);

    let e = damaged(rng, &m, memory.len());
    let (mut after, mut lent) = (bits, memory.clone());
    let given = side.step(&mut after, &mut lent, e);
    same(
        || input("step"),
        (Done::refused(right), bits),
        (given, after),
    )?;
    same(|| input("step, memory"), &memory, &lent)?;
    counts.call(Call::BitsStep, right);

    let tape = loose_bytes(rng);
    let given = side.run(&mut after, &mut lent, &tape);
    let refused = Ended {
        answer: right,
        count: 0,
        index: 0,
    };
    same(|| input("run"), (refused, bits), (given, after))?;
    same(|| input("run, memory"), &memory, &lent)?;
    counts.call(Call::BitsRun, right);
    Ok(())
}

fn read(side: &dyn Side, rng: &mut Rng, counts: &mut Counts) -> Result<(), Found> {
    let mut bytes = gen::record(rng).to_vec();
    if rng.one_in(8) {
        bytes.resize(rng.below(40), rng.byte());
    }
    if rng.one_in(16) {
        bytes.iter_mut().for_each(|b| *b = rng.byte());
    }
    let right = sides::model_read(&bytes);
    let given = side.read(&bytes);
    same(|| format!("read of {bytes:02X?}"), right, given)?;
    counts.call(Call::Read, right.answer);
    Ok(())
}

/// The writer, into buffers of which only 16 bytes may change.
fn write(side: &dyn Side, rng: &mut Rng, counts: &mut Counts) -> Result<(), Found> {
    let record = match rng.below(3) {
        0 => gen::record(rng),
        _ => {
            let (thread, e) = gen::any_event(rng);
            model::tape::encode(thread, e)
        }
    };
    let e = sides::fields(record);
    let any = rng.below(40);
    let size = rng.pick([16, 16, 17, 15, 0, 32, any]);
    let buffer: Vec<u8> = (0..size).map(|_| rng.byte()).collect();
    let (mut ours, mut theirs) = (buffer.clone(), buffer.clone());
    let right = sides::model_write(e, &mut ours);
    let given = side.write(e, &mut theirs);
    same(
        || format!("write of {e:?} into {buffer:02X?}"),
        (right, ours),
        (given, theirs),
    )?;
    counts.call(Call::Write, right);
    Ok(())
}
