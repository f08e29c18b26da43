//! The report with what hardware shows, and with what was read there.

use naszeptan::{Compared, FailureRegisters, Profile, Report, Row, Shown, Verdict, THREADS};

use crate::Read;

/// A report, ready to be written.
#[derive(Clone, Debug)]
pub struct Sheet {
    /// The tape's failures.
    pub report: Report,
    /// The processor.
    pub profile: Profile,
    /// One entry for each row.
    pub entries: Vec<Entry>,
    /// Values read on hardware where the model had no further failure.
    pub further: Vec<Judged>,
    /// Whether values were read on hardware.
    pub compared: bool,
}

/// A row, what hardware shows for it, and what was read there.
#[derive(Clone, Copy, Debug)]
pub struct Entry {
    /// The row.
    pub row: Row,
    /// None where TEXASR does not tell one cause: mtspr wrote it.
    pub shown: Option<Shown>,
    /// The value that was read for this failure.
    pub judged: Option<Judged>,
}

/// A value that was read, and the verdict on it.
#[derive(Clone, Copy, Debug)]
pub struct Judged {
    /// The line.
    pub read: Read,
    /// The verdict.
    pub said: Compared,
}

impl Sheet {
    /// The report against these values: the first of a thread's values stands
    /// for the first failure recorded for it, and so on. Those behind its last
    /// failure are judged against a transaction that went on.
    pub fn new(report: Report, profile: Profile, reads: Option<&[Read]>) -> Sheet {
        let mut queues: [Vec<Read>; THREADS] = Default::default();
        for read in reads.unwrap_or_default().iter().rev() {
            queues[usize::from(read.thread)].push(*read);
        }
        let judge = |read: Read, model: &FailureRegisters| {
            let shown = profile.registers(model).ok()?;
            let said = profile.compare(model, &read.registers(&shown)).ok()?;
            Some(Judged { read, said })
        };
        let mut entries = Vec::new();
        for row in report.rows.iter().copied() {
            let failed = row.is_failure();
            let read = failed.then(|| queues[usize::from(row.thread)].pop());
            entries.push(Entry {
                row,
                shown: profile.shown(row.registers.texasr).ok(),
                judged: read
                    .flatten()
                    .and_then(|read| judge(read, &row.read_with(read.cr0))),
            });
        }
        let mut rest: Vec<Read> = queues.into_iter().flatten().collect();
        rest.sort_by_key(|read| read.line);
        let rest = rest.into_iter();
        let further = rest
            .filter_map(|read| judge(read, &report.went_on(read.thread, read.texasr.into())))
            .collect();
        Sheet {
            report,
            profile,
            entries,
            further,
            compared: reads.is_some(),
        }
    }

    /// All verdicts, those on rows first.
    pub fn verdicts(&self) -> impl Iterator<Item = Verdict> + '_ {
        let rows = self.entries.iter().filter_map(|entry| entry.judged);
        rows.chain(self.further.iter().copied())
            .map(|judged| judged.said.verdict)
    }

    /// Whether a value contradicts.
    pub fn contradicts(&self) -> bool {
        self.verdicts()
            .any(|verdict| verdict == Verdict::Contradicts)
    }
}
