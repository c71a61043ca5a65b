//! How scan counters go on from one readout to the next.

use cotterleaf::{counter_step, RecordAt};

/// A readout as far as its scan counter goes.
#[derive(Clone, Copy)]
pub struct Readout {
    pub record: usize,
    pub scan_counter: u32,
    pub measurement_uid: u32,
}

impl Readout {
    /// Of an acquisition; none of another kind.
    pub fn of(record: &RecordAt) -> Option<Readout> {
        let header = record.acquisition()?;
        Some(Readout {
            record: record.number,
            scan_counter: header.scan_counter(),
            measurement_uid: header.measurement_uid(),
        })
    }
}

/// A step of scan counters that is not to the next one.
#[derive(Clone, Copy)]
pub struct Stray {
    pub from: Readout,
    pub to: Readout,
    pub counter_step: i32,
}

/// What sort of step it is.
#[derive(Clone, Copy, Debug, PartialEq, Eq)]
pub enum Sort {
    Gap,
    Repeat,
    Back,
}

impl Stray {
    pub fn sort(&self) -> Sort {
        match self.counter_step {
            0 => Sort::Repeat,
            back if back < 0 => Sort::Back,
            _ => Sort::Gap,
        }
    }

    /// How many scan counters a gap leaves out.
    pub fn missing(&self) -> u64 {
        match self.sort() {
            Sort::Gap => u64::from(self.counter_step.unsigned_abs()) - 1,
            _ => 0,
        }
    }
}

/// The steps between readouts, taken in stream order.
#[derive(Default)]
pub struct Steps {
    before: Option<Readout>,
}

impl Steps {
    /// The step to this readout, where it is not 1. The first one has none.
    pub fn to(&mut self, to: Readout) -> Option<Stray> {
        let from = self.before.replace(to)?;
        let counter_step = counter_step(from.scan_counter, to.scan_counter);
        (counter_step != 1).then_some(Stray {
            from,
            to,
            counter_step,
        })
    }
}
