//! Faults of the stand-in: a changed reply, an exchanged order of tests, a buffer written where it should be kept.

use super::mock::Reply;
use super::{systematic, wrong, wrong_cells, wrong_files, wrong_grades, wrong_numbers, wrong_sheets, wrong_untallied};
use crate::reference::answers::{Call, Input};
use std::sync::Arc;

/// Where a buffer is written that should be kept there.
#[derive(Clone, Copy, PartialEq, Eq, Debug)]
pub enum Place {
    GuardBefore,
    /// The first byte; in an output after a success the right one is stored over it.
    First,
    /// The first byte after what a success writes.
    Further,
    GuardAfter,
}

/// A lent buffer in bytes, and how many of them a success writes.
#[derive(Clone, Copy)]
pub struct Buffer {
    pointer: *mut u8,
    bytes: usize,
    written: usize,
}

impl Buffer {
    pub fn input<T>(pointer: *const T, len: usize) -> Self {
        Buffer { pointer: pointer as *mut u8, bytes: len * size_of::<T>(), written: 0 }
    }

    pub fn output<T>(pointer: *mut T, len: usize, written: usize) -> Self {
        let size = size_of::<T>();
        Buffer { pointer: pointer as *mut u8, bytes: len * size, written: written.saturating_mul(size) }
    }

    pub fn tally(pointer: *mut u64, len: usize, n: usize) -> Self {
        Buffer::output(pointer, len, 1 << n.min(40))
    }

    unsafe fn touch(&self, place: Place) {
        let pointer = match place {
            Place::GuardBefore => self.pointer.sub(1),
            Place::First if self.bytes > 0 => self.pointer,
            Place::Further if self.bytes > self.written => self.pointer.add(self.written),
            Place::GuardAfter => self.pointer.add(self.bytes),
            _ => return,
        };
        *pointer ^= 0x10;
    }
}

pub type Change = Arc<dyn Fn(&Input, &mut Reply) + Send + Sync>;

#[derive(Clone)]
pub struct Fault {
    pub name: String,
    /// The subject that finds it; None if the whole round is run until it is found.
    pub subject: Option<&'static str>,
    pub change: Change,
    /// Two refusals whose tests are exchanged, for a call.
    pub exchanged: Option<(Call, u32, u32)>,
    /// A buffer of a call, written where it should be kept when the call gives this number.
    pub touched: Option<(Call, u32, usize, Place)>,
}

impl Fault {
    pub fn none() -> Self {
        Fault { name: String::new(), subject: None, change: Arc::new(|_, _| {}), exchanged: None, touched: None }
    }

    pub fn new(name: impl Into<String>, change: impl Fn(&Input, &mut Reply) + Send + Sync + 'static) -> Self {
        Fault { name: name.into(), change: Arc::new(change), ..Fault::none() }
    }

    /// A fault of one call.
    pub fn of(call: Call, name: &str, change: impl Fn(&Input, &mut Reply) + Send + Sync + 'static) -> Self {
        Fault::new(format!("{}: {name}", call.name()), move |input, reply| {
            if input.call == call {
                change(input, reply);
            }
        })
    }

    pub fn found_by(self, subject: &'static str) -> Self {
        Fault { subject: Some(subject), ..self }
    }

    pub fn refusal(&self, input: &Input) -> u32 {
        let mut order = input.call.order(input.started).to_vec();
        if let Some((call, one, other)) = self.exchanged {
            let places =
                (order.iter().position(|&number| number == one), order.iter().position(|&number| number == other));
            if let (true, (Some(one), Some(other))) = (call == input.call, places) {
                order.swap(one, other);
            }
        }
        input.refusal_in(&order)
    }

    pub unsafe fn touch(&self, call: Call, code: u32, buffers: &[Buffer]) {
        if let Some((touched, number, buffer, place)) = self.touched {
            if call == touched && code == number && !buffers[buffer].pointer.is_null() {
                buffers[buffer].touch(place);
            }
        }
    }
}

/// A fault of a call's successes.
pub fn success(call: Call, name: &str, change: impl Fn(&Input, &mut Reply) + Send + Sync + 'static) -> Fault {
    Fault::of(call, name, move |input, reply| {
        if reply.code == 0 {
            change(input, reply);
        }
    })
}

/// Another number in place of one, where the test passes.
pub fn instead(
    call: Call,
    name: &str,
    of: u32,
    other: u32,
    test: impl Fn(&Input) -> bool + Send + Sync + 'static,
) -> Fault {
    Fault::of(call, name, move |input, reply| {
        if reply.code == of && test(input) {
            *reply = Reply::right(input, other);
        }
    })
}

pub fn all() -> Vec<Fault> {
    let mut faults = systematic::faults();
    faults.extend(wrong::faults());
    faults.extend(wrong_cells::faults());
    faults.extend(wrong_sheets::faults());
    faults.extend(wrong_grades::faults());
    faults.extend(wrong_untallied::faults());
    faults.extend(wrong_numbers::faults());
    faults.extend(wrong_files::faults());
    faults
}
