//! The lent tables of a rota, and plans. The tables may hold anything; a rota is accepted if none of 1 to 4 fits.

use std::fmt;

/// Byte i is item i's slot, bytes from n on are 0.
pub type Plan = [u8; 64];

/// The plan of a refusal, and of a cell that no complete plan holds.
pub const BLANK: Plan = [255; 64];

/// An item and a slot; they may be any numbers.
pub type Cell = (usize, usize);

#[derive(Clone, PartialEq, Eq, Debug)]
pub struct Tables {
    pub n: usize,
    pub opens: Vec<u64>,
    pub callouts: Vec<u64>,
}

impl Tables {
    pub fn new(n: usize, opens: &[u64], callouts: &[u64]) -> Self {
        Tables { n, opens: opens.to_vec(), callouts: callouts.to_vec() }
    }

    /// A rota without callouts, with as many items as words.
    pub fn open(opens: &[u64]) -> Self {
        Tables::new(opens.len(), opens, &vec![0; opens.len()])
    }

    pub fn is_open(&self, item: usize, slot: usize) -> bool {
        has(self.opens[item], slot)
    }

    pub fn is_callout(&self, item: usize, slot: usize) -> bool {
        has(self.callouts[item], slot)
    }

    /// The open slots of each item, rising.
    pub fn open_slots(&self) -> Vec<Vec<usize>> {
        self.opens.iter().map(|&word| slots_of(word)).collect()
    }

    /// The callout cells of a plan.
    pub fn callouts_of(&self, plan: &Plan) -> u32 {
        (0..self.n).filter(|&item| self.is_callout(item, plan[item].into())).count() as u32
    }
}

pub fn has(word: u64, slot: usize) -> bool {
    slot < 64 && word >> slot & 1 == 1
}

pub fn slots_of(word: u64) -> Vec<usize> {
    (0..64).filter(|&slot| has(word, slot)).collect()
}

/// The word with bits 0 to n - 1 set; n is at most 64.
pub fn low(n: usize) -> u64 {
    if n == 64 {
        u64::MAX
    } else {
        (1 << n) - 1
    }
}

pub fn word_of(slots: impl IntoIterator<Item = usize>) -> u64 {
    slots.into_iter().fold(0, |word, slot| word | 1 << slot)
}

pub fn plan_of(slots: &[usize]) -> Plan {
    let mut plan = [0; 64];
    for (item, &slot) in slots.iter().enumerate() {
        plan[item] = slot as u8;
    }
    plan
}

pub fn words_text(words: &[u64]) -> String {
    let list: Vec<String> = words.iter().map(|word| format!("{word:#x}")).collect();
    format!("({} words) {}", words.len(), list.join(" "))
}

pub fn plan_text(plan: &[u8]) -> String {
    let list: Vec<String> = plan.iter().map(u8::to_string).collect();
    list.join(" ")
}

impl fmt::Display for Tables {
    fn fmt(&self, f: &mut fmt::Formatter) -> fmt::Result {
        writeln!(f, "  n {}", self.n)?;
        writeln!(f, "  opens {}", words_text(&self.opens))?;
        write!(f, "  callouts {}", words_text(&self.callouts))
    }
}
