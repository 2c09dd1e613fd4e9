//! One run of the comparison: the calls under test, what was compared so far, the first difference.

use crate::interface::*;
use crate::random::Random;
use crate::reference::answers::{Call, Input, CALLS};
use crate::rota::{plan_text, Tables};
use std::fmt::Display;

/// What differs, with the whole input.
#[derive(Debug)]
pub struct Difference(pub String);

pub type Outcome = Result<(), Difference>;

pub struct Session {
    pub calls: Calls,
    pub random: Random,
    cases: [u64; CALLS.len()],
    made: [u64; CALLS.len()],
    trace: bool,
}

impl Session {
    pub fn new(calls: Calls, trace: bool) -> Self {
        Session { calls, random: Random::new(0), cases: [0; CALLS.len()], made: [0; CALLS.len()], trace }
    }

    /// Both runs as one.
    pub fn with(mut self, other: Session) -> Self {
        for call in CALLS {
            self.cases[call as usize] += other.cases_of(call);
            self.made[call as usize] += other.made_of(call);
        }
        self
    }

    /// Counts a case of a call. The calls of one lister run make one case.
    pub fn case(&mut self, call: Call) {
        self.cases[call as usize] += 1;
    }

    /// Counts a call; with a trace, writes its input down before it is made.
    pub fn making(&mut self, input: &Input) {
        self.made[input.call as usize] += 1;
        if self.trace {
            eprintln!("{input}");
        }
    }

    /// Writes down tables over which calls are made without a check of their own.
    pub fn making_over(&mut self, tables: &Tables) {
        if self.trace {
            eprintln!("{tables}");
        }
    }

    pub fn cases_of(&self, call: Call) -> u64 {
        self.cases[call as usize]
    }

    pub fn made_of(&self, call: Call) -> u64 {
        self.made[call as usize]
    }

    pub fn all_cases(&self) -> u64 {
        self.cases.iter().sum()
    }
}

/// A difference if anything was found.
pub fn agree(input: &Input, findings: impl IntoIterator<Item = Option<String>>) -> Outcome {
    let found: Vec<String> = findings.into_iter().flatten().collect();
    match found.is_empty() {
        true => Ok(()),
        false => Err(Difference(format!("{input}\n  {}", found.join("\n  ")))),
    }
}

/// An answer's fields with their names.
pub trait Answer: PartialEq {
    fn fields(&self) -> Vec<(&'static str, String)>;
}

fn field(name: &'static str, value: impl Display) -> (&'static str, String) {
    (name, value.to_string())
}

impl Answer for PlanAnswer {
    fn fields(&self) -> Vec<(&'static str, String)> {
        vec![
            field("code", self.code),
            field("shortage", self.shortage),
            field("items", format!("{:#x}", self.items)),
            field("callouts", self.callouts),
            field("plan", plan_text(&self.plan.slots)),
        ]
    }
}

impl Answer for CountAnswer {
    fn fields(&self) -> Vec<(&'static str, String)> {
        vec![field("code", self.code), field("count", self.count)]
    }
}

impl Answer for NumberAnswer {
    fn fields(&self) -> Vec<(&'static str, String)> {
        vec![field("code", self.code), field("number", self.number)]
    }
}

impl Answer for GradeAnswer {
    fn fields(&self) -> Vec<(&'static str, String)> {
        vec![
            field("code", self.code),
            field("grade", self.grade),
            field("shortage", self.shortage),
            field("items", format!("{:#x}", self.items)),
        ]
    }
}

impl Answer for PriceAnswer {
    fn fields(&self) -> Vec<(&'static str, String)> {
        vec![
            field("code", self.code),
            field("shortage", self.shortage),
            field("items", format!("{:#x}", self.items)),
            field("cents", self.cents),
        ]
    }
}

impl Answer for ReadAnswer {
    fn fields(&self) -> Vec<(&'static str, String)> {
        vec![field("code", self.code), field("n", self.n)]
    }
}

impl Answer for WriteAnswer {
    fn fields(&self) -> Vec<(&'static str, String)> {
        vec![field("code", self.code), field("bytes", self.bytes)]
    }
}

impl Answer for u32 {
    fn fields(&self) -> Vec<(&'static str, String)> {
        vec![field("code", self)]
    }
}

/// The fields that differ, each with both values.
pub fn differing<A: Answer>(expected: &A, got: &A) -> Option<String> {
    if expected == got {
        return None;
    }
    let pairs = expected.fields().into_iter().zip(got.fields());
    let lines: Vec<String> = pairs
        .filter(|(wanted, given)| wanted.1 != given.1)
        .map(|(wanted, given)| format!("{}: should be {}, is {}", wanted.0, wanted.1, given.1))
        .collect();
    Some(lines.join("\n  "))
}
