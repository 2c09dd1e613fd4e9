//! Which call tests what, in which order, and what it answers.

use super::{pricing, rota_file, sheet, Known};
use crate::interface::{
    CountAnswer, GradeAnswer, NumberAnswer, PlanAnswer, PlanRecord, PriceAnswer, ReadAnswer, WriteAnswer,
};
use crate::rota::{plan_text, Cell, Plan, BLANK};
use std::fmt;

pub const GREATEST_COUNTED: usize = 20;
pub const PLAN_BYTES: usize = 64;

#[derive(Clone, Copy, PartialEq, Eq, PartialOrd, Ord, Debug)]
pub enum Call {
    FirstPlan,
    NextPlan,
    ListPlan,
    FewestCallouts,
    UsableSlots,
    CellPlan,
    PlanSheet,
    CountPlans,
    Grade,
    MonthlyPrice,
    CountPlansUntallied,
    GradeUntallied,
    MonthlyPriceUntallied,
    PlanAt,
    PlanNumber,
    ReadFile,
    WriteFile,
    FileFirstPlan,
    FileNextPlan,
    FileFewestCallouts,
}

use Call::*;

pub const CALLS: [Call; 20] = [
    FirstPlan,
    NextPlan,
    ListPlan,
    FewestCallouts,
    UsableSlots,
    CellPlan,
    PlanSheet,
    CountPlans,
    Grade,
    MonthlyPrice,
    CountPlansUntallied,
    GradeUntallied,
    MonthlyPriceUntallied,
    PlanAt,
    PlanNumber,
    ReadFile,
    WriteFile,
    FileFirstPlan,
    FileNextPlan,
    FileFewestCallouts,
];

impl Call {
    pub fn name(self) -> &'static str {
        match self {
            FirstPlan => "rota_first_plan",
            NextPlan => "rota_next_plan",
            ListPlan => "rota_list_plan",
            FewestCallouts => "rota_fewest_callouts",
            UsableSlots => "rota_usable_slots",
            CellPlan => "rota_cell_plan",
            PlanSheet => "rota_plan_sheet",
            CountPlans => "rota_count_plans",
            Grade => "rota_grade",
            MonthlyPrice => "rota_monthly_price",
            CountPlansUntallied => "rota_count_plans_untallied",
            GradeUntallied => "rota_grade_untallied",
            MonthlyPriceUntallied => "rota_monthly_price_untallied",
            PlanAt => "rota_plan_at",
            PlanNumber => "rota_plan_number",
            ReadFile => "rota_read_file",
            WriteFile => "rota_write_file",
            FileFirstPlan => "rota_file_first_plan",
            FileNextPlan => "rota_file_next_plan",
            FileFewestCallouts => "rota_file_fewest_callouts",
        }
    }

    /// The refusals that the call tests, in order. A lister tests as the first plan while fresh, as the next one later.
    pub fn order(self, started: bool) -> &'static [u32] {
        match self {
            FirstPlan => &[1, 2, 3, 4, 9],
            NextPlan => &[1, 2, 3, 4, 8, 10],
            ListPlan if started => &[1, 2, 3, 4, 8, 10],
            ListPlan => &[1, 2, 3, 4, 9],
            FewestCallouts => &[1, 2, 3, 4, 9, 11],
            UsableSlots | WriteFile => &[1, 2, 3, 4, 15],
            CellPlan => &[1, 2, 3, 4],
            PlanSheet => &[1, 2, 3, 4, 15, 8],
            CountPlans => &[1, 2, 3, 4, 5, 6],
            Grade => &[1, 2, 3, 4, 5, 6, 9],
            MonthlyPrice => &[1, 2, 3, 4, 5, 6, 7, 9],
            CountPlansUntallied => &[1, 2, 3, 4, 5],
            GradeUntallied => &[1, 2, 3, 4, 5, 9],
            MonthlyPriceUntallied => &[1, 2, 3, 4, 5, 7, 9],
            PlanAt => &[1, 2, 3, 4, 5, 6, 16],
            PlanNumber => &[1, 2, 3, 4, 5, 6, 8],
            ReadFile => &[12, 13, 14, 3, 4, 15],
            FileFirstPlan => &[12, 13, 14, 3, 4, 15, 9],
            FileNextPlan => &[12, 13, 14, 3, 4, 15, 8, 10],
            FileFewestCallouts => &[12, 13, 14, 3, 4, 15, 9, 11],
        }
    }
}

/// All that a call is given. What a call does not take keeps its value from `new`.
pub struct Input<'a> {
    pub call: Call,
    pub known: &'a Known,
    pub file: &'a [u8],
    pub given: Plan,
    pub started: bool,
    pub cap: u32,
    pub cell: Cell,
    pub vehicles: u64,
    /// The plan number.
    pub k: u64,
    pub tally_words: usize,
    /// The lengths of the lent outputs other than the tally.
    pub room: [usize; 2],
}

impl<'a> Input<'a> {
    pub fn new(call: Call, known: &'a Known) -> Self {
        let (given, cell, room) = (BLANK, (0, 0), [0, 0]);
        Input { call, known, file: &[], given, started: false, cap: 0, cell, vehicles: 0, k: 0, tally_words: 0, room }
    }

    /// The refusal by the order of document 01, 0 if there is none.
    pub fn refusal(&self) -> u32 {
        self.refusal_in(self.call.order(self.started))
    }

    pub fn refusal_in(&self, order: &[u32]) -> u32 {
        order.iter().copied().find(|&number| self.fits(number)).unwrap_or(0)
    }

    /// Whether the table's row with this number fits.
    fn fits(&self, number: u32) -> bool {
        let tables = &self.known.tables;
        let n = tables.n;
        match number {
            1 => n == 0 || n > 64,
            2 => tables.opens.len() != n || tables.callouts.len() != n,
            3 => n < 64 && tables.opens.iter().any(|word| word >> n != 0),
            4 => tables.opens.iter().zip(&tables.callouts).any(|(open, callout)| callout & !open != 0),
            5 => n > GREATEST_COUNTED,
            6 => n >= 64 || self.tally_words < 1 << n,
            7 => self.vehicles == 0 || self.vehicles > pricing::GREATEST_FLEET,
            8 => !self.known.is_plan(&self.given),
            9 => self.known.first().is_none(),
            10 => self.known.next(&self.given).is_none(),
            11 => self.known.fewest().is_none_or(|(number, _)| number > self.cap),
            12 => rota_file::length_wrong(self.file),
            13 => rota_file::some_check_wrong(self.file),
            14 => rota_file::layout_wrong(self.file),
            15 => self.room[0] < self.needed() || self.call == ReadFile && self.room[1] < self.needed(),
            16 => self.k >= self.known.count(),
            _ => unreachable!("no row {number}"),
        }
    }

    /// The elements that a success writes into a lent output other than the tally.
    pub fn needed(&self) -> usize {
        match self.call {
            UsableSlots | ReadFile => self.known.n(),
            WriteFile => rota_file::BLOCK * rota_file::blocks_for(self.known.n()),
            PlanSheet => sheet::bytes_for(self.known.n()),
            _ => PLAN_BYTES,
        }
    }

    /// The plan that a successful call gives.
    pub fn plan(&self) -> Plan {
        let plan = match self.call {
            NextPlan | FileNextPlan => self.known.next(&self.given),
            ListPlan if self.started => self.known.next(&self.given),
            FewestCallouts | FileFewestCallouts => self.known.fewest().map(|(_, plan)| plan),
            CellPlan => self.known.cell_plan(self.cell).or(Some(BLANK)),
            PlanAt => self.known.plan_at(self.k),
            _ => self.known.first(),
        };
        plan.expect("a call that is not refused gives a plan")
    }

    /// The items and the shortage that come with 9.
    pub fn short(&self, code: u32) -> (u64, u32) {
        match code {
            9 => self.known.shortage(),
            _ => (0, 0),
        }
    }

    pub fn plan_answer(&self, code: u32) -> PlanAnswer {
        let (items, shortage) = self.short(code);
        let callouts = match (self.call, code) {
            (FewestCallouts, 0 | 11) => self.known.fewest().map_or(0, |(number, _)| number),
            _ => 0,
        };
        let slots = if code == 0 { self.plan() } else { BLANK };
        PlanAnswer { code, shortage, items, callouts, plan: PlanRecord { slots } }
    }

    /// What is written into the page.
    pub fn sheet(&self, code: u32) -> Vec<u8> {
        match code {
            0 => sheet::text(&self.known.tables, &self.given).into_bytes(),
            _ => vec![],
        }
    }

    pub fn count_answer(&self, code: u32) -> CountAnswer {
        CountAnswer { code, count: if code == 0 { self.known.count() } else { 0 } }
    }

    pub fn number_answer(&self, code: u32) -> NumberAnswer {
        NumberAnswer { code, number: if code == 0 { self.known.number(&self.given) } else { 0 } }
    }

    pub fn grade_answer(&self, code: u32) -> GradeAnswer {
        let (items, shortage) = self.short(code);
        let grade = if code == 0 { pricing::grade(self.known.usable(), self.known.count()) } else { 0 };
        GradeAnswer { code, grade, shortage, items }
    }

    pub fn price_answer(&self, code: u32) -> PriceAnswer {
        let (items, shortage) = self.short(code);
        let cents = if code == 0 {
            let fewest = self.known.fewest().expect("a price needs a plan").0;
            pricing::price(self.grade_answer(0).grade, self.vehicles, fewest)
        } else {
            0
        };
        PriceAnswer { code, shortage, items, cents }
    }

    pub fn read_answer(&self, code: u32) -> ReadAnswer {
        ReadAnswer { code, n: if code == 0 { self.known.n() as u64 } else { 0 } }
    }

    pub fn write_answer(&self, code: u32) -> WriteAnswer {
        WriteAnswer { code, bytes: if code == 0 { self.needed() as u64 } else { 0 } }
    }
}

/// The whole input, so that a case can be run again.
impl fmt::Display for Input<'_> {
    fn fmt(&self, f: &mut fmt::Formatter) -> fmt::Result {
        writeln!(f, "{}", self.call.name())?;
        if self.call.order(false)[0] == 12 {
            let bytes: Vec<String> = self.file.iter().map(|byte| format!("{byte:02x}")).collect();
            writeln!(f, "  file ({} bytes) {}", bytes.len(), bytes.join(""))?;
        } else {
            writeln!(f, "{}", self.known.tables)?;
        }
        match self.call {
            FewestCallouts | FileFewestCallouts => writeln!(f, "  cap {}", self.cap)?,
            NextPlan | FileNextPlan | PlanSheet | PlanNumber => writeln!(f, "  given {}", plan_text(&self.given))?,
            ListPlan => writeln!(f, "  lister started {}, plan {}", self.started, plan_text(&self.given))?,
            MonthlyPrice | MonthlyPriceUntallied => writeln!(f, "  vehicles {}", self.vehicles)?,
            CellPlan => writeln!(f, "  item {}, slot {}", self.cell.0, self.cell.1)?,
            PlanAt => writeln!(f, "  k {}", self.k)?,
            _ => {}
        }
        match self.call {
            CountPlans | Grade | MonthlyPrice | PlanAt | PlanNumber => {
                write!(f, "  tally of {} words", self.tally_words)
            }
            ReadFile => write!(f, "  tables of {} and {} words", self.room[0], self.room[1]),
            FirstPlan | NextPlan | ListPlan | FewestCallouts | CellPlan => write!(f, "  no output lent"),
            CountPlansUntallied | GradeUntallied | MonthlyPriceUntallied => write!(f, "  no output lent"),
            _ => write!(f, "  output of {} elements", self.room[0]),
        }
    }
}
