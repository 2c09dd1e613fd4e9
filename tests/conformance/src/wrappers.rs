//! The calls, made safe: every pointer belongs to a guarded buffer of the length that is passed with it.

use crate::interface::*;
use crate::lent::Lent;
use crate::random::Random;
use crate::rota::{Cell, Plan, Tables};

/// A rota's two tables. Equal ones are sometimes lent as one.
pub struct LentTables {
    n: usize,
    opens: Lent<u64>,
    callouts: Option<Lent<u64>>,
}

type TableArguments = (usize, *const u64, usize, *const u64, usize);

impl LentTables {
    pub fn new(tables: &Tables, random: &mut Random) -> Self {
        let shared = tables.opens == tables.callouts && random.chance(1, 2);
        LentTables {
            n: tables.n,
            opens: Lent::holding("open table", &tables.opens, random),
            callouts: (!shared).then(|| Lent::holding("callout table", &tables.callouts, random)),
        }
    }

    fn arguments(&mut self) -> TableArguments {
        let opens = (self.opens.pointer() as *const u64, self.opens.len());
        let callouts = match &mut self.callouts {
            Some(table) => (table.pointer() as *const u64, table.len()),
            None => opens,
        };
        (self.n, opens.0, opens.1, callouts.0, callouts.1)
    }

    pub fn changed(&self) -> Option<String> {
        self.opens.changed().or_else(|| self.callouts.as_ref().and_then(Lent::changed))
    }
}

/// A lister in a guarded place: the flag's byte, then the plan's.
pub struct LentLister(pub Lent<u8>);

impl LentLister {
    pub fn bytes(started: bool, plan: &Plan) -> [u8; 65] {
        let mut bytes = [0; 65];
        bytes[0] = started.into();
        bytes[1..].copy_from_slice(plan);
        bytes
    }

    pub fn new(started: bool, plan: &Plan, random: &mut Random) -> Self {
        LentLister(Lent::holding("lister", &LentLister::bytes(started, plan), random))
    }
}

impl Calls {
    pub fn first(&self, tables: &mut LentTables) -> PlanAnswer {
        let (n, opens, opens_len, callouts, callouts_len) = tables.arguments();
        unsafe { (self.first_plan)(n, opens, opens_len, callouts, callouts_len) }
    }

    pub fn next(&self, tables: &mut LentTables, given: &Plan) -> PlanAnswer {
        let (n, opens, opens_len, callouts, callouts_len) = tables.arguments();
        unsafe { (self.next_plan)(n, opens, opens_len, callouts, callouts_len, PlanRecord { slots: *given }) }
    }

    pub fn list(&self, lister: &mut LentLister, tables: &mut LentTables) -> PlanAnswer {
        let (n, opens, opens_len, callouts, callouts_len) = tables.arguments();
        let lister = lister.0.pointer() as *mut ListerRecord;
        unsafe { (self.list_plan)(lister, n, opens, opens_len, callouts, callouts_len) }
    }

    pub fn fewest(&self, tables: &mut LentTables, cap: u32) -> PlanAnswer {
        let (n, opens, opens_len, callouts, callouts_len) = tables.arguments();
        unsafe { (self.fewest_callouts)(n, opens, opens_len, callouts, callouts_len, cap) }
    }

    pub fn usable(&self, tables: &mut LentTables, usable: &mut Lent<u64>) -> u32 {
        let (n, opens, opens_len, callouts, callouts_len) = tables.arguments();
        unsafe { (self.usable_slots)(n, opens, opens_len, callouts, callouts_len, usable.pointer(), usable.len()) }
    }

    pub fn cell(&self, tables: &mut LentTables, (item, slot): Cell) -> PlanAnswer {
        let (n, opens, opens_len, callouts, callouts_len) = tables.arguments();
        unsafe { (self.cell_plan)(n, opens, opens_len, callouts, callouts_len, item, slot) }
    }

    pub fn sheet(&self, tables: &mut LentTables, given: &Plan, page: &mut Lent<u8>) -> u32 {
        let (n, opens, opens_len, callouts, callouts_len) = tables.arguments();
        let (given, bytes, len) = (PlanRecord { slots: *given }, page.pointer(), page.len());
        unsafe { (self.plan_sheet)(n, opens, opens_len, callouts, callouts_len, given, bytes, len) }
    }

    pub fn count(&self, tables: &mut LentTables, tally: &mut Lent<u64>) -> CountAnswer {
        let (n, opens, opens_len, callouts, callouts_len) = tables.arguments();
        unsafe { (self.count_plans)(n, opens, opens_len, callouts, callouts_len, tally.pointer(), tally.len()) }
    }

    pub fn graded(&self, tables: &mut LentTables, tally: &mut Lent<u64>) -> GradeAnswer {
        let (n, opens, opens_len, callouts, callouts_len) = tables.arguments();
        unsafe { (self.grade)(n, opens, opens_len, callouts, callouts_len, tally.pointer(), tally.len()) }
    }

    pub fn priced(&self, tables: &mut LentTables, vehicles: u64, tally: &mut Lent<u64>) -> PriceAnswer {
        let (n, opens, opens_len, callouts, callouts_len) = tables.arguments();
        let (words, len) = (tally.pointer(), tally.len());
        unsafe { (self.monthly_price)(n, opens, opens_len, callouts, callouts_len, vehicles, words, len) }
    }

    pub fn count_untallied(&self, tables: &mut LentTables) -> CountAnswer {
        let (n, opens, opens_len, callouts, callouts_len) = tables.arguments();
        unsafe { (self.count_plans_untallied)(n, opens, opens_len, callouts, callouts_len) }
    }

    pub fn graded_untallied(&self, tables: &mut LentTables) -> GradeAnswer {
        let (n, opens, opens_len, callouts, callouts_len) = tables.arguments();
        unsafe { (self.grade_untallied)(n, opens, opens_len, callouts, callouts_len) }
    }

    pub fn priced_untallied(&self, tables: &mut LentTables, vehicles: u64) -> PriceAnswer {
        let (n, opens, opens_len, callouts, callouts_len) = tables.arguments();
        unsafe { (self.monthly_price_untallied)(n, opens, opens_len, callouts, callouts_len, vehicles) }
    }

    pub fn at(&self, tables: &mut LentTables, k: u64, tally: &mut Lent<u64>) -> PlanAnswer {
        let (n, opens, opens_len, callouts, callouts_len) = tables.arguments();
        unsafe { (self.plan_at)(n, opens, opens_len, callouts, callouts_len, k, tally.pointer(), tally.len()) }
    }

    pub fn number_of(&self, tables: &mut LentTables, given: &Plan, tally: &mut Lent<u64>) -> NumberAnswer {
        let (n, opens, opens_len, callouts, callouts_len) = tables.arguments();
        let (given, words, len) = (PlanRecord { slots: *given }, tally.pointer(), tally.len());
        unsafe { (self.plan_number)(n, opens, opens_len, callouts, callouts_len, given, words, len) }
    }

    pub fn read(&self, file: &mut Lent<u8>, opens: &mut Lent<u64>, callouts: &mut Lent<u64>) -> ReadAnswer {
        let (open_words, callout_words) = ((opens.pointer(), opens.len()), (callouts.pointer(), callouts.len()));
        let (bytes, len) = (file.pointer(), file.len());
        unsafe { (self.read_file)(bytes, len, open_words.0, open_words.1, callout_words.0, callout_words.1) }
    }

    pub fn write(&self, tables: &mut LentTables, file: &mut Lent<u8>) -> WriteAnswer {
        let (n, opens, opens_len, callouts, callouts_len) = tables.arguments();
        unsafe { (self.write_file)(n, opens, opens_len, callouts, callouts_len, file.pointer(), file.len()) }
    }

    pub fn file_first(&self, file: &mut Lent<u8>, plan: &mut Lent<u8>) -> u32 {
        unsafe { (self.file_first_plan)(file.pointer(), file.len(), plan.pointer(), plan.len()) }
    }

    pub fn file_next(&self, file: &mut Lent<u8>, plan: &mut Lent<u8>) -> u32 {
        unsafe { (self.file_next_plan)(file.pointer(), file.len(), plan.pointer(), plan.len()) }
    }

    pub fn file_fewest(&self, file: &mut Lent<u8>, plan: &mut Lent<u8>, cap: u32) -> u32 {
        unsafe { (self.file_fewest_callouts)(file.pointer(), file.len(), plan.pointer(), plan.len(), cap) }
    }
}
