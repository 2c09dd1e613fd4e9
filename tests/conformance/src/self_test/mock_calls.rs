//! The stand-in's calls behind the same C functions.

use super::faults::Buffer;
use super::mock::{reply, Reply};
use crate::interface::*;
use crate::reference::answers::{Call, Input};
use crate::reference::{rota_file, sheet, Known, Method};
use crate::rota::{Tables, BLANK};

pub fn calls() -> Calls {
    Calls {
        first_plan,
        next_plan,
        list_plan,
        fewest_callouts,
        usable_slots,
        cell_plan,
        plan_sheet,
        count_plans,
        grade,
        monthly_price,
        count_plans_untallied,
        grade_untallied,
        monthly_price_untallied,
        plan_at,
        plan_number,
        read_file,
        write_file,
        file_first_plan,
        file_next_plan,
        file_fewest_callouts,
    }
}

/// The elements behind a pointer, which may be null if there are none.
unsafe fn elements<T: Clone>(pointer: *const T, len: usize) -> Vec<T> {
    match len {
        0 => vec![],
        _ => std::slice::from_raw_parts(pointer, len).to_vec(),
    }
}

unsafe fn store<T: Copy>(pointer: *mut T, values: &[T]) {
    if !values.is_empty() {
        std::slice::from_raw_parts_mut(pointer, values.len()).copy_from_slice(values);
    }
}

/// A rota's tables as they come over the C interface.
#[derive(Clone, Copy)]
struct Lending(usize, *const u64, usize, *const u64, usize);

impl Lending {
    unsafe fn known(self) -> Known {
        let tables = Tables { n: self.0, opens: elements(self.1, self.2), callouts: elements(self.3, self.4) };
        Known::by(Method::Search, tables)
    }

    /// The reply to a call on tables. `fill` puts the further parameters in.
    unsafe fn reply(self, call: Call, output: Option<Buffer>, fill: impl Fn(&mut Input)) -> Reply {
        let known = self.known();
        let mut input = Input::new(call, &known);
        fill(&mut input);
        let tables = [Buffer::input(self.1, self.2), Buffer::input(self.3, self.4)];
        reply(&input, &tables.into_iter().chain(output).collect::<Vec<_>>())
    }

    unsafe fn reply_with_tally(self, call: Call, tally: *mut u64, len: usize, fill: impl Fn(&mut Input)) -> Reply {
        let output = Buffer::tally(tally, len, self.0);
        let reply = self.reply(call, Some(output), |input| {
            input.tally_words = len;
            fill(input);
        });
        store(tally, &reply.words);
        reply
    }
}

fn count_answer(reply: &Reply) -> CountAnswer {
    CountAnswer { code: reply.code, count: reply.number }
}

fn grade_answer(reply: &Reply) -> GradeAnswer {
    GradeAnswer { code: reply.code, grade: reply.number as u32, shortage: reply.shortage, items: reply.items }
}

fn price_answer(reply: &Reply) -> PriceAnswer {
    PriceAnswer { code: reply.code, shortage: reply.shortage, items: reply.items, cents: reply.number }
}

fn plan_answer(reply: &Reply) -> PlanAnswer {
    let plan = PlanRecord { slots: reply.plan };
    PlanAnswer { code: reply.code, shortage: reply.shortage, items: reply.items, callouts: reply.callouts, plan }
}

unsafe extern "C" fn first_plan(n: usize, o: *const u64, o_len: usize, c: *const u64, c_len: usize) -> PlanAnswer {
    plan_answer(&Lending(n, o, o_len, c, c_len).reply(Call::FirstPlan, None, |_| {}))
}

unsafe extern "C" fn next_plan(
    n: usize,
    o: *const u64,
    o_len: usize,
    c: *const u64,
    c_len: usize,
    given: PlanRecord,
) -> PlanAnswer {
    plan_answer(&Lending(n, o, o_len, c, c_len).reply(Call::NextPlan, None, |input| input.given = given.slots))
}

unsafe extern "C" fn fewest_callouts(
    n: usize,
    o: *const u64,
    o_len: usize,
    c: *const u64,
    c_len: usize,
    cap: u32,
) -> PlanAnswer {
    plan_answer(&Lending(n, o, o_len, c, c_len).reply(Call::FewestCallouts, None, |input| input.cap = cap))
}

unsafe extern "C" fn list_plan(
    lister: *mut ListerRecord,
    n: usize,
    o: *const u64,
    o_len: usize,
    c: *const u64,
    c_len: usize,
) -> PlanAnswer {
    let held = *lister;
    let output = Buffer::output(lister as *mut u8, 65, 65);
    let reply = Lending(n, o, o_len, c, c_len).reply(Call::ListPlan, Some(output), |input| {
        (input.given, input.started) = (held.plan.slots, held.started == 1);
    });
    *lister = ListerRecord { started: reply.lister.0.into(), plan: PlanRecord { slots: reply.lister.1 } };
    plan_answer(&reply)
}

unsafe extern "C" fn usable_slots(
    n: usize,
    o: *const u64,
    o_len: usize,
    c: *const u64,
    c_len: usize,
    usable: *mut u64,
    len: usize,
) -> u32 {
    let output = Buffer::output(usable, len, n);
    let reply = Lending(n, o, o_len, c, c_len).reply(Call::UsableSlots, Some(output), |input| input.room[0] = len);
    store(usable, &reply.words);
    reply.code
}

unsafe extern "C" fn cell_plan(
    n: usize,
    o: *const u64,
    o_len: usize,
    c: *const u64,
    c_len: usize,
    item: usize,
    slot: usize,
) -> PlanAnswer {
    plan_answer(&Lending(n, o, o_len, c, c_len).reply(Call::CellPlan, None, |input| input.cell = (item, slot)))
}

unsafe extern "C" fn plan_sheet(
    n: usize,
    o: *const u64,
    o_len: usize,
    c: *const u64,
    c_len: usize,
    given: PlanRecord,
    page: *mut u8,
    len: usize,
) -> u32 {
    let old = elements(page, len);
    let output = Buffer::output(page, len, sheet::bytes_for(n));
    let mut reply = Lending(n, o, o_len, c, c_len).reply(Call::PlanSheet, Some(output), |input| {
        (input.given, input.room[0]) = (given.slots, len);
    });
    for at in reply.kept {
        reply.bytes[at] = old[at];
    }
    store(page, &reply.bytes);
    reply.code
}

unsafe extern "C" fn count_plans(
    n: usize,
    o: *const u64,
    o_len: usize,
    c: *const u64,
    c_len: usize,
    tally: *mut u64,
    len: usize,
) -> CountAnswer {
    count_answer(&Lending(n, o, o_len, c, c_len).reply_with_tally(Call::CountPlans, tally, len, |_| {}))
}

unsafe extern "C" fn grade(
    n: usize,
    o: *const u64,
    o_len: usize,
    c: *const u64,
    c_len: usize,
    tally: *mut u64,
    len: usize,
) -> GradeAnswer {
    grade_answer(&Lending(n, o, o_len, c, c_len).reply_with_tally(Call::Grade, tally, len, |_| {}))
}

unsafe extern "C" fn monthly_price(
    n: usize,
    o: *const u64,
    o_len: usize,
    c: *const u64,
    c_len: usize,
    vehicles: u64,
    tally: *mut u64,
    len: usize,
) -> PriceAnswer {
    let lending = Lending(n, o, o_len, c, c_len);
    price_answer(&lending.reply_with_tally(Call::MonthlyPrice, tally, len, |input| input.vehicles = vehicles))
}

unsafe extern "C" fn count_plans_untallied(
    n: usize,
    o: *const u64,
    o_len: usize,
    c: *const u64,
    c_len: usize,
) -> CountAnswer {
    count_answer(&Lending(n, o, o_len, c, c_len).reply(Call::CountPlansUntallied, None, |_| {}))
}

unsafe extern "C" fn grade_untallied(
    n: usize,
    o: *const u64,
    o_len: usize,
    c: *const u64,
    c_len: usize,
) -> GradeAnswer {
    grade_answer(&Lending(n, o, o_len, c, c_len).reply(Call::GradeUntallied, None, |_| {}))
}

unsafe extern "C" fn monthly_price_untallied(
    n: usize,
    o: *const u64,
    o_len: usize,
    c: *const u64,
    c_len: usize,
    vehicles: u64,
) -> PriceAnswer {
    let lending = Lending(n, o, o_len, c, c_len);
    price_answer(&lending.reply(Call::MonthlyPriceUntallied, None, |input| input.vehicles = vehicles))
}

unsafe extern "C" fn plan_at(
    n: usize,
    o: *const u64,
    o_len: usize,
    c: *const u64,
    c_len: usize,
    k: u64,
    tally: *mut u64,
    len: usize,
) -> PlanAnswer {
    plan_answer(&Lending(n, o, o_len, c, c_len).reply_with_tally(Call::PlanAt, tally, len, |input| input.k = k))
}

unsafe extern "C" fn plan_number(
    n: usize,
    o: *const u64,
    o_len: usize,
    c: *const u64,
    c_len: usize,
    given: PlanRecord,
    tally: *mut u64,
    len: usize,
) -> NumberAnswer {
    let lending = Lending(n, o, o_len, c, c_len);
    let reply = lending.reply_with_tally(Call::PlanNumber, tally, len, |input| input.given = given.slots);
    NumberAnswer { code: reply.code, number: reply.number }
}

unsafe extern "C" fn write_file(
    n: usize,
    o: *const u64,
    o_len: usize,
    c: *const u64,
    c_len: usize,
    file: *mut u8,
    len: usize,
) -> WriteAnswer {
    let output = Buffer::output(file, len, rota_file::BLOCK * rota_file::blocks_for(n));
    let reply = Lending(n, o, o_len, c, c_len).reply(Call::WriteFile, Some(output), |input| input.room[0] = len);
    store(file, &reply.bytes);
    WriteAnswer { code: reply.code, bytes: reply.number }
}

unsafe extern "C" fn read_file(
    file: *const u8,
    file_len: usize,
    opens: *mut u64,
    opens_len: usize,
    callouts: *mut u64,
    callouts_len: usize,
) -> ReadAnswer {
    let bytes = elements(file, file_len);
    let known = Known::by(Method::Search, rota_file::tables_in(&bytes));
    let input = Input { file: &bytes, room: [opens_len, callouts_len], ..Input::new(Call::ReadFile, &known) };
    let n = known.n();
    let outputs = [Buffer::output(opens, opens_len, n), Buffer::output(callouts, callouts_len, n)];
    let reply = reply(&input, &[Buffer::input(file, file_len), outputs[0], outputs[1]]);
    store(opens, &reply.words);
    store(callouts, &reply.more_words);
    ReadAnswer { code: reply.code, n: reply.number }
}

unsafe fn plan_from_file(call: Call, file: (*const u8, usize), plan: (*mut u8, usize), cap: u32) -> u32 {
    let bytes = elements(file.0, file.1);
    let known = Known::by(Method::Search, rota_file::tables_in(&bytes));
    let mut given = BLANK;
    let held = elements(plan.0, plan.1.min(64));
    given[..held.len()].copy_from_slice(&held);
    let input = Input { file: &bytes, given, cap, room: [plan.1, 0], ..Input::new(call, &known) };
    let reply = reply(&input, &[Buffer::input(file.0, file.1), Buffer::output(plan.0, plan.1, 64)]);
    store(plan.0, &reply.bytes);
    reply.code
}

unsafe extern "C" fn file_first_plan(file: *const u8, file_len: usize, plan: *mut u8, plan_len: usize) -> u32 {
    plan_from_file(Call::FileFirstPlan, (file, file_len), (plan, plan_len), 0)
}

unsafe extern "C" fn file_next_plan(file: *const u8, file_len: usize, plan: *mut u8, plan_len: usize) -> u32 {
    plan_from_file(Call::FileNextPlan, (file, file_len), (plan, plan_len), 0)
}

unsafe extern "C" fn file_fewest_callouts(
    file: *const u8,
    file_len: usize,
    plan: *mut u8,
    plan_len: usize,
    cap: u32,
) -> u32 {
    plan_from_file(Call::FileFewestCallouts, (file, file_len), (plan, plan_len), cap)
}
