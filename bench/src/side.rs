//! The two sides, called through pointers alike, and whether they agree.

use crate::library;
use crate::records::{
    CountAnswer, GradeAnswer, Lister, NumberAnswer, Plan, PlanAnswer, PriceAnswer, ReadAnswer, WriteAnswer,
};
use crate::same::rota::{counting, file_plans, files, lister, numbers, plans, pricing, sheets, untallied, usable};
use std::fmt::Debug;

pub struct Side {
    pub first_plan: fn(usize, &[u64], &[u64]) -> PlanAnswer,
    pub next_plan: fn(usize, &[u64], &[u64], Plan) -> PlanAnswer,
    pub list_plan: fn(&mut Lister, usize, &[u64], &[u64]) -> PlanAnswer,
    pub fewest_callouts: fn(usize, &[u64], &[u64], u32) -> PlanAnswer,
    pub cell_plan: fn(usize, &[u64], &[u64], usize, usize) -> PlanAnswer,
    pub plan_sheet: fn(usize, &[u64], &[u64], Plan, &mut [u8]) -> u32,
    pub usable_slots: fn(usize, &[u64], &[u64], &mut [u64]) -> u32,
    pub count_plans: fn(usize, &[u64], &[u64], &mut [u64]) -> CountAnswer,
    pub grade: fn(usize, &[u64], &[u64], &mut [u64]) -> GradeAnswer,
    pub monthly_price: fn(usize, &[u64], &[u64], u64, &mut [u64]) -> PriceAnswer,
    pub count_plans_untallied: fn(usize, &[u64], &[u64]) -> CountAnswer,
    pub grade_untallied: fn(usize, &[u64], &[u64]) -> GradeAnswer,
    pub monthly_price_untallied: fn(usize, &[u64], &[u64], u64) -> PriceAnswer,
    pub plan_at: fn(usize, &[u64], &[u64], u64, &mut [u64]) -> PlanAnswer,
    pub plan_number: fn(usize, &[u64], &[u64], Plan, &mut [u64]) -> NumberAnswer,
    pub read_file: fn(&[u8], &mut [u64], &mut [u64]) -> ReadAnswer,
    pub write_file: fn(usize, &[u64], &[u64], &mut [u8]) -> WriteAnswer,
    pub file_first_plan: fn(&[u8], &mut [u8]) -> u32,
    pub file_next_plan: fn(&[u8], &mut [u8]) -> u32,
    pub file_fewest_callouts: fn(&[u8], &mut [u8], u32) -> u32,
}

pub static LIBRARY: Side = Side {
    first_plan: library::first_plan,
    next_plan: library::next_plan,
    list_plan: library::list_plan,
    fewest_callouts: library::fewest_callouts,
    cell_plan: library::cell_plan,
    plan_sheet: library::plan_sheet,
    usable_slots: library::usable_slots,
    count_plans: library::count_plans,
    grade: library::grade,
    monthly_price: library::monthly_price,
    count_plans_untallied: library::count_plans_untallied,
    grade_untallied: library::grade_untallied,
    monthly_price_untallied: library::monthly_price_untallied,
    plan_at: library::plan_at,
    plan_number: library::plan_number,
    read_file: library::read_file,
    write_file: library::write_file,
    file_first_plan: library::file_first_plan,
    file_next_plan: library::file_next_plan,
    file_fewest_callouts: library::file_fewest_callouts,
};

pub static RUST: Side = Side {
    first_plan: plans::rota_first_plan,
    next_plan: plans::rota_next_plan,
    list_plan: lister::rota_list_plan,
    fewest_callouts: plans::rota_fewest_callouts,
    cell_plan: plans::rota_cell_plan,
    plan_sheet: sheets::rota_plan_sheet,
    usable_slots: usable::rota_usable_slots,
    count_plans: counting::rota_count_plans,
    grade: pricing::rota_grade,
    monthly_price: pricing::rota_monthly_price,
    count_plans_untallied: untallied::rota_count_plans_untallied,
    grade_untallied: untallied::rota_grade_untallied,
    monthly_price_untallied: untallied::rota_monthly_price_untallied,
    plan_at: numbers::rota_plan_at,
    plan_number: numbers::rota_plan_number,
    read_file: files::rota_read_file,
    write_file: files::rota_write_file,
    file_first_plan: file_plans::rota_file_first_plan,
    file_next_plan: file_plans::rota_file_next_plan,
    file_fewest_callouts: file_plans::rota_file_fewest_callouts,
};

/// Ends the program if the two sides differ.
pub fn agree<T: PartialEq + Debug>(what: &str, call: impl Fn(&Side) -> T) -> T {
    let (library, rust) = (call(&LIBRARY), call(&RUST));
    assert!(library == rust, "{what}: the library gives {library:?}, Rust {rust:?}");
    library
}
