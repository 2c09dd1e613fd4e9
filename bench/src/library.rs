//! The library's C calls, with Rust's slices.

use crate::records::{
    CountAnswer, GradeAnswer, Lister, NumberAnswer, Plan, PlanAnswer, PriceAnswer, ReadAnswer, WriteAnswer,
};

mod c {
    use super::*;

    extern "C" {
        pub fn rota_first_plan(n: usize, o: *const u64, o_len: usize, c: *const u64, c_len: usize) -> PlanAnswer;
        pub fn rota_next_plan(
            n: usize,
            o: *const u64,
            o_len: usize,
            c: *const u64,
            c_len: usize,
            given: Plan,
        ) -> PlanAnswer;
        pub fn rota_list_plan(
            lister: *mut Lister,
            n: usize,
            o: *const u64,
            o_len: usize,
            c: *const u64,
            c_len: usize,
        ) -> PlanAnswer;
        pub fn rota_fewest_callouts(
            n: usize,
            o: *const u64,
            o_len: usize,
            c: *const u64,
            c_len: usize,
            cap: u32,
        ) -> PlanAnswer;
        pub fn rota_cell_plan(
            n: usize,
            o: *const u64,
            o_len: usize,
            c: *const u64,
            c_len: usize,
            item: usize,
            slot: usize,
        ) -> PlanAnswer;
        pub fn rota_plan_sheet(
            n: usize,
            o: *const u64,
            o_len: usize,
            c: *const u64,
            c_len: usize,
            given: Plan,
            page: *mut u8,
            page_len: usize,
        ) -> u32;
        pub fn rota_usable_slots(
            n: usize,
            o: *const u64,
            o_len: usize,
            c: *const u64,
            c_len: usize,
            usable: *mut u64,
            usable_len: usize,
        ) -> u32;
        pub fn rota_count_plans(
            n: usize,
            o: *const u64,
            o_len: usize,
            c: *const u64,
            c_len: usize,
            tally: *mut u64,
            tally_len: usize,
        ) -> CountAnswer;
        pub fn rota_grade(
            n: usize,
            o: *const u64,
            o_len: usize,
            c: *const u64,
            c_len: usize,
            tally: *mut u64,
            tally_len: usize,
        ) -> GradeAnswer;
        pub fn rota_monthly_price(
            n: usize,
            o: *const u64,
            o_len: usize,
            c: *const u64,
            c_len: usize,
            vehicles: u64,
            tally: *mut u64,
            tally_len: usize,
        ) -> PriceAnswer;
        pub fn rota_count_plans_untallied(
            n: usize,
            o: *const u64,
            o_len: usize,
            c: *const u64,
            c_len: usize,
        ) -> CountAnswer;
        pub fn rota_grade_untallied(n: usize, o: *const u64, o_len: usize, c: *const u64, c_len: usize) -> GradeAnswer;
        pub fn rota_monthly_price_untallied(
            n: usize,
            o: *const u64,
            o_len: usize,
            c: *const u64,
            c_len: usize,
            vehicles: u64,
        ) -> PriceAnswer;
        pub fn rota_plan_at(
            n: usize,
            o: *const u64,
            o_len: usize,
            c: *const u64,
            c_len: usize,
            k: u64,
            tally: *mut u64,
            tally_len: usize,
        ) -> PlanAnswer;
        pub fn rota_plan_number(
            n: usize,
            o: *const u64,
            o_len: usize,
            c: *const u64,
            c_len: usize,
            given: Plan,
            tally: *mut u64,
            tally_len: usize,
        ) -> NumberAnswer;
        pub fn rota_read_file(
            file: *const u8,
            file_len: usize,
            o: *mut u64,
            o_len: usize,
            c: *mut u64,
            c_len: usize,
        ) -> ReadAnswer;
        pub fn rota_write_file(
            n: usize,
            o: *const u64,
            o_len: usize,
            c: *const u64,
            c_len: usize,
            file: *mut u8,
            file_len: usize,
        ) -> WriteAnswer;
        pub fn rota_file_first_plan(file: *const u8, file_len: usize, plan: *mut u8, plan_len: usize) -> u32;
        pub fn rota_file_next_plan(file: *const u8, file_len: usize, plan: *mut u8, plan_len: usize) -> u32;
        pub fn rota_file_fewest_callouts(
            file: *const u8,
            file_len: usize,
            plan: *mut u8,
            plan_len: usize,
            cap: u32,
        ) -> u32;
    }
}

pub fn first_plan(n: usize, o: &[u64], c: &[u64]) -> PlanAnswer {
    unsafe { c::rota_first_plan(n, o.as_ptr(), o.len(), c.as_ptr(), c.len()) }
}

pub fn next_plan(n: usize, o: &[u64], c: &[u64], given: Plan) -> PlanAnswer {
    unsafe { c::rota_next_plan(n, o.as_ptr(), o.len(), c.as_ptr(), c.len(), given) }
}

pub fn list_plan(lister: &mut Lister, n: usize, o: &[u64], c: &[u64]) -> PlanAnswer {
    unsafe { c::rota_list_plan(lister, n, o.as_ptr(), o.len(), c.as_ptr(), c.len()) }
}

pub fn fewest_callouts(n: usize, o: &[u64], c: &[u64], cap: u32) -> PlanAnswer {
    unsafe { c::rota_fewest_callouts(n, o.as_ptr(), o.len(), c.as_ptr(), c.len(), cap) }
}

pub fn cell_plan(n: usize, o: &[u64], c: &[u64], item: usize, slot: usize) -> PlanAnswer {
    unsafe { c::rota_cell_plan(n, o.as_ptr(), o.len(), c.as_ptr(), c.len(), item, slot) }
}

pub fn plan_sheet(n: usize, o: &[u64], c: &[u64], given: Plan, page: &mut [u8]) -> u32 {
    unsafe { c::rota_plan_sheet(n, o.as_ptr(), o.len(), c.as_ptr(), c.len(), given, page.as_mut_ptr(), page.len()) }
}

pub fn usable_slots(n: usize, o: &[u64], c: &[u64], usable: &mut [u64]) -> u32 {
    unsafe { c::rota_usable_slots(n, o.as_ptr(), o.len(), c.as_ptr(), c.len(), usable.as_mut_ptr(), usable.len()) }
}

pub fn count_plans(n: usize, o: &[u64], c: &[u64], tally: &mut [u64]) -> CountAnswer {
    unsafe { c::rota_count_plans(n, o.as_ptr(), o.len(), c.as_ptr(), c.len(), tally.as_mut_ptr(), tally.len()) }
}

pub fn grade(n: usize, o: &[u64], c: &[u64], tally: &mut [u64]) -> GradeAnswer {
    unsafe { c::rota_grade(n, o.as_ptr(), o.len(), c.as_ptr(), c.len(), tally.as_mut_ptr(), tally.len()) }
}

pub fn monthly_price(n: usize, o: &[u64], c: &[u64], vehicles: u64, tally: &mut [u64]) -> PriceAnswer {
    let (out, len) = (tally.as_mut_ptr(), tally.len());
    unsafe { c::rota_monthly_price(n, o.as_ptr(), o.len(), c.as_ptr(), c.len(), vehicles, out, len) }
}

pub fn count_plans_untallied(n: usize, o: &[u64], c: &[u64]) -> CountAnswer {
    unsafe { c::rota_count_plans_untallied(n, o.as_ptr(), o.len(), c.as_ptr(), c.len()) }
}

pub fn grade_untallied(n: usize, o: &[u64], c: &[u64]) -> GradeAnswer {
    unsafe { c::rota_grade_untallied(n, o.as_ptr(), o.len(), c.as_ptr(), c.len()) }
}

pub fn monthly_price_untallied(n: usize, o: &[u64], c: &[u64], vehicles: u64) -> PriceAnswer {
    unsafe { c::rota_monthly_price_untallied(n, o.as_ptr(), o.len(), c.as_ptr(), c.len(), vehicles) }
}

pub fn plan_at(n: usize, o: &[u64], c: &[u64], k: u64, tally: &mut [u64]) -> PlanAnswer {
    unsafe { c::rota_plan_at(n, o.as_ptr(), o.len(), c.as_ptr(), c.len(), k, tally.as_mut_ptr(), tally.len()) }
}

pub fn plan_number(n: usize, o: &[u64], c: &[u64], given: Plan, tally: &mut [u64]) -> NumberAnswer {
    unsafe { c::rota_plan_number(n, o.as_ptr(), o.len(), c.as_ptr(), c.len(), given, tally.as_mut_ptr(), tally.len()) }
}

pub fn read_file(file: &[u8], o: &mut [u64], c: &mut [u64]) -> ReadAnswer {
    unsafe { c::rota_read_file(file.as_ptr(), file.len(), o.as_mut_ptr(), o.len(), c.as_mut_ptr(), c.len()) }
}

pub fn write_file(n: usize, o: &[u64], c: &[u64], file: &mut [u8]) -> WriteAnswer {
    unsafe { c::rota_write_file(n, o.as_ptr(), o.len(), c.as_ptr(), c.len(), file.as_mut_ptr(), file.len()) }
}

pub fn file_first_plan(file: &[u8], plan: &mut [u8]) -> u32 {
    unsafe { c::rota_file_first_plan(file.as_ptr(), file.len(), plan.as_mut_ptr(), plan.len()) }
}

pub fn file_next_plan(file: &[u8], plan: &mut [u8]) -> u32 {
    unsafe { c::rota_file_next_plan(file.as_ptr(), file.len(), plan.as_mut_ptr(), plan.len()) }
}

pub fn file_fewest_callouts(file: &[u8], plan: &mut [u8], cap: u32) -> u32 {
    unsafe { c::rota_file_fewest_callouts(file.as_ptr(), file.len(), plan.as_mut_ptr(), plan.len(), cap) }
}
