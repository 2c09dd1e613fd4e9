//! The C interface, declared again from its documentation.

#[repr(C)]
#[derive(Clone, Copy, PartialEq, Eq, Debug)]
pub struct PlanRecord {
    pub slots: [u8; 64],
}

#[repr(C)]
#[derive(Clone, Copy, PartialEq, Eq, Debug)]
pub struct PlanAnswer {
    pub code: u32,
    pub shortage: u32,
    pub items: u64,
    pub callouts: u32,
    pub plan: PlanRecord,
}

/// The flag is a C bool; as a byte it can be looked at whatever was written there.
#[repr(C)]
#[derive(Clone, Copy, PartialEq, Eq, Debug)]
pub struct ListerRecord {
    pub started: u8,
    pub plan: PlanRecord,
}

#[repr(C)]
#[derive(Clone, Copy, PartialEq, Eq, Debug)]
pub struct CountAnswer {
    pub code: u32,
    pub count: u64,
}

#[repr(C)]
#[derive(Clone, Copy, PartialEq, Eq, Debug)]
pub struct NumberAnswer {
    pub code: u32,
    pub number: u64,
}

#[repr(C)]
#[derive(Clone, Copy, PartialEq, Eq, Debug)]
pub struct GradeAnswer {
    pub code: u32,
    pub grade: u32,
    pub shortage: u32,
    pub items: u64,
}

#[repr(C)]
#[derive(Clone, Copy, PartialEq, Eq, Debug)]
pub struct PriceAnswer {
    pub code: u32,
    pub shortage: u32,
    pub items: u64,
    pub cents: u64,
}

#[repr(C)]
#[derive(Clone, Copy, PartialEq, Eq, Debug)]
pub struct ReadAnswer {
    pub code: u32,
    pub n: u64,
}

#[repr(C)]
#[derive(Clone, Copy, PartialEq, Eq, Debug)]
pub struct WriteAnswer {
    pub code: u32,
    pub bytes: u64,
}

/// Declares the calls twice: as C functions to link, and as a table of pointers that a stand-in can fill too.
macro_rules! calls {
    ($($field:ident $symbol:ident ($($parameter:ident: $kind:ty),*) -> $answer:ty;)*) => {
        mod linked {
            use super::*;
            extern "C" {
                $(pub fn $symbol($($parameter: $kind),*) -> $answer;)*
            }
        }

        /// The public calls, as pointers.
        #[derive(Clone, Copy)]
        pub struct Calls {
            $(pub $field: unsafe extern "C" fn($($parameter: $kind),*) -> $answer,)*
        }

        /// The linked library's calls.
        pub fn library() -> Calls {
            Calls { $($field: linked::$symbol,)* }
        }
    };
}

calls! {
    first_plan rota_first_plan(
        n: usize, opens: *const u64, opens_len: usize, callouts: *const u64, callouts_len: usize
    ) -> PlanAnswer;
    next_plan rota_next_plan(
        n: usize, opens: *const u64, opens_len: usize, callouts: *const u64, callouts_len: usize, given: PlanRecord
    ) -> PlanAnswer;
    list_plan rota_list_plan(
        lister: *mut ListerRecord,
        n: usize, opens: *const u64, opens_len: usize, callouts: *const u64, callouts_len: usize
    ) -> PlanAnswer;
    fewest_callouts rota_fewest_callouts(
        n: usize, opens: *const u64, opens_len: usize, callouts: *const u64, callouts_len: usize, cap: u32
    ) -> PlanAnswer;
    usable_slots rota_usable_slots(
        n: usize, opens: *const u64, opens_len: usize, callouts: *const u64, callouts_len: usize,
        usable: *mut u64, usable_len: usize
    ) -> u32;
    cell_plan rota_cell_plan(
        n: usize, opens: *const u64, opens_len: usize, callouts: *const u64, callouts_len: usize,
        item: usize, slot: usize
    ) -> PlanAnswer;
    plan_sheet rota_plan_sheet(
        n: usize, opens: *const u64, opens_len: usize, callouts: *const u64, callouts_len: usize, given: PlanRecord,
        page: *mut u8, page_len: usize
    ) -> u32;
    count_plans rota_count_plans(
        n: usize, opens: *const u64, opens_len: usize, callouts: *const u64, callouts_len: usize,
        tally: *mut u64, tally_len: usize
    ) -> CountAnswer;
    grade rota_grade(
        n: usize, opens: *const u64, opens_len: usize, callouts: *const u64, callouts_len: usize,
        tally: *mut u64, tally_len: usize
    ) -> GradeAnswer;
    monthly_price rota_monthly_price(
        n: usize, opens: *const u64, opens_len: usize, callouts: *const u64, callouts_len: usize,
        vehicles: u64, tally: *mut u64, tally_len: usize
    ) -> PriceAnswer;
    count_plans_untallied rota_count_plans_untallied(
        n: usize, opens: *const u64, opens_len: usize, callouts: *const u64, callouts_len: usize
    ) -> CountAnswer;
    grade_untallied rota_grade_untallied(
        n: usize, opens: *const u64, opens_len: usize, callouts: *const u64, callouts_len: usize
    ) -> GradeAnswer;
    monthly_price_untallied rota_monthly_price_untallied(
        n: usize, opens: *const u64, opens_len: usize, callouts: *const u64, callouts_len: usize, vehicles: u64
    ) -> PriceAnswer;
    plan_at rota_plan_at(
        n: usize, opens: *const u64, opens_len: usize, callouts: *const u64, callouts_len: usize,
        k: u64, tally: *mut u64, tally_len: usize
    ) -> PlanAnswer;
    plan_number rota_plan_number(
        n: usize, opens: *const u64, opens_len: usize, callouts: *const u64, callouts_len: usize, given: PlanRecord,
        tally: *mut u64, tally_len: usize
    ) -> NumberAnswer;
    read_file rota_read_file(
        file: *const u8, file_len: usize, opens: *mut u64, opens_len: usize, callouts: *mut u64, callouts_len: usize
    ) -> ReadAnswer;
    write_file rota_write_file(
        n: usize, opens: *const u64, opens_len: usize, callouts: *const u64, callouts_len: usize,
        file: *mut u8, file_len: usize
    ) -> WriteAnswer;
    file_first_plan rota_file_first_plan(
        file: *const u8, file_len: usize, plan: *mut u8, plan_len: usize
    ) -> u32;
    file_next_plan rota_file_next_plan(
        file: *const u8, file_len: usize, plan: *mut u8, plan_len: usize
    ) -> u32;
    file_fewest_callouts rota_file_fewest_callouts(
        file: *const u8, file_len: usize, plan: *mut u8, plan_len: usize, cap: u32
    ) -> u32;
}
