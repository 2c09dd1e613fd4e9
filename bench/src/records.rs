//! The records of include/rota.h. Both sides answer them, so that answers can be compared whole.

#[repr(C)]
#[derive(Clone, Copy, PartialEq, Eq, Debug)]
pub struct Plan {
    pub slots: [u8; 64],
}

#[repr(C)]
#[derive(Clone, Copy, PartialEq, Eq, Debug)]
pub struct PlanAnswer {
    pub code: u32,
    pub shortage: u32,
    pub items: u64,
    pub callouts: u32,
    pub plan: Plan,
}

#[repr(C)]
#[derive(Clone, Copy, PartialEq, Eq, Debug)]
pub struct Lister {
    pub started: bool,
    pub plan: Plan,
}

#[repr(C)]
#[derive(Clone, Copy, PartialEq, Eq, Debug)]
pub struct CountAnswer {
    pub code: u32,
    pub count: u64,
}

#[repr(C)]
#[derive(Clone, Copy, PartialEq, Eq, Debug)]
pub struct NumberAnswer {
    pub code: u32,
    pub number: u64,
}

#[repr(C)]
#[derive(Clone, Copy, PartialEq, Eq, Debug)]
pub struct GradeAnswer {
    pub code: u32,
    pub grade: u32,
    pub shortage: u32,
    pub items: u64,
}

#[repr(C)]
#[derive(Clone, Copy, PartialEq, Eq, Debug)]
pub struct PriceAnswer {
    pub code: u32,
    pub shortage: u32,
    pub items: u64,
    pub cents: u64,
}

#[repr(C)]
#[derive(Clone, Copy, PartialEq, Eq, Debug)]
pub struct ReadAnswer {
    pub code: u32,
    pub n: u64,
}

#[repr(C)]
#[derive(Clone, Copy, PartialEq, Eq, Debug)]
pub struct WriteAnswer {
    pub code: u32,
    pub bytes: u64,
}
