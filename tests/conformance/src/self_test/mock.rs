//! A stand-in for the library: the expected answers, with a fault if one is set.

use super::faults::{Buffer, Fault};
use crate::reference::answers::{Call, Input};
use crate::reference::rota_file;
use crate::rota::{Plan, BLANK};
use std::cell::RefCell;

thread_local! {
    static FAULT: RefCell<Fault> = RefCell::new(Fault::none());
}

/// All that a call gives: the answer's fields and what is written into lent buffers.
#[derive(Clone)]
pub struct Reply {
    pub code: u32,
    pub shortage: u32,
    pub items: u64,
    pub callouts: u32,
    pub plan: Plan,
    /// The count, the grade, the cents, the plan number, n or the bytes written.
    pub number: u64,
    pub words: Vec<u64>,
    pub more_words: Vec<u64>,
    pub bytes: Vec<u8>,
    /// Places among these bytes that keep the lent ones.
    pub kept: Vec<usize>,
    pub lister: (bool, Plan),
}

impl Reply {
    /// The right reply if this is the right number.
    pub fn right(input: &Input, code: u32) -> Reply {
        let mut reply = Reply {
            code,
            shortage: 0,
            items: 0,
            callouts: 0,
            plan: BLANK,
            number: 0,
            words: vec![],
            more_words: vec![],
            bytes: vec![],
            kept: vec![],
            lister: (input.started, input.given),
        };
        (reply.items, reply.shortage) = input.short(code);
        let tables = &input.known.tables;
        match input.call {
            Call::FirstPlan
            | Call::NextPlan
            | Call::ListPlan
            | Call::FewestCallouts
            | Call::CellPlan
            | Call::PlanAt => {
                let answer = input.plan_answer(code);
                (reply.callouts, reply.plan) = (answer.callouts, answer.plan.slots);
                if code == 0 {
                    reply.lister = (true, reply.plan);
                }
            }
            Call::CountPlans | Call::CountPlansUntallied => reply.number = input.count_answer(code).count,
            Call::Grade | Call::GradeUntallied => reply.number = input.grade_answer(code).grade.into(),
            Call::MonthlyPrice | Call::MonthlyPriceUntallied => reply.number = input.price_answer(code).cents,
            Call::PlanNumber => reply.number = input.number_answer(code).number,
            Call::ReadFile => reply.number = input.read_answer(code).n,
            Call::WriteFile => reply.number = input.write_answer(code).bytes,
            _ => {}
        }
        if code == 0 {
            match input.call {
                Call::UsableSlots => reply.words = input.known.usable().to_vec(),
                Call::CountPlans | Call::Grade | Call::MonthlyPrice => reply.words = input.known.tally().to_vec(),
                Call::PlanAt | Call::PlanNumber => reply.words = input.known.last_tally().to_vec(),
                Call::ReadFile => (reply.words, reply.more_words) = (tables.opens.clone(), tables.callouts.clone()),
                Call::WriteFile => reply.bytes = rota_file::bytes_of(tables),
                Call::PlanSheet => reply.bytes = input.sheet(code),
                Call::FileFirstPlan | Call::FileNextPlan | Call::FileFewestCallouts => {
                    reply.bytes = input.plan().to_vec()
                }
                _ => {}
            }
        }
        reply
    }
}

/// Sets the fault that all further replies to this thread have.
pub fn set_fault(fault: &Fault) {
    FAULT.set(fault.clone());
}

/// The reply to a call, with the fault's change; then the buffers that the fault writes where nothing should be written.
pub unsafe fn reply(input: &Input, buffers: &[Buffer]) -> Reply {
    FAULT.with_borrow(|fault| {
        let code = fault.refusal(input);
        let mut reply = Reply::right(input, code);
        (fault.change)(input, &mut reply);
        fault.touch(input.call, code, buffers);
        reply
    })
}
