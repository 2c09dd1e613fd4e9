//! The records that answer a call for the grade.

use crate::records::GradeAnswer;

// Success.
pub fn given(grade: u32) -> GradeAnswer {
    GradeAnswer { code: 0, grade, shortage: 0, items: 0 }
}

// A refusal by a number that stands alone: zeros.
pub fn refused(code: u32) -> GradeAnswer {
    GradeAnswer { code, grade: 0, shortage: 0, items: 0 }
}

// 9: no complete plan exists.
pub fn short(shortage: u32, items: u64) -> GradeAnswer {
    GradeAnswer { code: 9, grade: 0, shortage, items }
}
