//! The count.

use crate::records::CountAnswer;
use crate::same::answers::counts;
use crate::same::{acceptance, permanent};

// Counts the complete plans, in a tally of at least 2^n words.
pub fn rota_count_plans(n: usize, opens: &[u64], callouts: &[u64], tally: &mut [u64]) -> CountAnswer {
    let code = acceptance::count_code(n, n, opens, callouts, tally.len());
    if code != 0 {
        return counts::count_refused(code);
    }
    counts::count_given(permanent::count_subsets(n, opens, tally))
}
