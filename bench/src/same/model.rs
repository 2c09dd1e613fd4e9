//! What the Rattle source has beside the records, which both sides share in `crate::records`.

// The editions of the rota file. Calls that name none mean the first.
#[derive(Clone, Copy)]
pub enum Edition {
    One,
}
