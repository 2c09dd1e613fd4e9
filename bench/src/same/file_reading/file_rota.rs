//! The rota in a file.

// A refusal; or 0 and the rota in a file, n items whose words are followed by zeros.
pub struct FileRota {
    pub code: u32,
    pub n: usize,
    pub opens: [u64; 64],
    pub callouts: [u64; 64],
}
