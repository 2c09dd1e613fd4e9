//! A plan's record of 64 bytes: whether it is a complete plan of a rota (refusal 8). The tables are those of `augment`.

use super::words;

// Whether the bytes from n on are 0.
pub fn zeros_from(plan: [u8; 64], n: usize) -> bool {
    let mut i = n;
    while i < 64 {
        if plan[i] != 0 {
            return false;
        }
        i += 1;
    }
    true
}

// What became of a record that is to be a plan.
pub struct Adoption {
    pub ok: bool,
    pub free: u64,
}

// Each item's byte is an open slot that no item before it has; `owner` gets the holders.
pub fn adopt_items(opens: &[u64], plan: [u8; 64], owner: &mut [u8; 64]) -> Adoption {
    let mut free = words::low(64);
    let mut i = 0;
    while i < opens.len() {
        let s = words::wide(plan[i]);
        if s >= 64 {
            return Adoption { ok: false, free };
        }
        if !words::has(opens[i], s) {
            return Adoption { ok: false, free };
        }
        if !words::has(free, s) {
            return Adoption { ok: false, free };
        }
        owner[s] = i as u8;
        free = words::without(free, s);
        i += 1;
    }
    Adoption { ok: true, free }
}

// Whether a record is a plan: then `owner` gets the holders, and the answer has the free slots.
pub fn adopt(opens: &[u64], plan: [u8; 64], owner: &mut [u8; 64]) -> Adoption {
    if !zeros_from(plan, opens.len()) {
        return Adoption { ok: false, free: 0 };
    }
    adopt_items(opens, plan, owner)
}

// Whether a record is a plan, where nobody asks for the holders.
pub fn is_plan(opens: &[u64], plan: [u8; 64]) -> bool {
    let mut owner = [0u8; 64];
    let a = adopt(opens, plan, &mut owner);
    a.ok
}
