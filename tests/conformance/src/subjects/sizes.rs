//! Rotas of all sizes and families against other methods than the definitions.

use super::battery;
use crate::inputs::families::{self, CALLOUTS, FAMILIES};
use crate::random::Random;
use crate::reference::Known;
use crate::session::{Outcome, Session};

pub fn run(session: &mut Session, random: &mut Random) -> Outcome {
    for n in 1..=64 {
        for family in FAMILIES {
            for _ in 0..2 {
                let callouts = random.pick(&CALLOUTS);
                let known = Known::new(families::rota(family, callouts, n, random));
                battery::every_call(session, &known, random)?;
            }
        }
    }
    for n in [31, 32, 33, 62, 63, 64] {
        for family in FAMILIES {
            for callouts in CALLOUTS {
                let known = Known::new(families::rota(family, callouts, n, random));
                battery::every_call(session, &known, random)?;
            }
        }
    }
    Ok(())
}
