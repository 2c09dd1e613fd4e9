//! Files of all sizes: written, read, and both ways round; files of all lengths.

use super::battery;
use crate::checks::KnownFile;
use crate::inputs::{families, given};
use crate::lent::Lent;
use crate::random::Random;
use crate::reference::answers::Call;
use crate::reference::rota_file::{bytes_of, BLOCK};
use crate::reference::Known;
use crate::rota::Tables;
use crate::session::{Difference, Outcome, Session};
use crate::wrappers::LentTables;

const ROUNDS: usize = 10;

pub fn run(session: &mut Session, random: &mut Random) -> Outcome {
    for _ in 0..ROUNDS {
        for n in 1..=64 {
            let known = Known::new(families::any(n, random));
            for bytes in battery::lengths(BLOCK * n.div_ceil(31), random) {
                session.write_file(&known, bytes)?;
            }
            let file = KnownFile::of(&known);
            session.read_file(&file, [n, n])?;
            session.read_file(&file, [n + random.below(5), n + random.below(5)])?;
            round_trip(session, &known.tables)?;
        }
    }
    every_length(session, random)
}

/// The library reads what it wrote, and writes what it read.
fn round_trip(session: &mut Session, tables: &Tables) -> Outcome {
    session.case(Call::WriteFile);
    session.case(Call::ReadFile);
    session.making_over(tables);
    let random = &mut session.random;
    let mut file = Lent::junk("file", bytes_of(tables).len(), random);
    session.calls.write(&mut LentTables::new(tables, random), &mut file);
    let mut opens = Lent::junk("open table", tables.n, random);
    let mut callouts = Lent::junk("callout table", tables.n, random);
    session.calls.read(&mut file, &mut opens, &mut callouts);
    let restored = Tables::new(tables.n, opens.contents(), callouts.contents());
    let mut again = Lent::junk("file", file.len(), random);
    session.calls.write(&mut LentTables::new(&restored, random), &mut again);
    if restored == *tables && again.contents() == file.contents() {
        return Ok(());
    }
    let names = (Call::WriteFile.name(), Call::ReadFile.name());
    Err(Difference(format!("{} and {}: not restored\n{tables}\n restored\n{restored}", names.0, names.1)))
}

/// Files of 0 to 2,100 bytes and some longer ones, with random bytes or the beginning of a good file in them.
fn every_length(session: &mut Session, random: &mut Random) -> Outcome {
    let longer = [2_560, 3_072, 4_096, 65_536, 65_536 + 512, 65_536 + 1_536, 131_072 + 1_024];
    for length in (0..=2_100).chain(longer) {
        let n = 1 + random.below(64);
        let mut bytes = bytes_of(&families::any(n, random));
        bytes.resize_with(length, || random.byte());
        let file = KnownFile::new(bytes);
        session.read_file(&file, [64, 64])?;
        if length % 512 < 2 || length % 512 == 511 {
            battery::calls_on_file(session, &file, &[given::random_bytes(random)], &[0], random)?;
        }
    }
    Ok(())
}
