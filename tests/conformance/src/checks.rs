//! A check for each call: make it, compare every field of the answer and every element of every lent buffer.

use crate::lent::Lent;
use crate::reference::answers::{Call, Input};
use crate::reference::rota_file;
use crate::reference::Known;
use crate::rota::{Cell, Plan};
use crate::session::{agree, differing, Outcome, Session};
use crate::wrappers::{LentLister, LentTables};

/// Bytes of sheets and others, which fill a page before a call.
const OLD_BYTES: [u8; 5] = [b' ', b'\n', b'C', 0, 255];

/// The lister as it should be, beside the lent one.
pub struct Lister {
    pub started: bool,
    pub plan: Plan,
    lent: LentLister,
}

impl Lister {
    pub fn new(started: bool, plan: &Plan, session: &mut Session) -> Self {
        Lister { started, plan: *plan, lent: LentLister::new(started, plan, &mut session.random) }
    }
}

/// A file's bytes with the rota in them.
pub struct KnownFile {
    pub bytes: Vec<u8>,
    pub known: Known,
}

impl KnownFile {
    pub fn new(bytes: Vec<u8>) -> Self {
        let known = Known::new(rota_file::tables_in(&bytes));
        KnownFile { bytes, known }
    }

    /// The file of an accepted rota; of any other, what the writer would make of it.
    pub fn of(known: &Known) -> Self {
        KnownFile::new(rota_file::bytes_of(&known.tables))
    }

    fn input(&self, call: Call) -> Input<'_> {
        Input { file: &self.bytes, ..Input::new(call, &self.known) }
    }
}

impl Session {
    fn lend(&mut self, known: &Known) -> LentTables {
        LentTables::new(&known.tables, &mut self.random)
    }

    fn junk_words(&mut self, name: &'static str, len: usize) -> Lent<u64> {
        Lent::junk(name, len, &mut self.random)
    }

    pub fn first_plan(&mut self, known: &Known) -> Outcome {
        let input = Input::new(Call::FirstPlan, known);
        self.case(input.call);
        self.making(&input);
        let mut tables = self.lend(known);
        let got = self.calls.first(&mut tables);
        agree(&input, [differing(&input.plan_answer(input.refusal()), &got), tables.changed()])
    }

    pub fn next_plan(&mut self, known: &Known, given: &Plan) -> Outcome {
        let input = Input { given: *given, ..Input::new(Call::NextPlan, known) };
        self.case(input.call);
        self.making(&input);
        let mut tables = self.lend(known);
        let got = self.calls.next(&mut tables, given);
        agree(&input, [differing(&input.plan_answer(input.refusal()), &got), tables.changed()])
    }

    /// One call with a lister of its own.
    pub fn list_plan(&mut self, known: &Known, started: bool, plan: &Plan) -> Outcome {
        self.case(Call::ListPlan);
        let mut lister = Lister::new(started, plan, self);
        self.list_plan_with(&mut lister, known).map(|_| ())
    }

    /// One call of a lister run; gives the refusal.
    pub fn list_plan_with(&mut self, lister: &mut Lister, known: &Known) -> Result<u32, crate::session::Difference> {
        let input = Input { given: lister.plan, started: lister.started, ..Input::new(Call::ListPlan, known) };
        self.making(&input);
        let mut tables = self.lend(known);
        let got = self.calls.list(&mut lister.lent, &mut tables);
        let code = input.refusal();
        let expected = input.plan_answer(code);
        if code == 0 {
            lister.started = true;
            lister.plan = expected.plan.slots;
        }
        let bytes = LentLister::bytes(lister.started, &lister.plan);
        agree(&input, [differing(&expected, &got), tables.changed(), lister.lent.0.differs(&bytes)])?;
        Ok(code)
    }

    pub fn fewest_callouts(&mut self, known: &Known, cap: u32) -> Outcome {
        let input = Input { cap, ..Input::new(Call::FewestCallouts, known) };
        self.case(input.call);
        self.making(&input);
        let mut tables = self.lend(known);
        let got = self.calls.fewest(&mut tables, cap);
        agree(&input, [differing(&input.plan_answer(input.refusal()), &got), tables.changed()])
    }

    pub fn usable_slots(&mut self, known: &Known, words: usize) -> Outcome {
        let input = Input { room: [words, 0], ..Input::new(Call::UsableSlots, known) };
        self.case(input.call);
        self.making(&input);
        let mut tables = self.lend(known);
        let mut usable = self.junk_words("usable table", words);
        let got = self.calls.usable(&mut tables, &mut usable);
        let code = input.refusal();
        let written = if code == 0 { known.usable() } else { &[] };
        agree(&input, [differing(&code, &got), tables.changed(), usable.differs(written)])
    }

    /// A case for each cell; the tables are lent once for all of them.
    pub fn cell_plans(&mut self, known: &Known, cells: impl IntoIterator<Item = Cell>) -> Outcome {
        let mut tables = self.lend(known);
        for cell in cells {
            let input = Input { cell, ..Input::new(Call::CellPlan, known) };
            self.case(input.call);
            self.making(&input);
            let got = self.calls.cell(&mut tables, cell);
            agree(&input, [differing(&input.plan_answer(input.refusal()), &got), tables.changed()])?;
        }
        Ok(())
    }

    /// A page with random bytes in it, or with one byte everywhere.
    pub fn page(&mut self, bytes: usize) -> Lent<u8> {
        match self.random.below(10) {
            turn @ 0..=4 => Lent::holding("page", &vec![OLD_BYTES[turn]; bytes], &mut self.random),
            _ => Lent::junk("page", bytes, &mut self.random),
        }
    }

    /// A case for each given plan and length of the page; the tables are lent once for all of them.
    pub fn plan_sheets(&mut self, known: &Known, given: impl IntoIterator<Item = (Plan, usize)>) -> Outcome {
        let mut tables = self.lend(known);
        for (given, bytes) in given {
            let input = Input { given, room: [bytes, 0], ..Input::new(Call::PlanSheet, known) };
            self.case(input.call);
            self.making(&input);
            let mut page = self.page(bytes);
            let got = self.calls.sheet(&mut tables, &given, &mut page);
            let code = input.refusal();
            agree(&input, [differing(&code, &got), tables.changed(), page.differs(&input.sheet(code))])?;
        }
        Ok(())
    }

    /// What a call on a tally leaves in it.
    pub fn counted(known: &Known, code: u32) -> &[u64] {
        if code != 0 {
            return &[];
        }
        let tally = known.tally();
        assert_eq!(tally.last(), Some(&known.count()), "two ways to count agree on\n{}", known.tables);
        tally
    }

    pub fn count_plans(&mut self, known: &Known, tally_words: usize) -> Outcome {
        let input = Input { tally_words, ..Input::new(Call::CountPlans, known) };
        self.case(input.call);
        self.making(&input);
        let mut tables = self.lend(known);
        let mut tally = self.junk_words("tally", tally_words);
        let got = self.calls.count(&mut tables, &mut tally);
        let code = input.refusal();
        let findings = [differing(&input.count_answer(code), &got), tables.changed()];
        agree(&input, findings.into_iter().chain([tally.differs(Session::counted(known, code))]))
    }

    pub fn grade(&mut self, known: &Known, tally_words: usize) -> Outcome {
        let input = Input { tally_words, ..Input::new(Call::Grade, known) };
        self.case(input.call);
        self.making(&input);
        let mut tables = self.lend(known);
        let mut tally = self.junk_words("tally", tally_words);
        let got = self.calls.graded(&mut tables, &mut tally);
        let code = input.refusal();
        let findings = [differing(&input.grade_answer(code), &got), tables.changed()];
        agree(&input, findings.into_iter().chain([tally.differs(Session::counted(known, code))]))
    }

    pub fn monthly_price(&mut self, known: &Known, vehicles: u64, tally_words: usize) -> Outcome {
        let input = Input { vehicles, tally_words, ..Input::new(Call::MonthlyPrice, known) };
        self.case(input.call);
        self.making(&input);
        let mut tables = self.lend(known);
        let mut tally = self.junk_words("tally", tally_words);
        let got = self.calls.priced(&mut tables, vehicles, &mut tally);
        let code = input.refusal();
        let findings = [differing(&input.price_answer(code), &got), tables.changed()];
        agree(&input, findings.into_iter().chain([tally.differs(Session::counted(known, code))]))
    }

    pub fn write_file(&mut self, known: &Known, bytes: usize) -> Outcome {
        let input = Input { room: [bytes, 0], ..Input::new(Call::WriteFile, known) };
        self.case(input.call);
        self.making(&input);
        let mut tables = self.lend(known);
        let mut file = Lent::junk("file", bytes, &mut self.random);
        let got = self.calls.write(&mut tables, &mut file);
        let code = input.refusal();
        let written = if code == 0 { rota_file::bytes_of(&known.tables) } else { vec![] };
        agree(&input, [differing(&input.write_answer(code), &got), tables.changed(), file.differs(&written)])
    }

    pub fn read_file(&mut self, file: &KnownFile, room: [usize; 2]) -> Outcome {
        let input = Input { room, ..file.input(Call::ReadFile) };
        self.case(input.call);
        self.making(&input);
        let mut lent = Lent::holding("file", &file.bytes, &mut self.random);
        let mut opens = self.junk_words("open table", room[0]);
        let mut callouts = self.junk_words("callout table", room[1]);
        let got = self.calls.read(&mut lent, &mut opens, &mut callouts);
        let code = input.refusal();
        let tables = &file.known.tables;
        let (open, callout) = if code == 0 { (&tables.opens[..], &tables.callouts[..]) } else { (&[][..], &[][..]) };
        let answer = differing(&input.read_answer(code), &got);
        agree(&input, [answer, lent.changed(), opens.differs(open), callouts.differs(callout)])
    }

    /// A call of the download program: the plan buffer holds the given plan, then random bytes.
    fn plan_from_file(&mut self, file: &KnownFile, call: Call, given: &Plan, room: usize, cap: u32) -> Outcome {
        let mut contents = given.to_vec();
        contents.resize_with(room.max(64), || self.random.byte());
        let input = Input { given: *given, cap, room: [room, 0], ..file.input(call) };
        self.case(call);
        self.making(&input);
        let mut lent = Lent::holding("file", &file.bytes, &mut self.random);
        let mut plan = Lent::holding("plan buffer", &contents[..room], &mut self.random);
        let got = match call {
            Call::FileFirstPlan => self.calls.file_first(&mut lent, &mut plan),
            Call::FileNextPlan => self.calls.file_next(&mut lent, &mut plan),
            _ => self.calls.file_fewest(&mut lent, &mut plan, cap),
        };
        let code = input.refusal();
        let written = if code == 0 { input.plan().to_vec() } else { vec![] };
        agree(&input, [differing(&code, &got), lent.changed(), plan.differs(&written)])
    }

    pub fn file_first_plan(&mut self, file: &KnownFile, junk: &Plan, room: usize) -> Outcome {
        self.plan_from_file(file, Call::FileFirstPlan, junk, room, 0)
    }

    pub fn file_next_plan(&mut self, file: &KnownFile, given: &Plan, room: usize) -> Outcome {
        self.plan_from_file(file, Call::FileNextPlan, given, room, 0)
    }

    pub fn file_fewest_callouts(&mut self, file: &KnownFile, junk: &Plan, room: usize, cap: u32) -> Outcome {
        self.plan_from_file(file, Call::FileFewestCallouts, junk, room, cap)
    }
}
