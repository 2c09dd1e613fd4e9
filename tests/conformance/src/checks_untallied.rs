//! The checks of the calls without a tally, by themselves and beside the calls with one. The tables are lent from a copy of the
//! random stream, so that the other calls have the same cases as without these.

use crate::lent::Lent;
use crate::reference::answers::{Call, Input, GREATEST_COUNTED};
use crate::reference::Known;
use crate::session::{agree, differing, Answer, Outcome, Session};
use crate::wrappers::LentTables;

/// Which words of a difference come first where the two calls of the library are compared.
const BESIDE: &str = "beside the call with a tally, ";

impl Session {
    fn lend_apart(&self, known: &Known) -> LentTables {
        LentTables::new(&known.tables, &mut self.random.clone())
    }

    /// Counts a case and a call, and gives the number that the call should give. Where it is 0, the reference counts in two ways.
    fn untallied(&mut self, input: &Input) -> u32 {
        self.case(input.call);
        self.making(input);
        let code = input.refusal();
        Session::counted(input.known, code);
        code
    }

    pub fn count_untallied(&mut self, known: &Known) -> Outcome {
        let input = Input::new(Call::CountPlansUntallied, known);
        let code = self.untallied(&input);
        let mut tables = self.lend_apart(known);
        let got = self.calls.count_untallied(&mut tables);
        agree(&input, [differing(&input.count_answer(code), &got), tables.changed()])
    }

    pub fn grade_untallied(&mut self, known: &Known) -> Outcome {
        let input = Input::new(Call::GradeUntallied, known);
        let code = self.untallied(&input);
        let mut tables = self.lend_apart(known);
        let got = self.calls.graded_untallied(&mut tables);
        agree(&input, [differing(&input.grade_answer(code), &got), tables.changed()])
    }

    pub fn price_untallied(&mut self, known: &Known, vehicles: u64) -> Outcome {
        let input = Input { vehicles, ..Input::new(Call::MonthlyPriceUntallied, known) };
        let code = self.untallied(&input);
        let mut tables = self.lend_apart(known);
        let got = self.calls.priced_untallied(&mut tables, vehicles);
        agree(&input, [differing(&input.price_answer(code), &got), tables.changed()])
    }

    /// Both calls of the library over the same tables, the one with a tally of 2 to the power n words: they answer the same.
    fn beside<A: Answer>(
        &mut self,
        input: &Input,
        with_tally: impl Fn(&Session, &mut LentTables, &mut Lent<u64>) -> A,
        without: impl Fn(&Session, &mut LentTables) -> A,
    ) -> Outcome {
        self.case(input.call);
        self.making(input);
        let n = input.known.n();
        let words = if n <= GREATEST_COUNTED { 1 << n } else { 0 };
        let mut tally = Lent::junk("tally", words, &mut self.random.clone());
        let mut tables = self.lend_apart(input.known);
        let tallied = with_tally(self, &mut tables, &mut tally);
        let got = without(self, &mut tables);
        let difference = differing(&tallied, &got).map(|fields| format!("{BESIDE}{fields}"));
        agree(input, [difference, tables.changed()])
    }

    /// Count, grade and price beside the calls with a tally.
    pub fn beside_the_tally(&mut self, known: &Known, vehicles: u64) -> Outcome {
        let count = Input::new(Call::CountPlansUntallied, known);
        self.beside(
            &count,
            |s, tables, tally| s.calls.count(tables, tally),
            |s, tables| s.calls.count_untallied(tables),
        )?;
        let grade = Input::new(Call::GradeUntallied, known);
        self.beside(
            &grade,
            |s, tables, tally| s.calls.graded(tables, tally),
            |s, tables| s.calls.graded_untallied(tables),
        )?;
        let price = Input { vehicles, ..Input::new(Call::MonthlyPriceUntallied, known) };
        self.beside(
            &price,
            |s, tables, tally| s.calls.priced(tables, vehicles, tally),
            |s, tables| s.calls.priced_untallied(tables, vehicles),
        )
    }
}
