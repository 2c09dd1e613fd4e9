//! The checks of plan numbers, by themselves and beside the lister, the count and each other. What is lent comes from a random
//! stream of its own, so that the other calls have the same cases as without these.

use crate::interface::{NumberAnswer, PlanAnswer, PlanRecord};
use crate::lent::Lent;
use crate::random::Random;
use crate::reference::answers::{Call, Input};
use crate::reference::Known;
use crate::rota::{Plan, Tables, BLANK};
use crate::session::{agree, differing, Outcome, Session};
use crate::wrappers::{LentLister, LentTables};

impl Session {
    /// Counts a case and a call, and gives the random stream of what it is lent.
    fn beginning(&mut self, input: &Input) -> Random {
        self.case(input.call);
        self.making(input);
        Random::new(self.random.clone().word() ^ self.made_of(input.call))
    }

    /// What a call leaves in the tally.
    fn numbered(known: &Known, code: u32) -> &[u64] {
        if code != 0 {
            return &[];
        }
        let tally = known.last_tally();
        assert_eq!(tally.last(), Some(&known.count()), "two ways to count agree on\n{}", known.tables);
        tally
    }

    pub fn plan_at(&mut self, known: &Known, k: u64, tally_words: usize) -> Outcome {
        let input = Input { k, tally_words, ..Input::new(Call::PlanAt, known) };
        let mut random = self.beginning(&input);
        let mut tables = LentTables::new(&known.tables, &mut random);
        let mut tally = Lent::junk("tally", tally_words, &mut random);
        let got = self.calls.at(&mut tables, k, &mut tally);
        let code = input.refusal();
        let expected = input.plan_answer(code);
        if code == 0 {
            assert_eq!(known.number(&expected.plan.slots), k, "the number of plan {k} of\n{}", known.tables);
        }
        let left = tally.differs(Session::numbered(known, code));
        agree(&input, [differing(&expected, &got), tables.changed(), left])
    }

    pub fn plan_number(&mut self, known: &Known, given: &Plan, tally_words: usize) -> Outcome {
        let input = Input { given: *given, tally_words, ..Input::new(Call::PlanNumber, known) };
        let mut random = self.beginning(&input);
        let mut tables = LentTables::new(&known.tables, &mut random);
        let mut tally = Lent::junk("tally", tally_words, &mut random);
        let got = self.calls.number_of(&mut tables, given, &mut tally);
        let code = input.refusal();
        let left = tally.differs(Session::numbered(known, code));
        agree(&input, [differing(&input.number_answer(code), &got), tables.changed(), left])
    }

    /// The library's calls beside each other, over an accepted rota of up to 20 items: what a fresh lister gives at call k + 1 is
    /// plan number k, with the number k; behind the last plan both refuse.
    pub fn beside_the_lister(&mut self, known: &Known) -> Outcome {
        let tally_words = 1 << known.n();
        self.making_over(&known.tables);
        let mut tables = LentTables::new(&known.tables, &mut self.random);
        let mut lister = LentLister::new(false, &BLANK, &mut self.random);
        for k in 0..=known.count() {
            let mut listed = self.calls.list(&mut lister, &mut tables);
            let ended = listed.code != 0;
            if ended {
                let plan = PlanRecord { slots: BLANK };
                listed = PlanAnswer { code: 16, shortage: 0, items: 0, callouts: 0, plan };
            }
            let input = Input { k, tally_words, ..Input::new(Call::PlanAt, known) };
            let mut tally = Lent::junk("tally", tally_words, &mut self.beginning(&input));
            let got = self.calls.at(&mut tables, k, &mut tally);
            agree(&input, [beside("the lister", differing(&listed, &got))])?;
            if ended {
                break;
            }
            let given = listed.plan.slots;
            let input = Input { given, tally_words, ..Input::new(Call::PlanNumber, known) };
            let mut tally = Lent::junk("tally", tally_words, &mut self.beginning(&input));
            let got = self.calls.number_of(&mut tables, &given, &mut tally);
            agree(&input, [beside("the lister", differing(&NumberAnswer { code: 0, number: k }, &got))])?;
        }
        Ok(())
    }

    /// Both calls beside each other: the plan that is given for k, which is below the count, has the number k. Each leaves the
    /// tally that the count leaves over the rota with its items in reverse order.
    pub fn there_and_back(&mut self, known: &Known, k: u64) -> Outcome {
        let tally_words = 1 << known.n();
        let reverse = |words: &[u64]| words.iter().rev().copied().collect::<Vec<u64>>();
        let reversed = Tables::new(known.n(), &reverse(&known.tables.opens), &reverse(&known.tables.callouts));
        let input = Input { k, tally_words, ..Input::new(Call::PlanAt, known) };
        let mut random = self.beginning(&input);
        let mut counted = Lent::junk("tally", tally_words, &mut random);
        self.calls.count(&mut LentTables::new(&reversed, &mut random), &mut counted);
        let mut tables = LentTables::new(&known.tables, &mut random);
        let mut tally = Lent::junk("tally", tally_words, &mut random);
        let given = self.calls.at(&mut tables, k, &mut tally).plan.slots;
        agree(&input, [beside("the count", tally.differs(counted.contents()))])?;
        let input = Input { given, tally_words, ..Input::new(Call::PlanNumber, known) };
        let mut tally = Lent::junk("tally", tally_words, &mut self.beginning(&input));
        let got = self.calls.number_of(&mut tables, &given, &mut tally);
        let number = beside("the plan", differing(&NumberAnswer { code: 0, number: k }, &got));
        agree(&input, [number, beside("the count", tally.differs(counted.contents()))])
    }
}

/// A difference where two calls of the library are compared.
fn beside(other: &str, difference: Option<String>) -> Option<String> {
    difference.map(|fields| format!("beside {other}, {fields}"))
}
