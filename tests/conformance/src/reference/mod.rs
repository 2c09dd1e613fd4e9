//! What the library should answer, found independently of it.

pub mod answers;
pub mod assignment;
pub mod definitions;
pub mod layers;
pub mod matching;
pub mod numbers;
pub mod permanent;
pub mod pricing;
pub mod rota_file;
pub mod sheet;

use crate::rota::{low, Cell, Plan, Tables};
use std::cell::OnceCell;

/// How the facts about a rota are found.
#[derive(Clone, Copy, PartialEq, Eq, Debug)]
pub enum Method {
    /// From the definitions, up to eight items.
    Definitions,
    /// By matching, assignment, layers and Ryser's formula.
    Search,
}

/// The lent tables, and the facts about an accepted rota, each found once when asked for.
pub struct Known {
    pub tables: Tables,
    method: Method,
    plans: OnceCell<Vec<Plan>>,
    first: OnceCell<Option<Plan>>,
    last: OnceCell<Option<Plan>>,
    usable: OnceCell<Vec<u64>>,
    shortage: OnceCell<(u64, u32)>,
    fewest: OnceCell<Option<(u32, Plan)>>,
    tally: OnceCell<Vec<u64>>,
    last_tally: OnceCell<Vec<u64>>,
    count: OnceCell<u64>,
}

impl Known {
    /// By the definitions up to six items, else by search.
    pub fn new(tables: Tables) -> Self {
        let method = if tables.n <= 6 { Method::Definitions } else { Method::Search };
        Known::by(method, tables)
    }

    pub fn by(method: Method, tables: Tables) -> Self {
        Known {
            tables,
            method,
            plans: OnceCell::new(),
            first: OnceCell::new(),
            last: OnceCell::new(),
            usable: OnceCell::new(),
            shortage: OnceCell::new(),
            fewest: OnceCell::new(),
            tally: OnceCell::new(),
            last_tally: OnceCell::new(),
            count: OnceCell::new(),
        }
    }

    pub fn n(&self) -> usize {
        self.tables.n
    }

    fn defined(&self) -> bool {
        self.method == Method::Definitions
    }

    fn plans(&self) -> &[Plan] {
        self.plans.get_or_init(|| definitions::plans(&self.tables))
    }

    pub fn first(&self) -> Option<Plan> {
        *self.first.get_or_init(|| match self.defined() {
            true => self.plans().first().copied(),
            false => matching::first(&self.tables),
        })
    }

    pub fn last(&self) -> Option<Plan> {
        *self.last.get_or_init(|| match self.defined() {
            true => self.plans().last().copied(),
            false => matching::last(&self.tables),
        })
    }

    pub fn is_plan(&self, plan: &Plan) -> bool {
        match self.defined() {
            true => self.plans().contains(plan),
            false => matching::is_plan(&self.tables, plan),
        }
    }

    /// The least complete plan after the given one, which is one.
    pub fn next(&self, given: &Plan) -> Option<Plan> {
        match self.defined() {
            true => self.plans().iter().find(|plan| *plan > given).copied(),
            false => matching::next(&self.tables, given),
        }
    }

    pub fn usable(&self) -> &[u64] {
        self.usable.get_or_init(|| match self.defined() {
            true => definitions::usable(&self.tables, self.plans()),
            false => matching::usable(&self.tables),
        })
    }

    /// The first complete plan that gives the item the slot.
    pub fn cell_plan(&self, cell: Cell) -> Option<Plan> {
        match self.defined() {
            true => definitions::cell_plan(&self.tables, self.plans(), cell),
            false => matching::cell_plan(&self.tables, cell),
        }
    }

    pub fn shortage(&self) -> (u64, u32) {
        *self.shortage.get_or_init(|| match self.defined() {
            true => definitions::shortage(&self.tables),
            false => matching::shortage(&self.tables),
        })
    }

    pub fn fewest(&self) -> Option<(u32, Plan)> {
        *self.fewest.get_or_init(|| match self.defined() {
            true => definitions::fewest(&self.tables, self.plans()),
            false => assignment::fewest(&self.tables),
        })
    }

    /// For at most 20 items.
    pub fn tally(&self) -> &[u64] {
        self.tally.get_or_init(|| match self.defined() {
            true => definitions::tally(&self.tables),
            false => layers::tally(&self.tables),
        })
    }

    /// The tally with the last items in place of the first, for at most 20 items.
    pub fn last_tally(&self) -> &[u64] {
        self.last_tally.get_or_init(|| match self.defined() {
            true => definitions::last_tally(&self.tables),
            false => numbers::tally(&self.tables),
        })
    }

    /// The complete plan with so many before it, for at most 20 items.
    pub fn plan_at(&self, number: u64) -> Option<Plan> {
        match self.defined() {
            true => usize::try_from(number).ok().and_then(|place| self.plans().get(place)).copied(),
            false => numbers::plan(&self.tables, self.last_tally(), number),
        }
    }

    /// How many complete plans come before this one, for at most 20 items.
    pub fn number(&self, plan: &Plan) -> u64 {
        match self.defined() {
            true => self.plans().iter().filter(|other| *other < plan).count() as u64,
            false => numbers::number(&self.tables, plan),
        }
    }

    /// For at most 20 items.
    pub fn count(&self) -> u64 {
        *self.count.get_or_init(|| match self.defined() {
            true => self.plans().len() as u64,
            false => permanent::permanent(&self.tables.opens, low(self.n())),
        })
    }
}
