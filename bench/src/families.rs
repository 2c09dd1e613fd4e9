//! The rotas that are timed. Seeds are fixed, so every run has the same ones.

use crate::random::Random;

/// How many rotas a random family has.
const RANDOM: u64 = 64;

pub struct Rota {
    pub opens: Vec<u64>,
    pub callouts: Vec<u64>,
}

pub struct Family {
    pub name: &'static str,
    pub rotas: Vec<Rota>,
}

/// The slots from `from` to below `to`.
fn slots(from: usize, to: usize) -> u64 {
    (from..to).fold(0, |word, j| word | 1 << j)
}

fn one(name: &'static str, rota: Rota) -> Family {
    Family { name, rotas: vec![rota] }
}

fn random(name: &'static str, make: impl Fn(&mut Random) -> Rota) -> Family {
    Family { name, rotas: (1..=RANDOM).map(|seed| make(&mut Random::new(seed))).collect() }
}

/// No callouts.
fn plain(n: usize, word: impl FnMut(usize) -> u64) -> Rota {
    Rota { opens: (0..n).map(word).collect(), callouts: vec![0; n] }
}

fn all_callouts(rota: Rota) -> Rota {
    Rota { callouts: rota.opens.clone(), opens: rota.opens }
}

/// `open` random slots for each item.
fn scattered(n: usize, open: usize, random: &mut Random) -> Rota {
    plain(n, |_| random.permutation(n)[..open].iter().fold(0, |word, j| word | 1 << j))
}

/// The same and the diagonal, so that a plan exists.
fn sparse(n: usize, open: usize, random: &mut Random) -> Rota {
    let mut rota = scattered(n, open, random);
    (0..n).for_each(|i| rota.opens[i] |= 1 << i);
    rota
}

/// The same with a random plan in place of the diagonal. Over the diagonal the first plan is the diagonal itself, and no search is
/// needed; this one is hard.
pub fn hidden(n: usize, open: usize, random: &mut Random) -> Rota {
    let mut rota = scattered(n, open, random);
    let plan = random.permutation(n);
    (0..n).for_each(|i| rota.opens[i] |= 1 << plan[i]);
    rota
}

/// Exactly so many random slots for each item, one of them that of a random plan.
fn exactly(n: usize, open: usize, random: &mut Random) -> Rota {
    let plan = random.permutation(n);
    plain(n, |i| {
        let others = random.permutation(n).into_iter().filter(|&j| j != plan[i]);
        others.take(open - 1).fold(1 << plan[i], |word, j| word | 1 << j)
    })
}

pub fn dense(n: usize) -> Rota {
    plain(n, |_| slots(0, n))
}

/// The last item alone may use the last slot: it is brittle, and there are as many plans as of one item less, every cell open.
pub fn brittle(n: usize) -> Rota {
    plain(n, |i| slots(0, if i + 1 < n { n - 1 } else { n }))
}

pub fn triangle_up(n: usize) -> Rota {
    plain(n, |i| slots(0, i + 1))
}

fn triangle_down(n: usize) -> Rota {
    plain(n, |i| slots(i, n))
}

fn cycle(n: usize) -> Rota {
    plain(n, |i| 1 << i | 1 << ((i + 1) % n))
}

fn chain_up(n: usize) -> Rota {
    plain(n, |i| slots(i, (i + 2).min(n)))
}

/// The items and the slots of a rota in random order.
fn scrambled(rota: Rota, random: &mut Random) -> Rota {
    let n = rota.opens.len();
    let (rows, columns) = (random.permutation(n), random.permutation(n));
    plain(n, |i| (0..n).filter(|j| rota.opens[rows[i]] >> j & 1 == 1).fold(0, |word, j| word | 1 << columns[j]))
}

fn random_callouts(mut rota: Rota, random: &mut Random) -> Rota {
    rota.callouts = rota.opens.iter().map(|word| word & random.word()).collect();
    rota
}

/// `items` random items have `few` slots among them; the others have all.
fn short(n: usize, items: usize, few: usize, random: &mut Random) -> Rota {
    let (rows, columns) = (random.permutation(n), random.permutation(n));
    let word = columns[..few].iter().fold(0, |word, j| word | 1 << j);
    plain(n, |i| if rows[i] < items { word } else { slots(0, n) })
}

/// All families of n items.
pub fn families(n: usize) -> Vec<Family> {
    vec![
        one("dense", dense(n)),
        random("random 3 and diagonal", |r| sparse(n, 3, r)),
        random("random 6 and diagonal", |r| sparse(n, 6, r)),
        random("random 32 and diagonal", |r| sparse(n, 32, r)),
        random("random 2 and a plan", |r| hidden(n, 2, r)),
        random("random 3 and a plan", |r| hidden(n, 3, r)),
        random("random 6 and a plan", |r| hidden(n, 6, r)),
        random("random 32 and a plan", |r| hidden(n, 32, r)),
        one("triangle up", triangle_up(n)),
        one("triangle down", triangle_down(n)),
        random("scrambled triangle", |r| scrambled(triangle_up(n), r)),
        one("cycle", cycle(n)),
        random("scrambled cycle", |r| scrambled(cycle(n), r)),
        one("chain up", chain_up(n)),
        one("chain down", plain(n, |i| slots(n - 1 - i, (n + 1 - i).min(n)))),
        random("scrambled chain", |r| scrambled(chain_up(n), r)),
        one("dense, all callouts", all_callouts(dense(n))),
        random("random 6 and diagonal, all callouts", |r| all_callouts(sparse(n, 6, r))),
        random("random 6 and a plan, all callouts", |r| all_callouts(hidden(n, 6, r))),
        random("random 6 and diagonal, random callouts", |r| random_callouts(sparse(n, 6, r), r)),
        random("random 3 and a plan, random callouts", |r| random_callouts(hidden(n, 3, r), r)),
        random("random 6 and a plan, random callouts", |r| random_callouts(hidden(n, 6, r), r)),
        random("scrambled triangle, random callouts", |r| random_callouts(scrambled(triangle_up(n), r), r)),
        random("short: 33 items, 32 slots", |r| short(n, n / 2 + 1, n / 2, r)),
        random("short: 48 items, 8 slots", |r| short(n, n * 3 / 4, n / 8, r)),
        one("short: the last item", plain(n, |i| slots(i.min(n - 2), (i + 2).min(n - 1)))),
        random("short: random 2", |r| scattered(n, 2, r)),
    ]
}

/// The diagonal is the only plan, and its cells alone are callouts: each round of the search for the fewest callouts serves one item.
pub fn hardest(n: usize) -> Rota {
    let opens = triangle_up(n).opens;
    Rota { opens, callouts: (0..n).map(|i| 1 << i).collect() }
}

/// The last item may use slot 0 alone, and moves every other item on by one slot: the longest chain that a search can meet.
fn longest(n: usize) -> Rota {
    plain(n, |i| if i == n - 1 { 1 } else { slots(i, i + 2) })
}

/// The families that are counted.
pub fn counted(n: usize) -> Vec<Family> {
    vec![one("dense", dense(n)), random("random 6 and a plan", |r| hidden(n, 6, r)), one("triangle up", triangle_up(n))]
}

/// The families that are counted without a tally, beside the count with one.
pub fn untallied(n: usize) -> Vec<Family> {
    vec![
        one("dense", dense(n)),
        one("10 slots an item", exactly(n, 10.min(n), &mut Random::new(1))),
        one("4 slots an item", exactly(n, 4, &mut Random::new(1))),
        one("3 slots an item", exactly(n, 3, &mut Random::new(1))),
        one("cycle", cycle(n)),
        one("triangle up", triangle_up(n)),
    ]
}

/// The families that go to the programs in C, of n items.
pub fn lent(n: usize) -> Vec<Family> {
    let mut list = if n == 64 { families(n) } else { small(n) };
    list.push(one("triangle up, callouts on the diagonal alone", hardest(n)));
    list.push(one("longest chain", longest(n)));
    list
}

/// The same where n is below the 32 slots that some families have.
fn small(n: usize) -> Vec<Family> {
    vec![
        one("dense", dense(n)),
        random("random 6 and a plan", |r| hidden(n, 6, r)),
        random("random 6 and a plan, random callouts", |r| random_callouts(hidden(n, 6, r), r)),
        random("scrambled triangle, random callouts", |r| random_callouts(scrambled(triangle_up(n), r), r)),
        one("cycle", cycle(n)),
        random("scrambled cycle", |r| scrambled(cycle(n), r)),
        random("scrambled chain", |r| scrambled(chain_up(n), r)),
        random("short: random 2", |r| scattered(n, 2, r)),
    ]
}
