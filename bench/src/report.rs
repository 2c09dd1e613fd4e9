//! The tables, in Markdown, and at the end the limits beside what was measured.

use crate::timing::Times;

/// The library's time over Rust's.
const MOST_RATIO: f64 = 1.3;

/// The same for the sheet of 64 items.
const MOST_SHEET_RATIO: f64 = 1.5;

/// The time of a cell's plan over that of the first plan.
const MOST_FIRSTS: f64 = 1.5;

/// The time of the count of 20 items without a tally over that with one, by the family.
const MOST_TALLIED: [(&str, f64); 2] = [("dense", 1.6), ("4 slots an item", 1.0)];

/// The time of a plan by its number and of a plan's number, of 20 items, over that of the two counts together.
const MOST_COUNTS: f64 = 1.2;

/// The limit on the walk through a filled tally of 20 items, in µs.
const MOST_WALK: f64 = 1.0;

/// The limits on times, in µs, of 64 items.
const LIMITS: [(&str, f64); 6] =
    [("first", 6.0), ("next", 4.0), ("usable", 6.0), ("fewest", 20.0), ("closed cell", 0.5), ("cell outside", 0.5)];

struct Cell {
    call: &'static str,
    n: usize,
    family: &'static str,
    times: Times,
}

/// Prints the tables' cells, and keeps them.
pub struct Report {
    pub rounds: u32,
    cells: Vec<Cell>,
    firsts: Vec<(&'static str, f64)>,
    tallied: Vec<(usize, &'static str, f64)>,
    counted: Vec<Beside>,
    walks: Vec<Beside>,
}

/// A call's time of n items of a family: over another, or in µs.
struct Beside {
    call: &'static str,
    n: usize,
    family: &'static str,
    time: f64,
}

impl Report {
    pub fn new(rounds: u32) -> Self {
        Report {
            rounds,
            cells: Vec::new(),
            firsts: Vec::new(),
            tallied: Vec::new(),
            counted: Vec::new(),
            walks: Vec::new(),
        }
    }

    pub fn cell(&mut self, call: &'static str, n: usize, family: &'static str, times: Times) {
        print!(" {} | {} | {:.2} |", digits(times.library), digits(times.rust), times.ratio());
        self.cells.push(Cell { call, n, family, times });
    }

    /// A cell's plan, with the first plan of the same family before it, and how many times as long it takes after it.
    pub fn beside_first(&mut self, family: &'static str, cell: Times, first: Times) {
        let firsts = cell.library / first.library;
        print!(" {} |", digits(first.library));
        self.cell("cell", 64, family, cell);
        print!(" {firsts:.2} |");
        self.firsts.push((family, firsts));
    }

    /// The count without a tally, and how many times as long as the count with one it takes.
    pub fn beside_tally(&mut self, n: usize, family: &'static str, untallied: Times, tallied: Times) {
        let ratio = untallied.library / tallied.library;
        self.cell("count untallied", n, family, untallied);
        print!(" {ratio:.2} |");
        self.tallied.push((n, family, ratio));
    }

    /// A call for plan numbers, and how many times as long as the two counts together it takes.
    pub fn beside_counts(&mut self, call: &'static str, n: usize, family: &'static str, times: Times, counts: f64) {
        let time = times.library / counts;
        self.cell(call, n, family, times);
        print!(" {time:.2} |");
        self.counted.push(Beside { call, n, family, time });
    }

    /// The walk through a filled tally.
    pub fn walk(&mut self, call: &'static str, n: usize, family: &'static str, time: f64) {
        print!(" {} |", digits(time));
        self.walks.push(Beside { call, n, family, time });
    }

    /// The rows of the calls for plan numbers; what is above its limit goes to the list.
    fn number_limits(&self, above: &mut Vec<String>) {
        for call in ["plan at", "plan number"] {
            let times = self.counted.iter().filter(|row| row.n == 20 && row.call == call);
            println!("| {call} / both counts, n = 20 | {MOST_COUNTS} | {} |", range(times.clone().map(|row| row.time)));
            for Beside { family, time, .. } in times.filter(|row| row.time > MOST_COUNTS) {
                above.push(format!("{call}, n = 20, {family}: {time:.2} times as long as both counts"));
            }
        }
        for call in ["walk to a plan", "walk to a number"] {
            let walks = self.walks.iter().filter(|row| row.n == 20 && row.call == call);
            let worst = walks.max_by(|a, b| a.time.total_cmp(&b.time)).expect("every walk was timed");
            let Beside { family, time, .. } = worst;
            println!("| {call}, n = 20 | {MOST_WALK} µs | {} µs ({family}) |", digits(*time));
            if *time >= MOST_WALK {
                above.push(format!("{call}, n = 20, {family}: {} µs", digits(*time)));
            }
        }
    }

    /// The rows of the count without a tally; what is above its limit goes to the list.
    fn tallied_limits(&self, above: &mut Vec<String>) {
        for (family, limit) in MOST_TALLIED {
            let ratios = self.tallied.iter().filter(|row| row.0 == 20 && row.1 == family).map(|row| row.2);
            println!("| untallied / tallied count, n = 20, {family} | {limit:.1} | {} |", range(ratios.clone()));
            for ratio in ratios.filter(|&ratio| ratio > limit) {
                above.push(format!("count untallied, n = 20, {family}: {ratio:.2} times as long as with a tally"));
            }
        }
    }

    /// The worst of each call that has a limit, the ratios, and what is above its limit.
    pub fn limits(&self) {
        println!("\n### Limits\n\n| | limit | here |\n|---|--:|---|");
        let mut above = Vec::new();
        for (call, limit) in LIMITS {
            let cells = self.cells.iter().filter(|cell| cell.call == call && cell.n == 64);
            let worst = cells.max_by(|a, b| a.times.library.total_cmp(&b.times.library)).expect("every call was timed");
            let time = digits(worst.times.library);
            println!("| {call}, n = 64 | {limit} µs | {time} µs ({}) |", worst.family);
            if worst.times.library > limit {
                above.push(format!("{call}, n = 64, {}: {time} µs", worst.family));
            }
        }
        println!("| cell / first, n = 64 | {MOST_FIRSTS} | {} |", range(self.firsts.iter().map(|family| family.1)));
        for (family, firsts) in self.firsts.iter().filter(|family| family.1 > MOST_FIRSTS) {
            above.push(format!("cell, n = 64, {family}: {firsts:.2} times as long as first"));
        }
        self.tallied_limits(&mut above);
        self.number_limits(&mut above);
        let ratios: [(&str, f64, fn(&Cell) -> bool); 3] = [
            ("n = 64, sheet", MOST_SHEET_RATIO, |cell| cell.n == 64 && cell.call == "sheet"),
            ("n = 64, other calls", MOST_RATIO, |cell| cell.n == 64 && cell.call != "sheet"),
            ("n below 64", MOST_RATIO, |cell| cell.n < 64),
        ];
        for (which, limit, of) in ratios {
            let cells = self.cells.iter().filter(|cell| of(cell));
            println!("| library / Rust, {which} | {limit} | {} |", range(cells.clone().map(|cell| cell.times.ratio())));
            for Cell { call, n, family, times } in cells.filter(|cell| cell.times.ratio() > limit) {
                let (ratio, time) = (times.ratio(), digits(times.library));
                above.push(format!("{call}, n = {n}, {family}: ratio {ratio:.2} at {time} µs"));
            }
        }
        println!();
        if above.is_empty() {
            println!("Nothing is above its limit.");
        } else {
            println!("Above a limit:\n");
            above.iter().for_each(|line| println!("- {line}"));
        }
    }
}

fn range(ratios: impl Iterator<Item = f64> + Clone) -> String {
    let least = ratios.clone().fold(f64::INFINITY, f64::min);
    let most = ratios.fold(0.0, f64::max);
    format!("{least:.2} to {most:.2}")
}

pub fn digits(us: f64) -> String {
    if us < 100.0 {
        format!("{us:.2}")
    } else {
        format!("{us:.0}")
    }
}

/// The heading of a table that has the library's time, Rust's and their ratio of each call.
pub fn heading(title: &str, first: &str, calls: &[&str]) {
    let columns: Vec<&str> = calls.iter().flat_map(|&call| [call, "Rust", "ratio"]).collect();
    table(title, first, &columns);
}

pub fn table(title: &str, first: &str, columns: &[&str]) {
    println!("\n### {title}, µs a call\n\n| {first} | {} |", columns.join(" | "));
    println!("|---|{}", "--:|".repeat(columns.len()));
}

/// The machine, how many programs wanted to run in the last minute, and the rounds.
pub fn machine(rounds: u32) {
    let read = |path| std::fs::read_to_string(path).unwrap_or_default();
    let info = read("/proc/cpuinfo");
    let name = info.lines().find_map(|line| line.strip_prefix("model name")).unwrap_or("unknown");
    let name = name.trim_start_matches(|c: char| c.is_whitespace() || c == ':');
    let load = read("/proc/loadavg");
    let load = load.split(' ').next().unwrap_or("unknown");
    println!("Machine: {}, {name}; load {load}; {rounds} rounds", std::env::consts::ARCH);
}
