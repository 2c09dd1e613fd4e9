//! Wrong entries of a line: its marks and its numbers.

use super::{begin, item_lines, sheet_of, success, Fault, Input};
use crate::rota::has;

pub fn all() -> Vec<Fault> {
    [marks(), numbers()].into_iter().flatten().collect()
}

/// Another text for the item's number and for its slot.
fn texts(name: &str, other: fn(usize) -> String) -> [Fault; 2] {
    let put = move |line: &mut [u8], number: usize| line.copy_from_slice(&other(number).as_bytes()[..2]);
    [
        item_lines(&format!("item number: {name}"), move |_, item, line| put(&mut line[..2], item)),
        item_lines(&format!("slot: {name}"), move |input, item, line| put(&mut line[6..8], input.given[item].into())),
    ]
}

/// Other marks, from the tables and the plan.
fn other_marks(name: &str, marked: impl Fn(&Input, usize, usize) -> bool + Send + Sync + 'static) -> Fault {
    item_lines(name, move |input, item, line| {
        line[12] = if marked(input, item, input.given[item].into()) { b'C' } else { b' ' };
    })
}

fn marks() -> Vec<Fault> {
    let mut list = vec![
        other_marks("no mark", |_, _, _| false),
        other_marks("a mark for every open cell", |input, item, slot| input.known.tables.is_open(item, slot)),
        other_marks("marks and none exchanged", |input, item, slot| !input.known.tables.is_callout(item, slot)),
        other_marks("the mark of slot i", |input, item, _| input.known.tables.is_callout(item, item)),
        other_marks("the mark of slot 0", |input, item, _| input.known.tables.is_callout(item, 0)),
        other_marks("the mark of the next slot", |input, item, slot| input.known.tables.is_callout(item, slot + 1)),
        other_marks("item and slot exchanged for the mark", |input, item, slot| {
            input.known.tables.is_callout(slot, item)
        }),
        other_marks("the next item's callouts", |input, item, slot| {
            input.known.tables.is_callout((item + 1) % input.known.n(), slot)
        }),
        other_marks("the first item's callouts", |input, _, slot| input.known.tables.is_callout(0, slot)),
        other_marks("the next line's mark", |input, item, _| {
            let next = (item + 1) % input.known.n();
            input.known.tables.is_callout(next, input.given[next].into())
        }),
        other_marks("a mark if any of the item's slots is a callout", |input, item, _| {
            input.known.tables.callouts[item] != 0
        }),
        other_marks("a mark if all of the item's slots are callouts", |input, item, _| {
            input.known.tables.callouts[item] == input.known.tables.opens[item]
        }),
        other_marks("a mark if the plan has any callout", |input, _, _| {
            input.known.tables.callouts_of(&input.given) > 0
        }),
        other_marks("slots modulo 32 for the mark", |input, item, slot| input.known.tables.is_callout(item, slot % 32)),
        other_marks("no mark at slot 63", |input, item, slot| slot < 63 && input.known.tables.is_callout(item, slot)),
        other_marks("no mark for item 63", |input, item, slot| item < 63 && input.known.tables.is_callout(item, slot)),
        other_marks("no mark after the first", |input, item, slot| {
            let marked = |item: usize| input.known.tables.is_callout(item, input.given[item].into());
            has(input.known.tables.callouts[item], slot) && !(0..item).any(marked)
        }),
    ];
    for mark in ["c", "*", "X", "1", "\0"] {
        list.push(item_lines(&format!("{mark:?} for C"), move |_, _, line| {
            line[12] = if line[12] == b'C' { mark.as_bytes()[0] } else { line[12] };
        }));
    }
    for mark in ["-", "0", "O", "\0"] {
        list.push(item_lines(&format!("{mark:?} for no mark"), move |_, _, line| {
            line[12] = if line[12] == b'C' { b'C' } else { mark.as_bytes()[0] };
        }));
    }
    list
}

fn numbers() -> Vec<Fault> {
    let ascii = |tens: u8, ones: u8| String::from_utf8(vec![tens, ones]).expect("ASCII");
    let mut list: Vec<Fault> = [
        texts("left-aligned", |number| format!("{number:<2}")),
        texts("zero-padded", |number| format!("{number:02}")),
        texts("counted from 1", |number| format!("{:>2}", number + 1)),
        texts("0 left out", |number| if number == 0 { "  ".into() } else { format!("{number:>2}") }),
        texts("the last digit alone", |number| format!("{:>2}", number % 10)),
        texts("the first digit twice", |number| number.to_string()[..1].repeat(2)),
        texts("digits exchanged", |number| format!("{number:<2}").chars().rev().collect()),
        texts("hexadecimal", |number| format!("{number:>2x}")),
        texts("octal", |number| format!("{number:>2o}")),
        texts("modulo 8", |number| format!("{:>2}", number % 8)),
        texts("modulo 32", |number| format!("{:>2}", number % 32)),
        texts("9 as two digits", |number| if number == 9 { "09".into() } else { format!("{number:>2}") }),
        texts("9 as 10", |number| format!("{:>2}", if number == 9 { 10 } else { number })),
        texts("10 as 1", |number| format!("{:>2}", if number == 10 { 1 } else { number })),
        texts("63 as 3", |number| format!("{:>2}", if number == 63 { 3 } else { number })),
        texts("the tens lost from 60 on", |number| format!("{:>2}", if number > 59 { number % 10 } else { number })),
    ]
    .into_iter()
    .flatten()
    .collect();
    list.push(item_lines("10 as the character behind 9, number", move |_, item, line| {
        begin(line, &if item == 10 { ascii(b' ', b'9' + 1) } else { format!("{item:>2}") });
    }));
    list.push(item_lines("10 as the character behind 9, slot", move |input, item, line| {
        let slot = input.given[item];
        begin(&mut line[6..], &if slot == 10 { ascii(b' ', b'9' + 1) } else { format!("{slot:>2}") });
    }));
    list.push(item_lines("the item's number for its slot", |_, item, line| {
        begin(&mut line[6..], &format!("{item:>2}"))
    }));
    list.push(item_lines("the next item's slot", |input, item, line| {
        let slot = input.given[(item + 1) % input.known.n()];
        begin(&mut line[6..], &format!("{slot:>2}"));
    }));
    list.push(success("the first plan's slots", |input, reply| {
        reply.bytes = sheet_of(input, input.known.first().expect("a plan"));
    }));
    list.push(success("the last plan's slots", |input, reply| {
        reply.bytes = sheet_of(input, input.known.last().expect("a plan"));
    }));
    list.push(success("the next plan's slots", |input, reply| {
        reply.bytes = sheet_of(input, input.known.next(&input.given).unwrap_or(input.given));
    }));
    list
}
