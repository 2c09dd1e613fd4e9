//! Wrong tallies: other words with a success, words written with a refusal.

use super::{last_test, none, success, Call, Fault, Input, Tables, NUMBERS};
use crate::reference::numbers;

/// Other words with a success.
pub fn written() -> Vec<Fault> {
    NUMBERS.into_iter().flat_map(other_words).collect()
}

/// Words that should be kept.
pub fn kept() -> Vec<Fault> {
    NUMBERS.into_iter().flat_map(kept_words).collect()
}

fn other_words(call: Call) -> Vec<Fault> {
    let words =
        |name: &str, other: fn(&Input) -> Vec<u64>| success(call, name, move |input, reply| reply.words = other(input));
    let over = |name: &str, opens: fn(&Input) -> Vec<u64>| {
        success(call, name, move |input, reply| reply.words = numbers::tally(&Tables::open(&opens(input))))
    };
    let changed = |name: &str, change: fn(&mut Vec<u64>)| success(call, name, move |_, reply| change(&mut reply.words));
    vec![
        words("the first items' tally", |input| input.known.tally().to_vec()),
        words("the tally kept", |_| vec![]),
        words("the words of the slots that are left", |input| input.known.last_tally().iter().rev().copied().collect()),
        words("the first items' words for half of the slots or fewer", |input| {
            let (first, last) = (input.known.tally(), input.known.last_tally());
            let half = |set: usize| 2 * set.count_ones() as usize <= input.known.n();
            (0..last.len()).map(|set| if half(set) { first[set] } else { last[set] }).collect()
        }),
        words("the ways that complete plans have alone", |input| {
            let (first, last) = (input.known.tally(), input.known.last_tally());
            (0..last.len()).map(|set| if first[last.len() - 1 - set] == 0 { 0 } else { last[set] }).collect()
        }),
        over("the tally without the last item", |input| {
            let mut opens = input.known.tables.opens.clone();
            opens.rotate_right(1);
            opens
        }),
        over("callouts not open in the tally", |input| {
            let rota = &input.known.tables;
            rota.opens.iter().zip(&rota.callouts).map(|(open, callout)| open & !callout).collect()
        }),
        over("usable slots alone in the tally", |input| input.known.usable().to_vec()),
        changed("no way for the empty set", |words| words[0] = 0),
        changed("the last word of the tally kept", |words| words.truncate(words.len() - 1)),
        changed("no way for all slots", |words| *words.last_mut().expect("a word") = 0),
        changed("words of 8 bits", |words| words.iter_mut().for_each(|word| *word %= 1 << 8)),
        changed("words of 32 bits", |words| words.iter_mut().for_each(|word| *word %= 1 << 32)),
        changed("1 for every word above it", |words| words.iter_mut().for_each(|word| *word = (*word).min(1))),
    ]
}

/// The tally written with a refusal, and words behind it with a success.
fn kept_words(call: Call) -> Vec<Fault> {
    let mut list = vec![];
    let last = last_test(call);
    let touched = |name: String, code: u32, words: fn(&Input) -> Vec<u64>, test: fn(&Input) -> bool| {
        Fault::of(call, &name, move |input, reply| {
            if reply.code == code && test(input) {
                reply.words = words(input);
                reply.words.truncate(input.tally_words);
            }
        })
    };
    let filled: fn(&Input) -> Vec<u64> = |input| input.known.last_tally().to_vec();
    list.push(touched(format!("the tally filled with {last}"), last, filled, |_| true));
    list.push(touched(format!("the tally filled with {last} but for no plan"), last, filled, |input| !none(input)));
    list.push(touched(format!("the tally filled with {last} for no plan"), last, filled, none));
    let first: fn(&Input) -> Vec<u64> = |input| input.known.tally().to_vec();
    list.push(touched(format!("the first items' tally with {last}"), last, first, |_| true));
    for code in [6, last] {
        let name = format!("the tally cleared with {code}");
        list.push(touched(name, code, |input| vec![0; input.tally_words], |_| true));
        list.push(touched(format!("word 0 written with {code}"), code, |_| vec![1], |_| true));
    }
    list.push(success(call, "further words cleared", |input, reply| reply.words.resize(input.tally_words, 0)));
    list.push(success(call, "a further word written", |input, reply| {
        if input.tally_words > reply.words.len() {
            reply.words.push(1);
        }
    }));
    list
}
