//! Wrong pages: other lengths, further bytes, the order of the tests, a page written with a refusal.

use super::{sheet_of, success, Fault, Input, PlanSheet, Reply, LINE, LONGEST};

pub fn lengths() -> Vec<Fault> {
    [further_bytes(), other_lengths()].into_iter().flatten().collect()
}

pub fn refused() -> Vec<Fault> {
    [orders(), written_on_refusal()].into_iter().flatten().collect()
}

/// What lies behind the sheet on a longer page.
fn further_bytes() -> Vec<Fault> {
    let filled = |name: &str, byte: u8, room: fn(&Input) -> usize| {
        success(name, move |input, reply| {
            let bytes = room(input).clamp(reply.bytes.len(), input.room[0]);
            reply.bytes.resize(bytes, byte);
        })
    };
    vec![
        filled("further bytes cleared to spaces", b' ', |input| input.room[0]),
        filled("further bytes cleared to 0", 0, |input| input.room[0]),
        filled("a further line feed", b'\n', |input| input.needed() + 1),
        filled("a further space", b' ', |input| input.needed() + 1),
        filled("a further line cleared to spaces", b' ', |input| input.needed() + LINE),
        filled("2,080 bytes cleared to spaces", b' ', |_| LONGEST),
        success("the last byte of a longer page written", |input, reply| {
            let further = reply.bytes.len()..input.room[0].saturating_sub(1);
            if input.room[0] > reply.bytes.len() {
                reply.kept = further.collect();
                reply.bytes.resize(input.room[0], b'\n');
            }
        }),
    ]
}

/// Other lengths of the page accepted and refused.
fn other_lengths() -> Vec<Fault> {
    let accepted = |name: &str, enough: fn(usize, usize) -> bool| {
        Fault::of(PlanSheet, name, move |input, reply| {
            if reply.code == 15 && enough(input.room[0], input.known.n()) && input.known.is_plan(&input.given) {
                *reply = Reply::right(input, 0);
                reply.bytes.truncate(input.room[0]);
            }
        })
    };
    let accepted_alone = |name: &str, enough: fn(usize, usize) -> bool| {
        Fault::of(PlanSheet, name, move |input, reply| {
            if reply.code == 15 && enough(input.room[0], input.known.n()) {
                reply.code = 0;
            }
        })
    };
    let refused = |name: &str, short: fn(usize, usize) -> bool| {
        success(name, move |input, reply| {
            if short(input.room[0], input.needed()) {
                *reply = Reply::right(input, 15);
            }
        })
    };
    vec![
        accepted("a page of n lines accepted", |room, n| room >= n * LINE),
        accepted("a page of exactly n lines accepted", |room, n| room == n * LINE),
        accepted("a page whose last line alone is short accepted", |room, n| room > n * LINE),
        accepted("a page without the last line feed accepted", |room, n| room == n * LINE + LINE - 1),
        accepted("a page with the last mark accepted", |room, n| room == n * LINE + 13),
        accepted("a page for the heading accepted", |room, _| room >= LINE),
        accepted("a page of one byte accepted", |room, _| room > 0),
        accepted("an empty page accepted", |room, _| room == 0),
        accepted("every page accepted", |_, _| true),
        Fault::of(PlanSheet, "the whole sheet written on a short page", |input, reply| {
            if reply.code == 15 && input.room[0] > 0 && input.known.is_plan(&input.given) {
                *reply = Reply::right(input, 0);
            }
        }),
        accepted_alone("nothing written on a short page, but 0 given", |_, _| true),
        accepted_alone("nothing written on an empty page, but 0 given", |room, _| room == 0),
        refused("a page longer than needed refused", |room, needed| room > needed),
        refused("a page one byte longer refused", |room, needed| room == needed + 1),
        refused("an exact page refused", |room, needed| room == needed),
        refused("a page without a further line refused", |room, needed| room < needed + LINE),
        refused("a page of fewer than 2,080 bytes refused", |room, _| room < LONGEST),
        refused("a page of more than 2,080 bytes refused", |room, _| room > LONGEST),
        refused("a page of a broken number of lines refused", |room, _| room % LINE != 0),
        refused("the length cut to 8 bits", |room, needed| room % (1 << 8) < needed),
        refused("the length cut to 16 bits", |room, needed| room % (1 << 16) < needed),
    ]
}

/// Tests in another order, neighbours exchanged aside, and tests left out.
fn orders() -> Vec<Fault> {
    let other: [&[u32]; 8] = [
        &[15, 1, 2, 3, 4, 8],
        &[1, 15, 2, 3, 4, 8],
        &[1, 2, 15, 3, 4, 8],
        &[1, 2, 3, 8, 4, 15],
        &[1, 2, 8, 3, 4, 15],
        &[1, 2, 3, 15, 8, 4],
        &[1, 2, 4, 15, 8],
        &[1, 2, 3, 15, 8],
    ];
    let mut list = vec![];
    for order in other {
        list.push(Fault::of(PlanSheet, &format!("the tests {order:?}"), move |input, reply| {
            *reply = Reply::right(input, input.refusal_in(order));
        }));
    }
    for number in 1..=4 {
        list.push(Fault::of(PlanSheet, &format!("15 for {number} on a short page"), move |input, reply| {
            if reply.code == number && input.room[0] < input.needed() {
                reply.code = 15;
            }
        }));
        list.push(Fault::of(PlanSheet, &format!("0 for {number}"), move |_, reply| {
            reply.code = if reply.code == number { 0 } else { reply.code };
        }));
    }
    for number in [3, 4] {
        list.push(Fault::of(PlanSheet, &format!("{number} not tested for a complete plan"), move |input, reply| {
            if reply.code == number && input.known.is_plan(&input.given) {
                *reply = Reply::right(input, input.refusal_in(&[15]));
            }
        }));
    }
    list
}

/// A page written with a refusal.
fn written_on_refusal() -> Vec<Fault> {
    let written = |name: &str, number: u32, change: fn(&Input, &mut Reply)| {
        Fault::of(PlanSheet, &format!("{name} with {number}"), move |input, reply| {
            if reply.code == number {
                change(input, reply);
                reply.bytes.truncate(input.room[0]);
            }
        })
    };
    let mut list = vec![];
    for number in [1, 2, 3, 4, 15, 8] {
        list.extend([
            written("the page cleared to spaces", number, |input, reply| reply.bytes = vec![b' '; input.room[0]]),
            written("the page cleared to 0", number, |input, reply| reply.bytes = vec![0; input.room[0]]),
            written("the heading written", number, |_, reply| {
                reply.bytes = b"IT    SL    C                  \n".to_vec();
            }),
            written("the last byte of the page written", number, |input, reply| {
                reply.bytes = vec![b'\n'; input.room[0]];
                reply.kept = (0..input.room[0].saturating_sub(1)).collect();
            }),
        ]);
    }
    list.push(written("the lines before the first wrong item written", 8, |input, reply| {
        let n = input.known.n();
        let wrong = |&item: &usize| {
            let slot = input.given[item];
            !input.known.tables.is_open(item, slot.into()) || input.given[..item].contains(&slot)
        };
        let right = (0..n).find(wrong).unwrap_or(n);
        if right > 0 {
            reply.bytes = sheet_of(input, input.given);
            reply.bytes.truncate((right + 1) * LINE);
        }
    }));
    list.push(written("the whole lines that fit written", 15, |input, reply| {
        if input.known.is_plan(&input.given) {
            reply.bytes = sheet_of(input, input.given);
            reply.bytes.truncate(input.room[0] / LINE * LINE);
        }
    }));
    list.push(written("all bytes that fit written", 15, |input, reply| {
        if input.known.is_plan(&input.given) {
            reply.bytes = sheet_of(input, input.given);
        }
    }));
    list
}
