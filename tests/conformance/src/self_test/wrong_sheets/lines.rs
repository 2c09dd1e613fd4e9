//! Wrong lines: their columns, the heading, their ends, their order, and places that keep what the page held.

use super::{item_lines, success, Fault, LINE, LONGEST};

pub fn all() -> Vec<Fault> {
    [columns(), headings(), line_ends(), lines(), kept_bytes()].into_iter().flatten().collect()
}

/// A change of the heading.
fn heading(name: &str, change: impl Fn(&mut [u8]) + Send + Sync + 'static) -> Fault {
    success(name, move |_, reply| change(&mut reply.bytes[..LINE]))
}

/// A change of every line, the heading too.
fn every_line(name: &str, change: impl Fn(&mut [u8]) + Send + Sync + 'static) -> Fault {
    success(name, move |_, reply| reply.bytes.chunks_mut(LINE).for_each(&change))
}

fn columns() -> Vec<Fault> {
    vec![
        item_lines("the number one column to the right", |_, _, line| line[..3].rotate_right(1)),
        item_lines("the slot one column to the right", |_, _, line| line[6..9].rotate_right(1)),
        item_lines("the slot one column to the left", |_, _, line| line[5..8].rotate_left(1)),
        item_lines("the mark in column 13", |_, _, line| line.swap(12, 13)),
        item_lines("the mark in column 11", |_, _, line| line.swap(12, 11)),
        item_lines("number and slot exchanged", |_, _, line| {
            let (number, slot) = line.split_at_mut(6);
            number[..2].swap_with_slice(&mut slot[..2]);
        }),
        item_lines("two-digit numbers one column to the right", |_, item, line| {
            line[..3].rotate_right(usize::from(item > 9));
        }),
        item_lines("what follows a two-digit number one column to the right", |_, item, line| {
            line[2..31].rotate_right(usize::from(item > 9));
        }),
        item_lines("what follows a two-digit slot one column to the right", |input, item, line| {
            line[8..31].rotate_right(usize::from(input.given[item] > 9));
        }),
        every_line("all one column to the right", |line| line[..31].rotate_right(1)),
        every_line("a tab between the columns", |line| {
            (line[2], line[8]) = (b'\t', b'\t');
        }),
        every_line("a full stop in column 13", |line| line[13] = b'.'),
        every_line("a full stop in column 30", |line| line[30] = b'.'),
        every_line("0 for a space in column 30", |line| line[30] = 0),
        every_line("0 for every space", |line| {
            line.iter_mut().filter(|byte| **byte == b' ').for_each(|byte| *byte = 0);
        }),
    ]
}

fn headings() -> Vec<Fault> {
    vec![
        heading("a heading of spaces", |line| line[..31].fill(b' ')),
        heading("IT one column to the right", |line| line[..3].rotate_right(1)),
        heading("SL one column to the right", |line| line[6..9].rotate_right(1)),
        heading("SL one column to the left", |line| line[5..8].rotate_left(1)),
        heading("the heading's C in column 11", |line| line.swap(11, 12)),
        heading("the heading's C in column 13", |line| line.swap(12, 13)),
        heading("the heading without its C", |line| line[12] = b' '),
        heading("the heading in small letters", |line| line.make_ascii_lowercase()),
        heading("SLOT in the heading", |line| line[6..10].copy_from_slice(b"SLOT")),
        heading("the heading without a line feed", |line| line[31] = b' '),
        success("no heading, the last line left as it was", |_, reply| {
            reply.bytes.drain(..LINE);
        }),
        success("the heading below the items", |_, reply| reply.bytes.rotate_left(LINE)),
        success("the heading below too", |_, reply| reply.bytes.extend_from_within(..LINE)),
        success("the heading's C only if there is a callout", |input, reply| {
            if input.known.tables.callouts_of(&input.given) == 0 {
                reply.bytes[12] = b' ';
            }
        }),
    ]
}

fn line_ends() -> Vec<Fault> {
    let last = |name: &str, byte: u8| {
        success(name, move |_, reply| {
            let end = reply.bytes.len() - 1;
            reply.bytes[end] = byte;
        })
    };
    let mut list = vec![
        every_line("a space for the line feed", |line| line[31] = b' '),
        every_line("0 for the line feed", |line| line[31] = 0),
        every_line("a carriage return for the line feed", |line| line[31] = b'\r'),
        every_line("a carriage return before the line feed", |line| line[30] = b'\r'),
        every_line("the line feed in column 30", |line| line.swap(30, 31)),
        every_line("a line feed behind the mark too", |line| line[13] = b'\n'),
        item_lines("no line feed but the heading's", |_, _, line| line[31] = b' '),
        last("0 for the last line feed", 0),
        last("a space for the last line feed", b' '),
    ];
    list.push(success("0 behind the last line", |input, reply| {
        if input.room[0] > reply.bytes.len() {
            reply.bytes.push(0);
        }
    }));
    list.push(success("0 behind the last line, on an exact page too", |_, reply| reply.bytes.push(0)));
    list
}

fn lines() -> Vec<Fault> {
    let joined = |name: &str, change: fn(&[u8]) -> Vec<u8>| {
        success(name, move |_, reply| reply.bytes = reply.bytes.chunks(LINE).flat_map(change).collect())
    };
    vec![
        success("lines in the order of the slots", |input, reply| {
            let mut lines: Vec<(u8, Vec<u8>)> =
                input.given.iter().copied().zip(reply.bytes.chunks(LINE).skip(1).map(<[u8]>::to_vec)).collect();
            lines.sort();
            reply.bytes.truncate(LINE);
            reply.bytes.extend(lines.into_iter().flat_map(|(_, line)| line));
        }),
        success("the last item first", |_, reply| {
            let lines: Vec<u8> = reply.bytes.chunks(LINE).skip(1).rev().flatten().copied().collect();
            reply.bytes[LINE..].copy_from_slice(&lines);
        }),
        success("callouts first", |_, reply| {
            let mut lines: Vec<&[u8]> = reply.bytes.chunks(LINE).skip(1).collect();
            lines.sort_by_key(|line| line[12] != b'C');
            let lines = lines.concat();
            reply.bytes[LINE..].copy_from_slice(&lines);
        }),
        success("callouts alone", |_, reply| {
            reply.bytes = reply.bytes.chunks(LINE).filter(|line| line[12] == b'C').flatten().copied().collect();
        }),
        success("65 lines if the page has them", |input, reply| {
            let lines = (input.room[0].min(LONGEST) / LINE).max(reply.bytes.len() / LINE);
            let blank = [&[b' '; LINE - 1][..], b"\n"].concat();
            reply.bytes.extend(blank.repeat(lines - reply.bytes.len() / LINE));
        }),
        success("an empty line below if the page has it", |input, reply| {
            if input.room[0] >= reply.bytes.len() + LINE {
                reply.bytes.extend([&[b' '; LINE - 1][..], b"\n"].concat());
            }
        }),
        success("the last line left as it was", |_, reply| reply.bytes.truncate(reply.bytes.len() - LINE)),
        success("the last line feed left as it was", |_, reply| reply.bytes.truncate(reply.bytes.len() - 1)),
        success("64 lines at most", |_, reply| reply.bytes.truncate(64 * LINE)),
        success("the last line short", |_, reply| reply.bytes.truncate(reply.bytes.len() - (LINE - 13))),
        success("nothing written", |_, reply| reply.bytes.clear()),
        success("the heading alone", |_, reply| reply.bytes.truncate(LINE)),
        joined("lines of 31 bytes", |line| [&line[..30], b"\n"].concat()),
        joined("lines of 14 bytes", |line| [&line[..13], b"\n"].concat()),
        joined("lines of 33 bytes", |line| [&line[..31], b"\r\n"].concat()),
        joined("spaces at the end left out", |line| [line.trim_ascii_end(), b"\n"].concat()),
    ]
}

/// Places of the lines that keep what the page held.
fn kept_bytes() -> Vec<Fault> {
    let kept = |name: &str, at: fn(usize, usize, u8) -> bool| {
        success(name, move |_, reply| {
            let places = reply.bytes.iter().enumerate();
            reply.kept =
                places.filter(|(place, byte)| at(place / LINE, place % LINE, **byte)).map(|(at, _)| at).collect();
        })
    };
    vec![
        kept("spaces left as they were", |_, _, byte| byte == b' '),
        kept("columns 13 to 30 left as they were", |_, column, _| (13..31).contains(&column)),
        kept("column 30 left as it was", |_, column, _| column == 30),
        kept("column 2 left as it was", |_, column, _| column == 2),
        kept("column 12 left as it was without a callout", |_, column, byte| column == 12 && byte == b' '),
        kept("column 0 left as it was for one digit", |_, column, byte| column == 0 && byte == b' '),
        kept("column 6 left as it was for one digit", |_, column, byte| column == 6 && byte == b' '),
        kept("line feeds left as they were", |_, column, _| column == 31),
        kept("the heading left as it was", |line, _, _| line == 0),
        kept("line 64 left as it was", |line, _, _| line == 64),
        kept("byte 2,047 left as it was", |line, column, _| line * LINE + column == 2_047),
        kept("byte 255 left as it was", |line, column, _| line * LINE + column == 255),
    ]
}
