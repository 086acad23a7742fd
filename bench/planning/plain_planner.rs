//! What `exchange plan FILE` does with one worker, in plain Rust that is written for speed: the
//! same algorithm, the same text in and the same text out, byte for byte. Numbers are of 16 bits or
//! fewer, members are permuted in place, all colours lie in one table whose room is taken once, and
//! bytes are read and written by hand.

use std::io::Write;
use std::process::ExitCode;

const MODULES: usize = 32;
const BLOCKS: usize = 64;
const LINKS: usize = 2 * MODULES;
const MAX_TRANSFERS: usize = 4096;
const NONE: u16 = u16::MAX;

/// Of a transfer, the places of its two links in a row: first its initiator's link 0,
/// then its responder's link 3.
type Ends = [u8; 2];

/// The transfers of a colour, each at its two links.
type Row = [u16; LINKS];

// ---- the batch's text

enum Fault {
    Line(usize),
    TooMany,
    NoModule(usize),
    NoBlock(usize),
    Count,
}

/// A number of at most nine digits and the byte that ends it, and the rest.
fn number(text: &[u8], end: u8) -> Option<(usize, &[u8])> {
    let mut n = 0;
    for (i, byte) in text.iter().enumerate().take(10) {
        let digit = byte.wrapping_sub(b'0');
        if digit > 9 {
            let right = *byte == end && i > 0 && (i == 1 || text[0] != b'0');
            return right.then(|| (n, &text[i + 1..]));
        }
        n = n * 10 + usize::from(digit);
    }
    None
}

fn transfer(line: &[u8]) -> Option<([usize; 4], &[u8])> {
    let rest = line.strip_prefix(b"push ").or_else(|| line.strip_prefix(b"pull "))?;
    let (initiator, rest) = number(rest, b' ')?;
    let (own_block, rest) = number(rest, b' ')?;
    let (responder, rest) = number(rest, b' ')?;
    let (far_block, rest) = number(rest, b'\n')?;
    Some(([initiator, own_block, responder, far_block], rest))
}

fn read(text: &[u8]) -> Result<Vec<Ends>, Fault> {
    let head = text.strip_prefix(b"batch ").and_then(|rest| number(rest, b'\n'));
    let (count, mut rest) = head.ok_or(Fault::Line(1))?;
    if count > MAX_TRANSFERS {
        return Err(Fault::TooMany);
    }
    let mut ends = Vec::with_capacity(count);
    for t in 0..count {
        if rest.is_empty() {
            return Err(Fault::Count);
        }
        let ([initiator, own_block, responder, far_block], after) =
            transfer(rest).ok_or(Fault::Line(t + 2))?;
        if initiator >= MODULES || responder >= MODULES {
            return Err(Fault::NoModule(t));
        }
        if own_block >= BLOCKS || far_block >= BLOCKS {
            return Err(Fault::NoBlock(t));
        }
        ends.push([initiator as u8, (MODULES + responder) as u8]);
        rest = after;
    }
    if rest.is_empty() { Ok(ends) } else { Err(Fault::Count) }
}

// ---- halves

/// The room that splitting takes: by places, the partners at both ends, the halves,
/// and the members of the right half.
struct Scratch {
    partners: [[u16; 2]; MAX_TRANSFERS],
    in_left: [Option<bool>; MAX_TRANSFERS],
    right: [u16; MAX_TRANSFERS],
}

/// Pairs the places of members at each link, two by two.
fn pair(ends: &[Ends], members: &[u16], partners: &mut [[u16; 2]]) {
    let mut waiting = [NONE; LINKS];
    for (place, t) in members.iter().enumerate() {
        for (end, link) in ends[usize::from(*t)].into_iter().enumerate() {
            let earlier = &mut waiting[usize::from(link)];
            partners[place][end] = *earlier;
            if *earlier == NONE {
                *earlier = place as u16;
            } else {
                partners[usize::from(*earlier)][end] = place as u16;
                *earlier = NONE;
            }
        }
    }
}

/// Puts places into the halves in turn, from `start` on, which is left by this end.
fn walk(partners: &[[u16; 2]], in_left: &mut [Option<bool>], start: usize, end: usize) {
    let (mut place, mut end, mut half) = (start, end, true);
    loop {
        place = usize::from(partners[place][end]);
        if place == usize::from(NONE) || in_left[place].is_some() {
            return;
        }
        half = !half;
        in_left[place] = Some(half);
        end = 1 - end;
    }
}

/// Permutes the members so that those of the left half stand in front, and says how many these are.
fn split(ends: &[Ends], members: &mut [u16], scratch: &mut Scratch) -> usize {
    let partners = &mut scratch.partners[..members.len()];
    let in_left = &mut scratch.in_left[..members.len()];
    pair(ends, members, partners);
    in_left.fill(None);
    for start in 0..members.len() {
        if in_left[start].is_none() {
            in_left[start] = Some(true);
            walk(partners, in_left, start, 1);
            walk(partners, in_left, start, 0);
        }
    }
    let (mut left, mut right) = (0, 0);
    for place in 0..members.len() {
        if in_left[place] == Some(true) {
            members[left] = members[place];
            left += 1;
        } else {
            scratch.right[right] = members[place];
            right += 1;
        }
    }
    members[left..].copy_from_slice(&scratch.right[..right]);
    left
}

// ---- colours

fn degree(ends: &[Ends], members: &[u16]) -> u16 {
    let mut uses = [0; LINKS];
    for t in members {
        let [start, answer] = ends[usize::from(*t)];
        uses[usize::from(start)] += 1;
        uses[usize::from(answer)] += 1;
    }
    uses.into_iter().max().unwrap_or(0)
}

fn class_size(row: &Row) -> u16 {
    row[..MODULES].iter().map(|t| u16::from(*t != NONE)).sum()
}

/// Takes the smallest class out, the first among equals.
fn take_back(table: &mut Vec<Row>, base: usize) -> Row {
    let mut smallest = base;
    let mut least = class_size(&table[base]);
    for colour in base + 1..table.len() {
        let size = class_size(&table[colour]);
        if size < least {
            (smallest, least) = (colour, size);
        }
    }
    table.remove(smallest)
}

/// Gives a transfer a colour that is free at its first link, and those in the way another.
fn insert(ends: &[Ends], rows: &mut [Row], t: u16) {
    let free =
        |rows: &[Row], place: u8| rows.iter().position(|row| row[usize::from(place)] == NONE);
    let links = ends[usize::from(t)];
    let mut colour = free(rows, links[0]).unwrap();
    let mut other = free(rows, links[1]).unwrap();
    let (mut hand, mut end) = (t, 1);
    loop {
        let links = ends[usize::from(hand)];
        let row = &mut rows[colour];
        let next = row[usize::from(links[end])];
        if next != NONE {
            let links = ends[usize::from(next)];
            row[usize::from(links[0])] = NONE;
            row[usize::from(links[1])] = NONE;
        }
        row[usize::from(links[0])] = hand;
        row[usize::from(links[1])] = hand;
        if next == NONE {
            return;
        }
        hand = next;
        end = 1 - end;
        (colour, other) = (other, colour);
    }
}

/// Colours a part, by rows behind those that the table has.
fn colour(
    ends: &[Ends],
    members: &mut [u16],
    known: Option<u16>,
    table: &mut Vec<Row>,
    scratch: &mut Scratch,
) {
    let degree = known.unwrap_or_else(|| degree(ends, members));
    if degree <= 1 {
        let mut row = [NONE; LINKS];
        for t in members {
            let [start, answer] = ends[usize::from(*t)];
            row[usize::from(start)] = *t;
            row[usize::from(answer)] = *t;
        }
        table.push(row);
        return;
    }
    let base = table.len();
    let half = (degree % 2 == 0).then_some(degree / 2);
    let middle = split(ends, members, scratch);
    let (left, right) = members.split_at_mut(middle);
    colour(ends, left, half, table, scratch);
    colour(ends, right, half, table, scratch);
    if table.len() - base > usize::from(degree) {
        let class = take_back(table, base);
        for t in &class[..MODULES] {
            if *t != NONE {
                insert(ends, &mut table[base..], *t);
            }
        }
    }
}

// ---- the schedule's text

fn put_number(text: &mut Vec<u8>, n: u16) {
    let mut digits = [0; 5];
    let mut at = digits.len();
    let mut n = n;
    loop {
        at -= 1;
        digits[at] = b'0' + (n % 10) as u8;
        n /= 10;
        if n == 0 {
            break;
        }
    }
    text.extend_from_slice(&digits[at..]);
}

fn put_numbers(text: &mut Vec<u8>, numbers: &[u16]) {
    for n in numbers {
        text.push(b' ');
        put_number(text, *n);
    }
    text.push(b'\n');
}

/// The text of the colours that have a transfer, in the order of their least ones.
fn put_settings(text: &mut Vec<u8>, table: &[Row], count: usize) {
    let mut colours = vec![0; count];
    let mut sizes = vec![0; table.len()];
    for (colour, row) in table.iter().enumerate() {
        for t in &row[..MODULES] {
            if *t != NONE {
                colours[usize::from(*t)] = colour as u16;
                sizes[colour] += 1;
            }
        }
    }
    let mut begins = vec![NONE; table.len()];
    let mut settings = Vec::with_capacity(table.len());
    let mut sorted = vec![0; count];
    let mut end = 0;
    for (t, colour) in colours.into_iter().enumerate() {
        let begin = &mut begins[usize::from(colour)];
        if *begin == NONE {
            *begin = end;
            end += sizes[usize::from(colour)];
            settings.push(end);
        }
        sorted[usize::from(*begin)] = t as u16;
        *begin += 1;
    }
    text.extend_from_slice(b"settings ");
    put_number(text, settings.len() as u16);
    text.push(b'\n');
    let mut begin = 0;
    for end in settings {
        text.extend_from_slice(b"setting");
        put_numbers(text, &sorted[begin..usize::from(end)]);
        begin = usize::from(end);
    }
}

/// The text of the busiest link, the first among equals, and of the transfers that use it.
fn put_certificate(text: &mut Vec<u8>, ends: &[Ends]) {
    let mut uses = [0; LINKS];
    for [start, answer] in ends {
        uses[usize::from(*start)] += 1;
        uses[usize::from(*answer)] += 1;
    }
    let most = uses.into_iter().max().unwrap_or(0);
    if most == 0 {
        text.extend_from_slice(b"busiest none\n");
        return;
    }
    let link = uses.into_iter().position(|count| count == most).unwrap();
    text.extend_from_slice(b"busiest link ");
    put_number(text, if link < MODULES { 0 } else { 3 });
    text.extend_from_slice(b" module ");
    put_number(text, (link % MODULES) as u16);
    text.extend_from_slice(b"\nnamed");
    let mut named = Vec::with_capacity(most);
    for (t, links) in ends.iter().enumerate() {
        if usize::from(links[link / MODULES]) == link {
            named.push(t as u16);
        }
    }
    put_numbers(text, &named);
}

fn plan(ends: &[Ends]) -> Vec<u8> {
    let mut members: Vec<u16> = (0..ends.len() as u16).collect();
    let mut scratch = Box::new(Scratch {
        partners: [[NONE; 2]; MAX_TRANSFERS],
        in_left: [None; MAX_TRANSFERS],
        right: [0; MAX_TRANSFERS],
    });
    let mut table = Vec::with_capacity(usize::from(degree(ends, &members)) + 1);
    colour(ends, &mut members, None, &mut table, &mut scratch);
    let mut text = Vec::with_capacity(24 * ends.len() + 64);
    put_settings(&mut text, &table, ends.len());
    put_certificate(&mut text, ends);
    text
}

fn refusal(fault: Fault) -> String {
    match fault {
        Fault::Line(n) => format!("refused batch line {n}\n"),
        Fault::TooMany => "refused too many\n".into(),
        Fault::NoModule(t) => format!("refused no module {t}\n"),
        Fault::NoBlock(t) => format!("refused no block {t}\n"),
        Fault::Count => "refused count\n".into(),
    }
}

fn main() -> ExitCode {
    let file = std::env::args_os().nth(1).expect("a file");
    let batch = std::fs::read(file).expect("a file that can be read");
    let (text, status) = match read(&batch) {
        Ok(ends) => (plan(&ends), ExitCode::SUCCESS),
        Err(fault) => (refusal(fault).into_bytes(), ExitCode::from(1)),
    };
    std::io::stdout().write_all(&text).expect("an output");
    status
}
