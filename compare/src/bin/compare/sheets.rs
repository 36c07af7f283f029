//! Families of yard sheets, read and written.

use crate::calls::{Caller, Same};
use unrelated::damage;
use unrelated::random::{Random, Thin};
use unrelated::shapes::{self, Shape};
use unrelated::sheet::{unjudged, HEADER, MAX_SHEET_BYTES};
use unrelated::yard::{Yard, MAX_NODES};

/// Lists of any bytes, equally long: the sheets do not test parents, counts or depths.
fn any_yard(n: usize, random: &mut Random) -> Yard {
    let tops = [(); 4].map(|()| random.pick(&[2, 11, 101, 256, 256]));
    let [parents, pebbles, targets, depths] = tops.map(|top| (0..n).map(|_| random.below(top) as u8).collect());
    Yard { parents, pebbles, targets, depths }
}

fn any_size(random: &mut Random) -> usize {
    match random.below(12) {
        0 => MAX_NODES,
        1 => random.within(1, MAX_NODES),
        _ => shapes::size(1, 20, random),
    }
}

/// Lists for the reader: long enough, mostly just so, at times one that is too short.
fn any_lengths(random: &mut Random) -> [usize; 4] {
    let mut lengths = [(); 4].map(|()| if random.once_in(4) { random.within(MAX_NODES, 2 * MAX_NODES) } else { MAX_NODES });
    if random.once_in(16) {
        lengths[random.below(4)] = random.pick(&[0, 1, 100, MAX_NODES - 1]);
    }
    lengths
}

pub fn written(caller: &Caller, thin: Thin) -> Same<u64> {
    let mut random = Random::new(12);
    let cases = thin.of(60_000);
    for _ in 0..cases {
        let n = any_size(&mut random);
        let mut yard = any_yard(n, &mut random);
        let sheet = unjudged(&yard);
        caller.write_sheet(&yard, sheet.len())?;
        caller.read_sheet(&sheet, any_lengths(&mut random))?;
        let room = match random.below(4) {
            0 => sheet.len() - 1,
            1 => random.below(sheet.len()),
            2 => sheet.len() + random.within(1, 100),
            _ => MAX_SHEET_BYTES,
        };
        caller.write_sheet(&yard, room)?;
        if random.once_in(3) {
            damage::lists(&mut yard, &mut random);
            caller.write_sheet(&yard, room)?;
        }
    }
    Ok(cases)
}

pub fn damaged(caller: &Caller, thin: Thin) -> Same<u64> {
    let mut random = Random::new(13);
    let cases = thin.of(150_000);
    for _ in 0..cases {
        let n = any_size(&mut random);
        let mut sheet = if random.once_in(2) {
            unjudged(&any_yard(n, &mut random))
        } else {
            unjudged(&shapes::any_yard(random.pick(&Shape::ALL), n, &mut random))
        };
        damage::sheet(&mut sheet, &mut random);
        caller.read_sheet(&sheet, any_lengths(&mut random))?;
    }
    Ok(cases)
}

/// A sheet of two lines, ended after each of its bytes; with each byte changed to each value, left
/// out, and each value put in before it.
pub fn every_byte(caller: &Caller, thin: Thin) -> Same<u64> {
    let sheet = unjudged(&Yard { parents: vec![10, 9], pebbles: vec![255, 0], targets: vec![1, 249], depths: vec![8, 100] });
    let lengths = [MAX_NODES; 4];
    let (mut number, mut cases) = (0, 0);
    let mut read = |altered: &[u8]| -> Same {
        number += 1;
        if thin.keeps(number) {
            cases += 1;
            caller.read_sheet(altered, lengths)?;
        }
        Ok(())
    };
    for at in 0..=sheet.len() {
        let (front, rest) = sheet.split_at(at);
        read(front)?;
        for byte in 0..=255 {
            read(&[front, &[byte], rest].concat())?;
            if !rest.is_empty() {
                read(&[front, &[byte], &rest[1..]].concat())?;
            }
        }
        if !rest.is_empty() {
            read(&[front, &rest[1..]].concat())?;
        }
    }
    Ok(cases)
}

/// Every word of up to four characters, digits mostly, as each of the five values of a line.
pub fn every_value(caller: &Caller, thin: Thin) -> Same<u64> {
    let letters = b"0123456789 -";
    let words = (0..=4u32).flat_map(|length| {
        let base = letters.len();
        (0..base.pow(length)).map(move |code| (0..length).map(|at| letters[code / base.pow(at) % base]).collect::<Vec<u8>>())
    });
    let (mut number, mut cases) = (0, 0);
    for word in words {
        for place in 0..5 {
            number += 1;
            if !thin.keeps(number) {
                continue;
            }
            cases += 1;
            let mut values = [&b"0"[..]; 5];
            values[place] = &word;
            let sheet = [HEADER.as_bytes(), &values.join(&b' '), b"\n"].concat();
            caller.read_sheet(&sheet, [MAX_NODES; 4])?;
        }
    }
    Ok(cases)
}

/// Sheets with about as many lines as a sheet can have, and one that goes on far beyond that.
pub fn long(caller: &Caller, _: Thin) -> Same<u64> {
    let mut cases = 0;
    let lines: Vec<String> = (0..1000).map(|line| format!("{} 0 0 0 1\n", line % MAX_NODES)).collect();
    let ends = ["", "x", "\n", "256 0 0 0 1\n", "0 0 0 0 1", " "];
    for count in (250..262).chain([999]) {
        for end in ends {
            let sheet = format!("{HEADER}{}{end}", lines[..count].concat());
            caller.read_sheet(sheet.as_bytes(), [MAX_NODES; 4])?;
            cases += 1;
        }
    }
    Ok(cases)
}
