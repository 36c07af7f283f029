//! Yard sheets `NNN-name.yard`, each with what any supplier's move program must print for it,
//! `NNN-name.moves`.

use crate::must_meet;
use std::path::Path;
use unrelated::planner::{plan_by, Choice, Turn};
use unrelated::random::Random;
use unrelated::shapes::{self, Shape};
use unrelated::yard::{Yard, MAX_NODES};
use unrelated::{report, sheet};

/// Writes the sheets, and answers how many.
pub fn write(folder: &Path) -> std::io::Result<usize> {
    let mut sheets = Sheets::default();
    worked(&mut sheets);
    choices(&mut sheets);
    small(&mut sheets);
    large(&mut sheets);
    refused_yards(&mut sheets);
    refused_sheets(&mut sheets);
    // After the others, so the others keep their numbers; the later set after the earlier.
    reports(&mut sheets);
    neediest(&mut sheets);
    deep(&mut sheets);
    must_meet(&[0, 1, 4, 5, 6, 7, 8, 15, 16, 17, 26, 27], sheets.all.iter().map(|(_, sheet)| sheet::program(sheet)));
    sheets.write(folder)?;
    Ok(sheets.all.len())
}

#[derive(Default)]
struct Sheets {
    all: Vec<(String, Vec<u8>)>,
}

impl Sheets {
    /// A sheet whose answer begins as given: a case that is not what its name says is no use.
    fn add(&mut self, name: &str, sheet: Vec<u8>, begins: &str) {
        assert!(sheet::program(&sheet).starts_with(begins.as_bytes()), "{name} is not answered by {begins:?}");
        self.all.push((format!("{:03}-{name}", self.all.len() + 1), sheet));
    }

    fn yard(&mut self, name: &str, yard: &Yard) {
        let sheet = sheet::unjudged(yard);
        assert_eq!(report::judge(yard, &sheet::program(&sheet)), Ok(()), "{name}");
        self.add(name, sheet, "from to\n");
    }

    fn refused(&mut self, number: u32, name: &str, sheet: impl Into<Vec<u8>>) {
        self.add(&format!("refusal-{number}-{name}"), sheet.into(), &format!("refusal place\n{number} "));
    }

    /// Parents, then the nodes that hold pebbles, then the targets.
    fn tree(&mut self, name: &str, parents: &[u8], pebbles: &[usize], targets: &[usize]) {
        self.yard(name, &tree(parents, pebbles, targets));
    }

    /// A yard whose plan differs if the lowest-numbered child is chosen, with its first moves.
    fn choice(&mut self, name: &str, yard: &Yard, moves: &[[usize; 2]]) {
        assert!(differing(yard) > 0, "{name} does not show the choice");
        let lines: String = moves.iter().map(|[from, to]| format!("{from} {to}\n")).collect();
        let name = format!("neediest-{name}");
        self.yard(&name, yard);
        assert!(
            sheet::program(&sheet::unjudged(yard)).starts_with(format!("from to\n{lines}").as_bytes()),
            "{name} does not begin with {lines:?}"
        );
    }

    fn write(&self, folder: &Path) -> std::io::Result<()> {
        std::fs::create_dir_all(folder)?;
        for (name, sheet) in &self.all {
            std::fs::write(folder.join(format!("{name}.yard")), sheet)?;
            std::fs::write(folder.join(format!("{name}.moves")), sheet::program(sheet))?;
        }
        Ok(())
    }
}

fn tree(parents: &[u8], pebbles: &[usize], targets: &[usize]) -> Yard {
    let marks = |nodes: &[usize]| -> Vec<u8> { (0..parents.len()).map(|node| u8::from(nodes.contains(&node))).collect() };
    Yard::shallow(parents, &marks(pebbles), &marks(targets))
}

/// How many moves of the plan differ from the plan that chooses the lowest-numbered child.
fn differing(yard: &Yard) -> usize {
    let [neediest, lowest] = [Choice::Neediest, Choice::Lowest]
        .map(|choice| plan_by(choice, Turn::HoldsAndWanted, yard, usize::MAX).expect("a yard with a plan"));
    neediest.chunks(2).zip(lowest.chunks(2)).filter(|(one, other)| one != other).count()
}

/// The yards that document 01 works by hand, without those that are other calls on the same yard.
fn worked(sheets: &mut Sheets) {
    sheets.tree("yard-a", &[0, 0, 0, 1, 1], &[1, 3], &[2, 4]);
    sheets.tree("yard-b", &[0, 0, 1], &[0, 1], &[1, 2]);
    sheets.tree("yard-c-held", &[0], &[0], &[0]);
    sheets.tree("yard-c-empty", &[0], &[], &[]);
    sheets.tree("yard-d-one", &[0, 0], &[0], &[0]);
    sheets.tree("yard-d-both", &[0, 0], &[0, 1], &[0, 1]);
    sheets.tree("yard-d-none", &[0, 0], &[], &[]);
    sheets.yard("yard-i", &shapes::far(Shape::Line, MAX_NODES, 1, &mut Random::new(0)));
}

/// Yards with two children to choose from at a place where the algorithms say 'pick', or with
/// something else that only one order of moves gets right.
fn choices(sheets: &mut Sheets) {
    sheets.tree("balance-injects-into-lowest", &[0, 0, 0, 0], &[0, 3], &[1, 2]);
    sheets.tree("balance-extracts-from-lowest", &[0, 0, 0, 0], &[1, 2], &[0, 3]);
    sheets.tree("clearing-injects-into-lowest", &[0, 0, 1, 1], &[0, 1], &[2, 3]);
    sheets.tree("drawing-extracts-from-lowest", &[0, 0, 1, 1], &[2, 3], &[0, 1]);
    sheets.tree("lowest-is-not-first-below", &[3, 3, 3, 3], &[2, 3], &[0, 1]);
    sheets.tree("lowest-of-three-after-one-is-served", &[0, 0, 0, 0, 0, 0], &[0, 4, 5], &[1, 2, 3]);
    sheets.tree("lowest-again-when-another-is-as-needy", &[0, 0, 0, 1, 0, 0], &[0, 4, 5], &[1, 2, 3]);
    sheets.tree("one-that-lacks-more-before-the-lowest", &[0, 0, 0, 2, 0, 0, 0], &[4, 5, 6], &[1, 2, 3]);
    sheets.tree("one-that-has-more-before-the-lowest", &[0, 0, 0, 2, 0, 0, 0], &[1, 2, 3], &[4, 5, 6]);
    sheets.tree("clearing-goes-down-two-steps", &[0, 0, 1, 2, 2, 1], &[0, 1, 2], &[2, 3, 4]);
    sheets.tree("drawing-goes-down-two-steps", &[0, 0, 1, 2, 2, 1], &[3, 4, 5], &[0, 1, 2]);
    sheets.tree("a-held-target-is-moved-on", &[0, 0, 1, 2], &[0, 1, 2], &[1, 2, 3]);
    sheets.tree("the-root-holds-and-injects-first", &[0, 0, 0], &[0, 1], &[0, 2]);
    sheets.tree("the-root-is-empty-and-extracts-first", &[0, 0, 0], &[1], &[2]);
    sheets.tree("children-after-the-loop", &[0, 0, 0, 1, 1, 2, 2], &[1, 3, 5], &[2, 4, 6]);
    sheets.tree("children-in-rising-number", &[0, 0, 0, 1, 1, 2, 2], &[3, 5], &[4, 6]);
    sheets.tree("children-in-rising-number-renamed", &[6, 6, 0, 0, 1, 1, 6], &[2, 4], &[3, 5]);
    sheets.tree("grandchildren-after-children", &[0, 0, 1, 2, 2, 0, 5, 5], &[3, 6], &[4, 7]);
    sheets.tree("parents-above-children", &[1, 2, 3, 4, 4], &[0, 1], &[3, 4]);
    sheets.tree("root-in-the-middle", &[1, 2, 2, 2, 3], &[0, 1], &[3, 4]);
    sheets.tree("root-last", &[4, 4, 0, 1, 4], &[2, 0], &[1, 3]);
    sheets.tree("pebble-passes-a-balanced-node", &[0, 0, 1, 0, 3], &[2, 1], &[4, 1]);
    sheets.tree("one-pebble-from-end-to-end", &[0, 0, 1, 2, 3, 4, 5, 6], &[7], &[0]);
    sheets.tree("all-but-one-held", &[0, 0, 0, 1, 1, 2, 2], &[0, 1, 2, 3, 4, 5], &[0, 1, 2, 4, 5, 6]);
    sheets.tree("all-held", &[0, 0, 0, 1, 1, 2, 2], &[0, 1, 2, 3, 4, 5, 6], &[0, 1, 2, 3, 4, 5, 6]);
}

fn small(sheets: &mut Sheets) {
    let mut random = Random::new(101);
    for shape in Shape::ALL {
        for n in (2..=16).chain([19, 23, 28, 34, 41, 50, 61, 75]) {
            let yard = shapes::yard(shape, n, &mut random);
            sheets.yard(&format!("{}-{n}", shape.name()), &yard);
        }
    }
}

fn large(sheets: &mut Sheets) {
    let mut random = Random::new(102);
    for shape in Shape::ALL {
        for n in [150, MAX_NODES - 1, MAX_NODES] {
            let yard = shapes::yard(shape, n, &mut random);
            sheets.yard(&format!("{}-{n}", shape.name()), &yard);
        }
    }
    for shape in [Shape::Star, Shape::Caterpillar, Shape::Broom] {
        sheets.yard(&format!("{}-{MAX_NODES}-far", shape.name()), &shapes::far(shape, MAX_NODES, 1, &mut random));
    }
}

/// Sheets that are read, with yards that have no plan.
fn refused_yards(sheets: &mut Sheets) {
    let mut lists = |number: u32, name: &str, parents: &[u8], pebbles: &[u8], targets: &[u8]| {
        sheets.refused(number, name, sheet::unjudged(&Yard::shallow(parents, pebbles, targets)));
    };
    lists(27, "pebbles", &[0, 0], &[0, 2], &[0, 0]);
    lists(27, "targets", &[0, 0], &[0, 0], &[255, 0]);
    lists(27, "pebbles-before-targets", &[0, 0, 0], &[0, 0, 2], &[2, 0, 0]);
    lists(27, "lowest-of-two", &[0, 0, 0], &[0, 3, 2], &[0, 0, 0]);
    lists(27, "before-4", &[0, 9], &[0, 0], &[0, 2]);
    lists(4, "alone", &[0, 2], &[0, 0], &[0, 0]);
    lists(4, "is-n", &[0, 0, 3], &[0, 0, 0], &[0, 0, 0]);
    lists(4, "lowest-of-two", &[0, 255, 3], &[0, 0, 0], &[0, 0, 0]);
    lists(4, "one-node", &[1], &[1], &[1]);
    lists(4, "before-5", &[0, 1, 7], &[0, 0, 0], &[0, 0, 0]);
    lists(5, "two-roots", &[0, 1], &[0, 0], &[0, 0]);
    lists(5, "three-roots", &[0, 0, 2, 3], &[0, 0, 0, 0], &[0, 0, 0, 0]);
    lists(5, "no-root", &[1, 2, 0], &[0, 0, 0], &[0, 0, 0]);
    lists(5, "no-root-of-two", &[1, 0], &[1, 0], &[0, 1]);
    lists(5, "before-6", &[0, 1, 3, 2], &[0, 0, 0, 0], &[0, 0, 0, 0]);
    lists(5, "before-7", &[0, 1], &[1, 0], &[0, 0]);
    lists(6, "alone", &[0, 2, 1], &[0, 0, 0], &[0, 0, 0]);
    lists(6, "root-last", &[1, 0, 2], &[0, 0, 0], &[0, 0, 0]);
    lists(6, "hangs-from-a-circle", &[1, 2, 1, 3], &[0, 0, 0, 0], &[0, 0, 0, 0]);
    lists(6, "two-circles", &[0, 0, 3, 2, 5, 4], &[0; 6], &[0; 6]);
    lists(6, "before-7", &[0, 2, 1], &[1, 0, 0], &[0, 0, 0]);
    lists(7, "one-pebble-more", &[0, 0], &[1, 1], &[0, 1]);
    lists(7, "one-target-more", &[0, 0], &[1, 0], &[1, 1]);
    lists(7, "one-node", &[0], &[1], &[0]);

    let mut random = Random::new(103);
    let large = shapes::yard(Shape::Random, MAX_NODES, &mut random);
    let mut fault = |number: u32, damage: fn(&mut Yard)| {
        let mut yard = large.clone();
        damage(&mut yard);
        sheets.refused(number, "of-256", sheet::unjudged(&yard));
    };
    fault(27, |yard| yard.targets[255] = 2);
    fault(5, |yard| {
        let child = (0..yard.nodes()).rfind(|&node| !yard.is_root(node)).expect("more than a root");
        yard.parents[child] = child as u8;
    });
    fault(7, |yard| {
        let node = (0..yard.nodes()).rfind(|&node| yard.pebbles[node] == 0).expect("not full");
        yard.pebbles[node] = 1;
    });
    // The nodes of a line in a ring, but for the root.
    let ring: Vec<u8> = (0..MAX_NODES).map(|node| if node == 1 { 255 } else { node.max(1) as u8 - 1 }).collect();
    let none = [0; MAX_NODES];
    sheets.refused(6, "of-256", sheet::unjudged(&Yard::shallow(&ring, &none, &none)));
}

/// Inputs that are no yard sheets.
fn refused_sheets(sheets: &mut Sheets) {
    let header = sheet::HEADER;
    sheets.refused(1, "header-only", header);
    let rows = |n: usize| -> String { (0..n).map(|node| format!("{node} 0 0 0 1\n")).collect() };
    let full = header.to_string() + &rows(MAX_NODES);
    for (name, more) in
        [("a-257th-line", "0 0 0 0 1\n"), ("a-number-above-255", "256 0 0 0 1\n"), ("a-byte-more", "x"), ("a-line-feed-more", "\n")]
    {
        sheets.refused(1, name, full.clone() + more);
    }
    sheets.refused(1, "many-lines", header.to_string() + &rows(700));
    let [parents, pebbles, targets, depths] = [(); 4].map(|()| vec![255; MAX_NODES]);
    let longest = Yard { parents, pebbles, targets, depths };
    sheets.refused(26, "longest-sheet", sheet::unjudged(&longest));
    sheets.refused(1, "longest-sheet-and-more", [sheet::unjudged(&longest), b"junk ".repeat(1000)].concat());

    for (name, text) in [
        ("empty", ""),
        ("line-feed-only", "\n"),
        ("no-line-feed", "berth parent car target depth"),
        ("short", "berth parent\n0 0 0 0 1\n"),
        ("other-words", "node parent pebble target depth\n0 0 0 0 1\n"),
        ("capital", "Berth parent car target depth\n0 0 0 0 1\n"),
        ("leading-space", " berth parent car target depth\n0 0 0 0 1\n"),
        ("trailing-space", "berth parent car target depth \n0 0 0 0 1\n"),
        ("two-spaces", "berth  parent car target depth\n0 0 0 0 1\n"),
        ("tab", "berth\tparent car target depth\n0 0 0 0 1\n"),
        ("carriage-return", "berth parent car target depth\r\n0 0 0 0 1\r\n"),
        ("line-feed-before", "\nberth parent car target depth\n0 0 0 0 1\n"),
        ("left-out", "0 0 0 0 1\n"),
        ("byte-order-mark", "\u{feff}berth parent car target depth\n0 0 0 0 1\n"),
        ("cut", "berth parent car target dept"),
        ("move-sheet", "from to\n1 0\n"),
    ] {
        sheets.refused(15, name, text);
    }

    // The line after a good one of node 0.
    for (name, line) in [
        ("leading-zero-number", "01 0 0 0 1\n"),
        ("leading-zero-parent", "1 00 0 0 1\n"),
        ("leading-zero-pebble", "1 0 01 0 1\n"),
        ("leading-zero-target", "1 0 0 00 1\n"),
        ("leading-zeros-255", "1 0255 0 0 1\n"),
        ("256-number", "256 0 0 0 1\n"),
        ("256-parent", "1 256 0 0 1\n"),
        ("256-pebble", "1 0 256 0 1\n"),
        ("256-target", "1 0 0 256 1\n"),
        ("260", "1 260 0 0 1\n"),
        ("300", "1 300 0 0 1\n"),
        ("1000", "1 1000 0 0 1\n"),
        ("two-to-the-32", "1 4294967296 0 0 1\n"),
        ("two-to-the-64", "1 18446744073709551616 0 0 1\n"),
        ("minus", "1 -1 0 0 1\n"),
        ("minus-zero", "1 -0 0 0 1\n"),
        ("plus", "1 +0 0 0 1\n"),
        ("letter", "1 a 0 0 1\n"),
        ("hexadecimal", "1 0x0 0 0 1\n"),
        ("point", "1 0.0 0 0 1\n"),
        ("four-values", "1 0 0 1\n"),
        ("six-values", "1 0 0 0 0 1\n"),
        ("one-value", "1\n"),
        ("leading-space", " 1 0 0 0 1\n"),
        ("trailing-space", "1 0 0 0 1 \n"),
        ("two-spaces", "1  0 0 0 1\n"),
        ("tab", "1\t0 0 0 1\n"),
        ("comma", "1,0,0,0,1\n"),
        ("carriage-return", "1 0 0 0 1\r\n"),
        ("carriage-return-alone", "1 0 0 0 1\r"),
        ("zero-byte", "1 0 0 0 1\0\n"),
        ("byte-above-ascii", "1 0 0 \u{660} 1\n"),
        ("empty-line", "\n"),
        ("space-only", " \n"),
        ("empty-last-line", "1 0 0 0 1\n\n"),
        ("no-line-feed", "1 0 0 0 1"),
        ("one-digit-no-line-feed", "1"),
        ("no-line-feed-and-wrong-number", "7 0 0 0 1"),
        ("wrong-number-too", "7 0 0 256 1\n"),
        ("later-line", "1 0 0 0 1\n2 0 0 0 1\n3 0 0 1\n4 0 0 0 1\n"),
        ("header-again", "berth parent car target depth\n"),
    ] {
        sheets.refused(16, name, format!("{header}0 0 0 0 1\n{line}"));
    }
    sheets.refused(16, "first-line", format!("{header}0 00 1 1 1\n"));
    sheets.refused(16, "long-word", format!("{header}0 0 0 {} 1\n", "1".repeat(5000)));
    sheets.refused(16, "long-word-of-zeros", format!("{header}0 {} 0 0 1\n", "0".repeat(300)));
    sheets.refused(16, "long-spaces", format!("{header}{}", " ".repeat(5000)));
    sheets.refused(16, "last-of-256", full.strip_suffix("0 1\n").expect("the last line's end").to_string() + "256 1\n");

    for (name, lines) in [
        ("first-is-1", "1 0 1 1 1\n"),
        ("repeated", "0 0 0 0 1\n0 0 0 0 1\n"),
        ("left-out", "0 0 0 0 1\n2 0 0 0 1\n"),
        ("falling", "2 0 0 0 1\n1 0 0 0 1\n0 0 0 0 1\n"),
        ("before-27", "0 0 9 9 1\n2 0 0 0 1\n"),
        ("before-a-later-16", "0 0 0 0 1\n2 0 0 0 1\n02 0 0 0 1\n"),
    ] {
        sheets.refused(17, name, format!("{header}{lines}"));
    }
    sheets.refused(17, "last-of-256", full.strip_suffix("255 0 0 0 1\n").expect("the last line").to_string() + "254 0 0 0 1\n");
}

/// Yards whose crossing report has something that no other sheet's has, or not alone.
fn reports(sheets: &mut Sheets) {
    sheets.tree("report-up-down-and-not-at-all", &[0, 0, 0, 0, 1, 2, 3], &[1, 3, 4], &[2, 3, 5]);
    sheets.tree("report-up-only", &[0, 0, 1, 2, 3, 4], &[3, 4, 5], &[0, 1, 2]);
    sheets.tree("report-down-only", &[0, 0, 1, 2, 3, 4], &[0, 1, 2], &[3, 4, 5]);
    sheets.tree("report-crossed-below-an-edge-that-is-not", &[0, 0, 1, 1, 0, 4, 4], &[2, 5], &[3, 6]);
    sheets.tree("report-no-move-many-edges-root-in-the-middle", &[2, 2, 2, 1, 1], &[0, 3], &[0, 3]);
    sheets.tree("report-a-held-target-is-moved-on-upwards", &[1, 2, 3, 3], &[0, 1, 2], &[1, 2, 3]);
    // The number that no line has is of two digits, then of three.
    sheets.tree("report-root-10-of-12", &[10, 10, 0, 0, 1, 1, 10, 6, 6, 6, 10, 10], &[2, 3, 7, 10], &[4, 5, 9, 11]);
    let mut parents = vec![100; 101];
    parents[..99].fill(99);
    sheets.tree("report-root-100-of-101", &parents, &[0, 2, 4, 6, 8, 10, 100], &[1, 3, 5, 7, 9, 11, 99]);

    // One edge is crossed as often as an edge can be: on each side of it stand half of the nodes.
    let evens: Vec<usize> = (0..MAX_NODES).step_by(2).collect();
    let odds: Vec<usize> = (1..MAX_NODES).step_by(2).collect();
    let parents: Vec<u8> = (0..MAX_NODES).map(|node| if node == 1 { 0 } else { node as u8 % 2 }).collect();
    sheets.tree("report-one-edge-128-times-down", &parents, &evens, &odds);
    sheets.tree("report-one-edge-128-times-up", &parents, &odds, &evens);
    // Yard I's line, hung up by its other end and by its middle, with its 16,384 moves; and without
    // any.
    let line = |root: usize| -> Vec<u8> {
        let towards = |node: usize| if node < root { node + 1 } else { node - usize::from(node > root) };
        (0..MAX_NODES).map(|node| towards(node) as u8).collect()
    };
    let (first, last): (Vec<usize>, Vec<usize>) = (0..MAX_NODES).partition(|&node| node < MAX_NODES / 2);
    sheets.tree("report-line-256-up-to-root-255", &line(255), &first, &last);
    sheets.tree("report-line-256-by-root-128", &line(128), &first, &last);
    sheets.tree("report-line-256-no-move", &line(128), &first, &first);
}

/// Yards in which the neediest child is not the lowest-numbered one of its sign (request 2.6).
fn neediest(sheets: &mut Sheets) {
    sheets.choice("example", &tree(&[0, 0, 0, 2, 0, 4, 5], &[1, 2, 3], &[4, 5, 6]), &[[2, 0], [0, 4], [1, 0]]);
    // Node 1 lacks or has one pebble, node 2 two.
    let parents = [0, 0, 0, 2, 0, 0];
    sheets.choice("balance-injects", &tree(&parents, &[0, 4, 5], &[1, 2, 3]), &[[0, 2], [4, 0], [0, 1]]);
    sheets.choice("balance-extracts", &tree(&parents, &[1, 2, 3], &[0, 4, 5]), &[[2, 0], [0, 4], [1, 0]]);
    // The same below node 1, which is cleared first, or drawn into.
    let parents = [0, 0, 1, 1, 3, 0];
    sheets.choice("clearing", &tree(&parents, &[0, 1, 5], &[2, 3, 4]), &[[1, 3], [0, 1]]);
    sheets.choice("drawing", &tree(&parents, &[2, 3, 4], &[0, 1, 5]), &[[3, 1], [1, 0]]);
    let parents = [0, 0, 1, 1, 3, 3, 5, 0];
    sheets.choice("clearing-goes-down-two-steps", &tree(&parents, &[0, 1, 3, 7], &[2, 4, 5, 6]), &[[3, 5], [1, 3], [0, 1]]);
    sheets.choice("drawing-goes-down-two-steps", &tree(&parents, &[2, 4, 5, 6], &[0, 1, 3, 7]), &[[5, 3], [3, 1], [1, 0]]);

    // Nodes 2 and 3 are equal, before them is one of less need; when both have been served, all
    // three are equal, and it is the lowest.
    let parents = [0, 0, 0, 0, 2, 3, 0, 0, 0, 0];
    let (inner, outer) = ([1, 2, 3, 4, 5], [0, 6, 7, 8, 9]);
    let down = [[0, 2], [6, 0], [0, 3], [7, 0], [0, 1], [8, 0], [2, 4], [0, 2], [9, 0], [3, 5], [0, 3]];
    let up = [[2, 0], [0, 6], [3, 0], [0, 7], [1, 0], [0, 8], [4, 2], [2, 0], [0, 9], [5, 3], [3, 0]];
    sheets.choice("equal-ones-behind-a-lesser-inject", &tree(&parents, &outer, &inner), &down);
    sheets.choice("equal-ones-behind-a-lesser-extract", &tree(&parents, &inner, &outer), &up);
    // With all numbers turned round, 6 and 7 are the equal ones and 8 the lesser.
    let reversed = |yard: &Yard| {
        let turned = |list: &[u8]| -> Vec<u8> { list.iter().rev().copied().collect() };
        let parents: Vec<u8> = yard.parents.iter().rev().map(|parent| yard.nodes() as u8 - 1 - parent).collect();
        Yard::shallow(&parents, &turned(&yard.pebbles), &turned(&yard.targets))
    };
    let down = [[9, 6], [0, 9], [9, 7], [1, 9], [6, 4], [9, 6], [2, 9], [7, 5], [9, 7], [3, 9], [9, 8]];
    sheets.choice("equal-ones-root-last", &reversed(&tree(&parents, &outer, &inner)), &down);

    // Two with two each take turns.
    let parents = [0, 0, 0, 1, 2, 0, 0, 0];
    let (inner, outer) = ([1, 2, 3, 4], [0, 5, 6, 7]);
    let down = [[0, 1], [5, 0], [0, 2], [6, 0], [1, 3], [0, 1], [7, 0], [2, 4], [0, 2]];
    let up = [[1, 0], [0, 5], [2, 0], [0, 6], [3, 1], [1, 0], [0, 7], [4, 2], [2, 0]];
    sheets.choice("two-take-turns-inject", &tree(&parents, &outer, &inner), &down);
    sheets.choice("two-take-turns-extract", &tree(&parents, &inner, &outer), &up);
    // Three, one and two: node 1 becomes equal to 3, then both to 2.
    let parents = [0, 0, 0, 0, 1, 4, 3, 0, 0, 0, 0, 0];
    let (inner, outer) = ([1, 2, 3, 4, 5, 6], [0, 7, 8, 9, 10, 11]);
    let down = [[0, 1], [7, 0], [1, 4], [0, 1], [8, 0], [0, 3], [9, 0], [4, 5], [1, 4], [0, 1], [10, 0], [0, 2], [11, 0], [3, 6], [0, 3]];
    let up = [[1, 0], [0, 7], [4, 1], [1, 0], [0, 8], [3, 0], [0, 9], [5, 4], [4, 1], [1, 0], [0, 10], [2, 0], [0, 11], [6, 3], [3, 0]];
    sheets.choice("one-becomes-equal-inject", &tree(&parents, &outer, &inner), &down);
    sheets.choice("one-becomes-equal-extract", &tree(&parents, &inner, &outer), &up);

    // A child of the wrong sign is farther from 0 than any; the sign decides first.
    let parents = [0, 0, 0, 0, 1, 4, 3];
    sheets.choice("of-the-sign-wanted-inject", &tree(&parents, &[0, 1, 4, 5], &[0, 2, 3, 6]), &[[0, 3], [1, 0], [0, 2]]);
    sheets.choice("of-the-sign-wanted-extract", &tree(&parents, &[2, 3, 6], &[1, 4, 5]), &[[3, 0], [0, 1], [2, 0]]);
    // Node 1 has more targets below it, and more pebbles, but lacks less.
    let parents = [0, 0, 0, 1, 3, 2, 0, 0];
    sheets.choice("by-demand-not-by-targets", &tree(&parents, &[0, 3, 4, 6, 7], &[1, 2, 3, 4, 5]), &[[0, 2], [6, 0], [0, 1]]);
    // The children are balanced in rising number all the same: 1 before 2, which was served first.
    let parents = [0, 0, 0, 2, 0, 0, 1, 1, 2, 2];
    let moves = [[2, 0], [0, 4], [1, 0], [0, 5], [3, 2], [2, 0], [6, 1], [1, 7], [8, 2], [2, 9]];
    sheets.choice("children-still-in-rising-number", &tree(&parents, &[1, 2, 3, 6, 8], &[0, 4, 5, 7, 9]), &moves);

    // Chains of 1 to 15 nodes from the root, each length once held and once wanted.
    let mut parents = vec![0u8];
    for length in (1..=15).chain(1..=15) {
        let begin = parents.len() as u8;
        parents.push(0);
        parents.extend(begin..begin + length - 1);
    }
    let (held, wanted): (Vec<usize>, Vec<usize>) = (1..parents.len()).partition(|&node| node <= 120);
    sheets.choice("chains-241-from-first-to-last", &tree(&parents, &held, &wanted), &[[106, 0], [0, 226]]);
    sheets.choice("chains-241-from-last-to-first", &tree(&parents, &wanted, &held), &[[226, 0], [0, 106]]);

    // The one of a hundred random trees in which the choice of a child alters most moves.
    let mut random = Random::new(104);
    let yards = (0..100).map(|_| shapes::yard(Shape::Random, MAX_NODES, &mut random));
    let most = yards.max_by_key(differing).expect("a hundred");
    sheets.choice(&format!("random-{MAX_NODES}"), &most, &[]);
}

/// Yards with nodes that have room for several pebbles (request 2.10).
fn deep(sheets: &mut Sheets) {
    let yard = |parents: &[u8], pebbles: &[u8], targets: &[u8], depths: &[u8]| Yard {
        parents: parents.to_vec(),
        pebbles: pebbles.to_vec(),
        targets: targets.to_vec(),
        depths: depths.to_vec(),
    };
    let mut by_hand = |name: &str, moves: &[[usize; 2]], parents: &[u8], pebbles: &[u8], targets: &[u8], depths: &[u8]| {
        let lines: String = moves.iter().map(|[from, to]| format!("{from} {to}\n")).collect();
        let yard = yard(parents, pebbles, targets, depths);
        sheets.yard(&format!("deep-{name}"), &yard);
        let begins = format!("from to\n{lines}track up down\n");
        assert!(sheet::program(&sheet::unjudged(&yard)).starts_with(begins.as_bytes()), "{name} is not planned by {lines:?}");
    };
    by_hand("one-node-eight-stay", &[], &[0], &[8], &[8], &[8]);
    by_hand("two-of-five-leave", &[[0, 1], [0, 1]], &[0, 0], &[5, 0], &[3, 2], &[8, 8]);
    by_hand("a-full-node-is-cleared", &[[1, 2], [0, 1]], &[0, 0, 1], &[1, 1, 0], &[0, 1, 1], &[1, 1, 1]);
    by_hand("a-node-with-room-is-not-cleared", &[[0, 1], [1, 2]], &[0, 0, 1], &[1, 1, 0], &[0, 1, 1], &[1, 2, 1]);
    by_hand("cleared-once-it-is-full", &[[0, 1], [1, 2], [0, 1], [1, 2]], &[0, 0, 1], &[2, 1, 0], &[0, 1, 2], &[2, 2, 2]);
    by_hand("full-below-full", &[[2, 3], [1, 2], [0, 1]], &[0, 0, 1, 2], &[1, 2, 2, 0], &[0, 2, 2, 1], &[1, 2, 2, 1]);
    by_hand("holds-one-and-no-child-lacks-one", &[[1, 0]], &[0, 0], &[1, 1], &[2, 0], &[2, 1]);
    by_hand(
        "holds-one-and-fills-before-it-draws",
        &[[0, 2], [1, 0], [0, 2], [1, 0], [0, 2]],
        &[0, 0, 0],
        &[1, 2, 0],
        &[0, 0, 3],
        &[2, 2, 3],
    );
    by_hand("empty-and-draws-each-time", &[[1, 0], [0, 2], [1, 0], [0, 2]], &[0, 0, 0], &[0, 2, 0], &[0, 0, 2], &[2, 2, 2]);
    by_hand("drawn-through-an-empty-node", &[[2, 1], [1, 0], [2, 1], [1, 0]], &[0, 0, 1], &[0, 0, 2], &[2, 0, 0], &[2, 3, 2]);
    by_hand("neediest-in-turn", &[[0, 1], [0, 1], [0, 2], [0, 1], [0, 2]], &[0, 0, 0], &[5, 0, 0], &[0, 3, 2], &[5, 3, 2]);

    // Two yards of each shape and number of nodes, then large ones. A plan that the program has no
    // room for is not printed.
    let mut random = Random::new(105);
    for shape in Shape::ALL {
        for n in (2..=16).chain([19, 23, 28, 34, 41, 50, 61, 75]) {
            for which in ["", "-again"] {
                let yard = shapes::deep_yard(shape, n, &mut random);
                sheets.yard(&format!("deep-{}-{n}{which}", shape.name()), &yard);
            }
        }
    }
    for shape in Shape::ALL {
        for n in [150, MAX_NODES - 1, MAX_NODES] {
            // One whose plan can be printed.
            let yard = loop {
                let yard = shapes::deep_yard(shape, n, &mut random);
                if sheet::program(&sheet::unjudged(&yard)).starts_with(b"from to\n") {
                    break yard;
                }
            };
            sheets.yard(&format!("deep-{}-{n}", shape.name()), &yard);
        }
    }
    // The longest plan that is printed, of 32,768 moves, and longer ones.
    sheets.yard("deep-line-256-two-deep-far", &shapes::far(Shape::Line, MAX_NODES, 2, &mut random));
    let far = |shape: Shape, depth: u8| sheet::unjudged(&shapes::far(shape, MAX_NODES, depth, &mut Random::new(0)));
    sheets.refused(8, "line-256-three-deep", far(Shape::Line, 3));
    sheets.refused(8, "line-256-eight-deep", far(Shape::Line, 8));
    sheets.refused(8, "caterpillar-256-eight-deep", far(Shape::Caterpillar, 8));
    let mut one_more = shapes::far(Shape::Line, MAX_NODES, 2, &mut random);
    (one_more.depths[0], one_more.pebbles[0], one_more.depths[1], one_more.targets[1]) = (3, 3, 3, 1);
    sheets.refused(8, "one-move-more", sheet::unjudged(&one_more));

    let mut lists = |number: u32, name: &str, parents: &[u8], pebbles: &[u8], targets: &[u8], depths: &[u8]| {
        sheets.refused(number, name, sheet::unjudged(&yard(parents, pebbles, targets, depths)));
    };
    lists(26, "depth-0", &[0, 0], &[0, 0], &[0, 0], &[1, 0]);
    lists(26, "depth-9", &[0, 0], &[0, 0], &[0, 0], &[8, 9]);
    lists(26, "depth-255", &[0, 0], &[1, 0], &[0, 1], &[255, 1]);
    lists(26, "lowest-of-two", &[0, 0, 0], &[0, 0, 0], &[0, 0, 0], &[1, 9, 0]);
    lists(26, "before-27", &[0, 0], &[2, 0], &[0, 2], &[1, 0]);
    lists(26, "before-4", &[9, 0], &[0, 0], &[0, 0], &[1, 0]);
    lists(26, "before-7", &[0, 0], &[1, 0], &[1, 1], &[1, 9]);
    lists(27, "one-above-a-depth-of-8", &[0, 0], &[9, 0], &[8, 1], &[8, 8]);
    lists(27, "above-its-own-depth", &[0, 0], &[3, 3], &[3, 3], &[4, 2]);
    lists(27, "targets-above-their-depth", &[0, 0], &[3, 1], &[1, 3], &[4, 2]);
    lists(27, "deep-pebbles-before-targets", &[0, 0, 0], &[0, 0, 5], &[5, 0, 0], &[4, 4, 4]);
    lists(27, "before-7-of-counts", &[0, 0], &[3, 0], &[1, 1], &[2, 2]);
    lists(7, "sums-of-counts", &[0, 0, 0], &[3, 0, 1], &[1, 2, 2], &[3, 3, 3]);

    let header = "berth parent car target depth\n";
    sheets.refused(15, "without-depth", "berth parent car target\n0 0 1 1\n");
    sheets.refused(16, "256-depth", format!("{header}0 0 1 1 256\n"));
    sheets.refused(16, "leading-zero-depth", format!("{header}0 0 1 1 01\n"));
}
