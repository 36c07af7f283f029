//! Cases of the C calls: what each call is handed, what it must answer, and what the lent lists
//! then hold. The first lines of the file say how it is written.

mod families;

use std::cmp::Reverse;
use std::collections::{BTreeMap, BTreeSet};
use std::path::Path;
use unrelated::c_calls::{number, VERSION};
use unrelated::yard::{Answer, Yard};

/// Writes the cases, and answers how many.
pub fn write(file: &Path) -> std::io::Result<usize> {
    let mut calls = Calls { text: HEAD.replace("{VERSION}", &VERSION.to_string()), cases: 0, met: BTreeMap::new() };
    families::all(&mut calls);
    assert_eq!(calls.met, due(), "each call must meet its refusals, and no other");
    calls.text += "\n";
    std::fs::write(file, &calls.text)?;
    Ok(calls.cases)
}

const HEAD: &str = "\
# Cases of the C calls that javendriky.h declares, version {VERSION} of the calls.
#
# A line that begins with # is a remark. Each case begins with the line `case`, has the lines below
# in this order, and ends with an empty line. The first word of a line says what it is.
#
#   case NUMBER CALL WORDS   the case's number, the call javendriky_CALL, and what the case tries
#   NAME VALUE               what is handed in: each parameter by its name in the header and in the
#                            header's order; a list's length is the number of its entries
#   answer NUMBER            what the call must answer
#   NAME VALUE               what a list, or a number behind a pointer, must hold after the call
#
# What no line below `answer` names must be after the call what it was before.
#
# The value of a number is its decimal digits. The value of a list is words, one space between:
#
#   7                        one entry; entries of demand lists may be negative
#   170*5                    the entry 170 five times
#   0,1,1,0*3                the entries 0 1 1 0 three times
#   \"0 0 1 1 1\\n\"            a byte for each character between the quotes; \\n, \\r, \\t, \\\", \\\\ are
#                            one byte each, and \\x00 to \\xff the byte of that hexadecimal number
#   NULL                     alone: no entry, and the pointer handed in is NULL
#
# A list without a word has no entry, and its pointer is not NULL. A long list below `answer` may
# stand as its number of bytes and its FNV-1a hash of 64 bits (offset basis cbf29ce484222325, prime
# 100000001b3, all in hexadecimal):
#
#   fnv1a64 262144 0123456789abcdef
";

/// The refusals of each call, 0 for an accepted one: a set that leaves one out is no use.
fn due() -> BTreeMap<String, BTreeSet<u32>> {
    let yard = [0, 1, 2, 26, 27, 4, 5, 6];
    let moves = [9, 10, 11, 12, 13];
    let of_yard = |more: &[u32]| -> BTreeSet<u32> { yard.iter().chain(more).copied().collect() };
    let checked = [&[7, 14][..], &moves].concat();
    let mut due: BTreeMap<String, BTreeSet<u32>> = BTreeMap::new();
    let mut add = |names: &[&str], refusals: BTreeSet<u32>| {
        due.extend(names.iter().map(|name| (name.to_string(), refusals.clone())));
    };
    add(&["version"], [0].into());
    add(&["longest_plan"], [0, 1].into());
    add(&["test_yard", "demands"], of_yard(&[]));
    add(&["plan", "plan_parts", "openings"], of_yard(&[7, 8]));
    add(&["length_bound", "displaced"], of_yard(&[7]));
    add(&["pebble_arrives", "pebble_leaves", "target_set", "target_cleared"], of_yard(&[19, 20, 23]));
    add(&["nearest"], of_yard(&[19, 22]));
    add(&["reach"], of_yard(&[19]));
    add(&["push"], of_yard(&moves[1..]));
    add(&["check", "excess"], of_yard(&checked));
    add(&["wear"], of_yard(&[&checked[..], &[28]].concat()));
    add(&["trial"], of_yard(&moves));
    add(&["step"], of_yard(&[&checked[..], &[24, 25]].concat()));
    add(&["read_sheet"], [0, 1, 15, 16, 17, 18].into());
    add(&["write_sheet"], [0, 1, 2, 8].into());
    due
}

/// A list below `answer` that would take more bytes than this is written as its hash.
const LONGEST_LIST: usize = 20_000;

/// What is handed in, or stands there afterwards.
#[derive(Clone, PartialEq, Eq)]
pub enum Value {
    Bytes(Vec<u8>),
    Signed(Vec<i16>),
    Number(u64),
}

impl Value {
    fn is_empty(&self) -> bool {
        match self {
            Value::Bytes(list) => list.is_empty(),
            Value::Signed(list) => list.is_empty(),
            Value::Number(_) => false,
        }
    }
}

pub type Named = (&'static str, Value);

pub struct Calls {
    text: String,
    cases: usize,
    /// The refusals that each call met, 0 for an accepted one.
    met: BTreeMap<String, BTreeSet<u32>>,
}

impl Calls {
    /// A case. Of what stands there afterwards only what is not as before is written.
    pub fn case(&mut self, call: &str, what: &str, given: Vec<Named>, answer: Answer<u32>, after: Vec<Named>) {
        self.cases += 1;
        self.met.entry(call.to_string()).or_default().insert(answer.map_or_else(|refusal| refusal.number, |_| 0));
        self.text += &format!("\ncase {} {call} {what}\n", self.cases);
        for (name, value) in &given {
            // An empty list is lent either way.
            if value.is_empty() && self.cases % 2 == 0 {
                self.text += &format!("{name} NULL\n");
            } else {
                self.text += &line(name, &written(name, value));
            }
        }
        self.text += &format!("answer {}\n", number(answer));
        for (name, value) in after {
            let before = given.iter().find(|(other, _)| *other == name).expect("it was handed in");
            if before.1 != value {
                let mut words = written(name, &value);
                if let (Value::Bytes(list), true) = (&value, words.len() > LONGEST_LIST) {
                    words = format!("fnv1a64 {} {:016x}", list.len(), fnv1a64(list));
                }
                self.text += &line(name, &words);
            }
        }
    }
}

fn line(name: &str, words: &str) -> String {
    if words.is_empty() {
        format!("{name}\n")
    } else {
        format!("{name} {words}\n")
    }
}

fn fnv1a64(bytes: &[u8]) -> u64 {
    bytes.iter().fold(0xcbf2_9ce4_8422_2325, |hash, &byte| (hash ^ u64::from(byte)).wrapping_mul(0x100_0000_01b3))
}

fn written(name: &str, value: &Value) -> String {
    match value {
        Value::Number(number) => number.to_string(),
        Value::Signed(list) => entries(list),
        Value::Bytes(list) if name == "sheet" => text(list),
        Value::Bytes(list) => entries(list),
    }
}

/// The entries as words, repeated groups of one, two or four of them once.
fn entries<T: Copy + PartialEq + ToString>(list: &[T]) -> String {
    let mut words = Vec::new();
    let mut at = 0;
    while at < list.len() {
        let times = |period: usize| {
            let group = &list[at..list.len().min(at + period)];
            list[at..].chunks(period).take_while(|other| *other == group).count()
        };
        let periods = [1, 2, 4].map(|period| (period * times(period), Reverse(period)));
        let (covered, Reverse(period)) = periods.into_iter().max().expect("three");
        if covered >= 3 * period.max(2) {
            let group: Vec<String> = list[at..at + period].iter().map(T::to_string).collect();
            words.push(format!("{}*{}", group.join(","), covered / period));
            at += covered;
        } else {
            words.push(list[at].to_string());
            at += 1;
        }
    }
    words.join(" ")
}

/// The bytes as text, and equal ones at the end as entries.
fn text(list: &[u8]) -> String {
    let same = list.iter().rev().take_while(|&byte| Some(byte) == list.last()).count();
    let (front, rest) = list.split_at(if same >= 3 && list.last() != Some(&b'\n') { list.len() - same } else { list.len() });
    let shown = |&byte: &u8| match byte {
        b'\n' => "\\n".to_string(),
        b'\r' => "\\r".to_string(),
        b'\t' => "\\t".to_string(),
        b'"' => "\\\"".to_string(),
        b'\\' => "\\\\".to_string(),
        b' '..=b'~' => char::from(byte).to_string(),
        _ => format!("\\x{byte:02x}"),
    };
    let quoted = if front.is_empty() { String::new() } else { format!("\"{}\"", front.iter().map(shown).collect::<String>()) };
    [quoted, entries(rest)].into_iter().filter(|words| !words.is_empty()).collect::<Vec<_>>().join(" ")
}

/// The four lists of a yard.
pub fn yard_lists(yard: &Yard) -> Vec<Named> {
    let lists = [("parents", &yard.parents), ("pebbles", &yard.pebbles), ("targets", &yard.targets), ("depths", &yard.depths)];
    lists.map(|(name, list)| (name, Value::Bytes(list.clone()))).to_vec()
}
