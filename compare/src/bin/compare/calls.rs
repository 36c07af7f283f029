//! Every call of the library beside the unrelated planner: one input to both, then answers and all
//! lent lists compared.

use crate::lent::{unwritten, Lender, Lent, Placement};
use std::cell::Cell;
use std::fmt;
use std::ptr;
use std::sync::atomic::{AtomicPtr, Ordering};
use unrelated::cabinet::{self, Stepped};
use unrelated::distance::Nearest;
use unrelated::event::{happen, Event, Kept};
use unrelated::figures::Length;
use unrelated::parts::{self, Parted};
use unrelated::wear::{wear_by, Count, Wear};
use unrelated::yard::{total, Answer, Yard};
use unrelated::{checker, demands, distance, fast, figures, library, openings, planner, sheet, yard};

/// Nothing, or the difference found.
pub type Same<T = ()> = Result<T, String>;

/// What a call was given.
pub struct Inputs<'a> {
    pub call: &'static str,
    pub yard: &'a Yard,
    /// The plan or the sheet, where the call has one.
    pub bytes: &'a [u8],
    /// The list that an event brings up to date.
    pub demands: &'a [i16],
    /// The register block of a step.
    pub block: &'a [u8],
    /// Lengths of lists to be written, budget, width, nodes asked for, reach, or whether a push
    /// failed.
    pub numbers: &'a [usize],
}

impl<'a> Inputs<'a> {
    /// The yard alone.
    fn of(call: &'static str, yard: &'a Yard) -> Inputs<'a> {
        Inputs { call, yard, bytes: &[], demands: &[], block: &[], numbers: &[] }
    }
}

impl fmt::Display for Inputs<'_> {
    fn fmt(&self, f: &mut fmt::Formatter) -> fmt::Result {
        let Yard { parents, pebbles, targets, depths } = self.yard;
        writeln!(f, "call {}, numbers {:?}", self.call, self.numbers)?;
        writeln!(f, "parents {parents:?}\npebbles {pebbles:?}\ntargets {targets:?}\ndepths {depths:?}")?;
        if self.call.ends_with("sheet") {
            writeln!(f, "sheet \"{}\"", self.bytes.escape_ascii())
        } else {
            writeln!(f, "plan {:?}\ndemands {:?}\nregisters {:?}", self.bytes, self.demands, self.block)
        }
    }
}

/// The inputs of the running call.
static RUNNING: AtomicPtr<Inputs<'static>> = AtomicPtr::new(ptr::null_mut());

/// Makes a call whose inputs are shown if it touches a page that it must not.
pub fn during<T>(inputs: &Inputs, call: impl FnOnce() -> T) -> T {
    RUNNING.store(ptr::from_ref(inputs).cast_mut().cast(), Ordering::Relaxed);
    let result = call();
    RUNNING.store(ptr::null_mut(), Ordering::Relaxed);
    result
}

/// After this, an access to a page that must not be touched shows the inputs and ends the run.
pub fn watch_pages() {
    extern "C" {
        fn signal(number: i32, handler: extern "C" fn(i32)) -> usize;
    }
    extern "C" fn fault(_: i32) {
        let running = RUNNING.load(Ordering::Relaxed);
        // SAFETY: the inputs outlive the call, during which this is.
        match unsafe { running.as_ref() } {
            Some(inputs) => eprintln!("the library touched memory that was not lent to it:\n{inputs}"),
            None => eprintln!("a fault outside the library"),
        }
        std::process::exit(1);
    }
    const SIGBUS: i32 = 7;
    const SIGSEGV: i32 = 11;
    // SAFETY: the handler ends the process.
    unsafe {
        signal(SIGBUS, fault);
        signal(SIGSEGV, fault);
    }
}

/// The number of the last refusal in the papers.
pub const LAST_REFUSAL: usize = 28;
/// Those that no input meets any more (requests 2.10 and 2.8).
pub const UNUSED_REFUSALS: [usize; 2] = [3, 21];

/// Calls both sides; counts the calls, and how often each refusal was met.
pub struct Caller {
    pub lender: Lender,
    pub calls: Cell<u64>,
    pub refusals: [Cell<u64>; LAST_REFUSAL + 1],
}

/// A yard's four lists on loan.
struct LentYard<'a> {
    parents: Lent<'a, u8>,
    pebbles: Lent<'a, u8>,
    targets: Lent<'a, u8>,
    depths: Lent<'a, u8>,
}

impl LentYard<'_> {
    fn wrong(&self, expected: &Yard) -> Option<String> {
        let Yard { parents, pebbles, targets, depths } = expected;
        let wrong = self.parents.wrong("parents", parents).or_else(|| self.pebbles.wrong("pebbles", pebbles));
        wrong.or_else(|| self.targets.wrong("targets", targets)).or_else(|| self.depths.wrong("depths", depths))
    }
}

/// What a list must hold after a call that writes `front` into it if it accepts.
pub fn written<T: Copy>(before: &[T], front: &Answer<Vec<T>>) -> Vec<T> {
    let mut after = before.to_vec();
    if let Ok(front) = front {
        after[..front.len()].copy_from_slice(front);
    }
    after
}

impl Caller {
    pub fn new(placement: Placement) -> Caller {
        Caller { lender: Lender::new(placement), calls: Cell::new(0), refusals: Default::default() }
    }

    fn lend(&self, yard: &Yard) -> LentYard<'_> {
        let [parents, pebbles, targets, depths] =
            [&yard.parents, &yard.pebbles, &yard.targets, &yard.depths].map(|list| self.lender.lend(list));
        LentYard { parents, pebbles, targets, depths }
    }

    /// Compares a call's answers; `wrong` tells what is amiss with the lent lists.
    pub fn same<T: PartialEq + fmt::Debug>(&self, inputs: &Inputs, got: Answer<T>, expected: Answer<T>, wrong: Option<String>) -> Same {
        self.calls.set(self.calls.get() + 1);
        if let Err(refusal) = expected {
            let met = &self.refusals[refusal.number as usize];
            met.set(met.get() + 1);
        }
        if got != expected {
            return Err(format!("{inputs}the library answers {got:?}, the unrelated planner {expected:?}"));
        }
        match wrong {
            Some(wrong) => Err(format!("{inputs}{wrong}")),
            None => Ok(()),
        }
    }

    /// Comes before every other call: a library of another version has other arguments under the
    /// same names.
    pub fn version(&self) -> Same {
        self.calls.set(self.calls.get() + 1);
        match library::version() {
            library::VERSION => Ok(()),
            other => Err(format!("the library is of version {other}, its calls are declared as of version {}", library::VERSION)),
        }
    }

    pub fn test_yard(&self, yard: &Yard) -> Same {
        let inputs = Inputs::of("test_yard", yard);
        let lent = self.lend(yard);
        let got = during(&inputs, || library::test_yard(lent.parents.list(), lent.pebbles.list(), lent.targets.list(), lent.depths.list()));
        let expected = yard::judge(yard);
        quick(&inputs, fast::test_yard(&yard.parents, &yard.pebbles, &yard.targets, &yard.depths), &expected)?;
        self.same(&inputs, got, expected, lent.wrong(yard))
    }

    pub fn demands(&self, yard: &Yard, length: usize) -> Same {
        let inputs = Inputs { numbers: &[length], ..Inputs::of("demands", yard) };
        // No demand that a list of bytes can have.
        let before: Vec<i16> = (0..length).map(|at| 20_000 + at as i16).collect();
        let lent = self.lend(yard);
        let mut list = self.lender.lend(&before);
        let got = during(&inputs, || {
            library::demands(lent.parents.list(), lent.pebbles.list(), lent.targets.list(), lent.depths.list(), list.list_mut())
        });
        let expected = demands::list(yard, length);
        if expected.is_ok() && !demands::meets_equation_2(yard, list.list()) {
            return Err(format!("{inputs}what the library wrote does not meet equation 2"));
        }
        let wrong = lent.wrong(yard).or_else(|| list.wrong("demands", &written(&before, &expected)));
        self.same(&inputs, got, expected.map(|_| ()), wrong)
    }

    pub fn length_bound(&self, yard: &Yard) -> Same {
        let inputs = Inputs::of("length_bound", yard);
        // No number of bytes that a plan can have.
        let before = [1_234_567];
        let lent = self.lend(yard);
        let mut bytes = self.lender.lend(&before);
        let got = during(&inputs, || {
            library::length_bound(
                lent.parents.list(),
                lent.pebbles.list(),
                lent.targets.list(),
                lent.depths.list(),
                &mut bytes.list_mut()[0],
            )
        });
        let expected = figures::length_bound(yard);
        quick(&inputs, fast::length_bound(&yard.parents, &yard.pebbles, &yard.targets, &yard.depths), &expected)?;
        let after = written(&before, &expected.map(|length| vec![length.bytes]));
        self.same(&inputs, got, expected, lent.wrong(yard).or_else(|| bytes.wrong("bytes", &after)))
    }

    /// The library's length of a yard that needs so many moves, for what must follow from it.
    /// `length_bound` compares the lists.
    pub fn library_length(&self, yard: &Yard, moves: u32) -> Same {
        let inputs = Inputs::of("length_bound", yard);
        let got = during(&inputs, || library::length_bound(&yard.parents, &yard.pebbles, &yard.targets, &yard.depths, &mut 0));
        self.same(&inputs, got, Ok(Length { moves, bytes: 2 * moves }), None)
    }

    pub fn longest_plan(&self, n: usize) -> Same {
        let nothing = Yard::default();
        let inputs = Inputs { numbers: &[n], ..Inputs::of("longest_plan", &nothing) };
        let got = during(&inputs, || library::longest_plan(n));
        self.same(&inputs, got, figures::longest_plan(n), None)
    }

    pub fn displaced(&self, yard: &Yard) -> Same {
        let inputs = Inputs::of("displaced", yard);
        let lent = self.lend(yard);
        let got = during(&inputs, || library::displaced(lent.parents.list(), lent.pebbles.list(), lent.targets.list(), lent.depths.list()));
        let off_target = figures::off_target(yard);
        if got.is_ok_and(|displaced| displaced < off_target) {
            return Err(format!("{inputs}the library answers {got:?}, but {off_target} pebbles are above the target counts"));
        }
        let expected = figures::displaced(yard);
        quick(&inputs, fast::displaced(&yard.parents, &yard.pebbles, &yard.targets, &yard.depths), &expected)?;
        self.same(&inputs, got, expected, lent.wrong(yard))
    }

    /// The planner with a list of `room` bytes.
    pub fn plan(&self, yard: &Yard, room: usize) -> Same {
        let inputs = Inputs { numbers: &[room], ..Inputs::of("plan", yard) };
        let before = unwritten(room);
        let lent = self.lend(yard);
        let mut list = self.lender.lend(&before);
        let got = during(&inputs, || {
            library::plan(lent.parents.list(), lent.pebbles.list(), lent.targets.list(), lent.depths.list(), list.list_mut())
        });
        let expected = planner::plan(yard, room);
        let after = written(&before, &expected);
        let moves = expected.map(|plan| plan.len() as u32 / 2);
        for planner in [fast::plan, fast::plan_by_rows, fast::plan_with_scans, fast::plan_by_ways] {
            let mut quick_list = before.clone();
            quick(&inputs, planner(&yard.parents, &yard.pebbles, &yard.targets, &yard.depths, &mut quick_list), &moves)?;
            quick(&inputs, Ok(quick_list), &Ok(after.clone()))?;
        }
        self.same(&inputs, got, moves, lent.wrong(yard).or_else(|| list.wrong("plan", &after)))
    }

    /// The library's plan of a yard whose plan has so many bytes, for what must follow from it.
    /// `plan` compares each of its bytes.
    pub fn library_plan(&self, yard: &Yard, bytes: usize) -> Same<Vec<u8>> {
        let inputs = Inputs { numbers: &[bytes], ..Inputs::of("plan", yard) };
        let mut list = vec![0; bytes];
        let got = during(&inputs, || library::plan(&yard.parents, &yard.pebbles, &yard.targets, &yard.depths, &mut list));
        self.same(&inputs, got, Ok(bytes as u32 / 2), None)?;
        Ok(list)
    }

    /// The plans of the parts, with a plan list of `room` bytes and a part list of this length.
    /// Gives back both sides' answer, with what they write if they accept.
    pub fn plan_parts(&self, yard: &Yard, room: usize, length: usize) -> Same<Answer<Parted>> {
        let inputs = Inputs { numbers: &[room, length], ..Inputs::of("plan_parts", yard) };
        let before = Parted { plan: unwritten(room), parts: unwritten(length) };
        let lent = self.lend(yard);
        let [mut list, mut tops] = [&before.plan, &before.parts].map(|list| self.lender.lend(list));
        let got = during(&inputs, || {
            let [parents, pebbles, targets, depths] = [&lent.parents, &lent.pebbles, &lent.targets, &lent.depths].map(Lent::list);
            library::plan_parts(parents, pebbles, targets, depths, list.list_mut(), tops.list_mut())
        });
        let expected = parts::plan_parts(yard, room, length);
        let mut after = before.clone();
        if let Ok(Parted { plan, parts }) = &expected {
            after.plan[..plan.len()].copy_from_slice(plan);
            after.parts.copy_from_slice(parts);
        }
        let moves = expected.as_ref().map(|parted| parted.plan.len() as u32 / 2).map_err(|refusal| *refusal);
        let mut quickly = before;
        quick(
            &inputs,
            fast::plan_parts(&yard.parents, &yard.pebbles, &yard.targets, &yard.depths, &mut quickly.plan, &mut quickly.parts),
            &moves,
        )?;
        quick(&inputs, Ok(&quickly), &Ok(&after))?;
        let wrong = lent.wrong(yard).or_else(|| list.wrong("plan", &after.plan));
        self.same(&inputs, got, moves, wrong.or_else(|| tops.wrong("parts", &after.parts)))?;
        Ok(expected)
    }

    /// The openings, with a list of `room` bytes. Gives back both sides' answer, with what they
    /// write if they accept.
    pub fn openings(&self, yard: &Yard, room: usize) -> Same<Answer<Vec<u8>>> {
        let inputs = Inputs { numbers: &[room], ..Inputs::of("openings", yard) };
        let before = unwritten(room);
        let lent = self.lend(yard);
        let mut list = self.lender.lend(&before);
        let got = during(&inputs, || {
            library::openings(lent.parents.list(), lent.pebbles.list(), lent.targets.list(), lent.depths.list(), list.list_mut())
        });
        let expected = openings::openings(yard, room);
        let after = written(&before, &expected);
        let count = expected.as_ref().map(|openings| openings.len() as u32 / 2).map_err(|refusal| *refusal);
        let mut quick_list = before.clone();
        quick(&inputs, fast::openings(&yard.parents, &yard.pebbles, &yard.targets, &yard.depths, &mut quick_list), &count)?;
        quick(&inputs, Ok(&quick_list), &Ok(&after))?;
        self.same(&inputs, got, count, lent.wrong(yard).or_else(|| list.wrong("openings", &after)))?;
        Ok(expected)
    }

    /// An event on a yard and a list of demands, the yard's or not. Gives back both sides' answer,
    /// with what they leave if they accept.
    pub fn event(&self, kept: &Kept, event: Event, node: usize) -> Same<Answer<Kept>> {
        let Kept { yard, demands } = kept;
        let inputs = Inputs { demands, numbers: &[node], ..Inputs::of(event.name(), yard) };
        let mut lent = self.lend(yard);
        let LentYard { parents, pebbles, targets, depths } = &mut lent;
        let mut list = self.lender.lend(demands);
        let got = during(&inputs, || {
            library::event(parents.list(), pebbles.list_mut(), targets.list_mut(), depths.list(), list.list_mut(), event, node)
        });
        let expected = happen(kept, event, node);
        let accepted = expected.as_ref().map(|_| ()).map_err(|refusal| *refusal);
        let after = expected.as_ref().unwrap_or(kept);
        for call in [fast::event, fast::event_by_equation_2] {
            let mut quick_kept = kept.clone();
            let Yard { parents, pebbles, targets, depths } = &mut quick_kept.yard;
            quick(&inputs, call(parents, pebbles, targets, depths, &mut quick_kept.demands, event, node), &accepted)?;
            quick(&inputs, Ok(&quick_kept), &Ok(after))?;
        }
        self.same(&inputs, got, accepted, lent.wrong(&after.yard).or_else(|| list.wrong("demands", &after.demands)))?;
        Ok(expected)
    }

    /// The nearest pebble. Gives back what both sides answer.
    pub fn nearest(&self, yard: &Yard, node: usize) -> Same<Answer<Nearest>> {
        let inputs = Inputs { numbers: &[node], ..Inputs::of("nearest", yard) };
        // No distance that a tree can have.
        let before = [1_234_567];
        let lent = self.lend(yard);
        let mut edges = self.lender.lend(&before);
        let got = during(&inputs, || {
            library::nearest(
                lent.parents.list(),
                lent.pebbles.list(),
                lent.targets.list(),
                lent.depths.list(),
                node,
                &mut edges.list_mut()[0],
            )
        });
        let expected = distance::nearest(yard, node);
        quick(&inputs, fast::nearest(&yard.parents, &yard.pebbles, &yard.targets, &yard.depths, node), &expected)?;
        let after = written(&before, &expected.map(|nearest| vec![nearest.distance]));
        self.same(&inputs, got, expected, lent.wrong(yard).or_else(|| edges.wrong("distance", &after)))?;
        Ok(expected)
    }

    /// The pebbles within reach, with a list of this length. Gives back what the list holds if both
    /// sides accept.
    pub fn reach(&self, yard: &Yard, length: usize, node: usize, reach: u16) -> Same<Answer<Vec<u8>>> {
        let inputs = Inputs { numbers: &[length, node, usize::from(reach)], ..Inputs::of("reach", yard) };
        let before = unwritten(length);
        let lent = self.lend(yard);
        let mut list = self.lender.lend(&before);
        let got = during(&inputs, || {
            library::reach(lent.parents.list(), lent.pebbles.list(), lent.targets.list(), lent.depths.list(), list.list_mut(), node, reach)
        });
        if got.is_ok_and(|count| count as usize != total(list.list())) {
            return Err(format!("{inputs}the library answers {got:?}, but wrote {:?}", list.list()));
        }
        let expected = distance::reach(yard, length, node, reach);
        let after = written(&before, &expected);
        let count = expected.as_ref().map(|list| total(list) as u32).map_err(|refusal| *refusal);
        let mut quick_list = before.clone();
        quick(&inputs, fast::reach(&yard.parents, &yard.pebbles, &yard.targets, &yard.depths, &mut quick_list, node, reach), &count)?;
        quick(&inputs, Ok(&quick_list), &Ok(&after))?;
        self.same(&inputs, got, count, lent.wrong(yard).or_else(|| list.wrong("reach", &after)))?;
        Ok(expected)
    }

    /// One push. Gives back what both sides answer, with the pebbles after it if they accept.
    pub fn push(&self, yard: &Yard, from: usize, to: usize) -> Same<Answer<Vec<u8>>> {
        let inputs = Inputs { numbers: &[from, to], ..Inputs::of("push", yard) };
        let mut lent = self.lend(yard);
        let got = during(&inputs, || {
            library::push(lent.parents.list(), lent.pebbles.list_mut(), lent.targets.list(), lent.depths.list(), from, to)
        });
        let expected = checker::push(yard, from, to);
        let after = Yard { pebbles: written(&yard.pebbles, &expected), ..yard.clone() };
        let accepted = expected.as_ref().map(|_| ()).map_err(|refusal| *refusal);
        self.same(&inputs, got, accepted, lent.wrong(&after))?;
        Ok(expected)
    }

    /// The checker, and the excess, which has the checker's refusals and is else even (request
    /// 2.13).
    pub fn check(&self, yard: &Yard, plan: &[u8]) -> Same {
        let inputs = Inputs { bytes: plan, ..Inputs::of("check", yard) };
        let lent = self.lend(yard);
        let list = self.lender.lend(plan);
        let expected = checker::check(yard, plan);
        let got = during(&inputs, || {
            library::check(lent.parents.list(), lent.pebbles.list(), lent.targets.list(), lent.depths.list(), list.list())
        });
        let accepted = expected.map(|_| ());
        quick(&inputs, fast::check(&yard.parents, &yard.pebbles, &yard.targets, &yard.depths, plan), &accepted)?;
        self.same(&inputs, got, accepted, lent.wrong(yard).or_else(|| list.wrong("plan", plan)))?;

        let inputs = Inputs { call: "excess", ..inputs };
        let got = during(&inputs, || {
            library::excess(lent.parents.list(), lent.pebbles.list(), lent.targets.list(), lent.depths.list(), list.list())
        });
        if got.is_ok_and(|excess| !excess.is_multiple_of(2)) {
            return Err(format!("{inputs}the library answers {got:?}, which is odd"));
        }
        self.same(&inputs, got, expected.map(|checked| checked.excess), lent.wrong(yard).or_else(|| list.wrong("plan", plan)))
    }

    /// The wear of a plan, on this side by either count. Gives back what both sides answer.
    pub fn wear(&self, count: Count, yard: &Yard, plan: &[u8], width: u32) -> Same<Answer<Wear>> {
        let inputs = Inputs { bytes: plan, numbers: &[width as usize], ..Inputs::of("wear", yard) };
        // No move and no edge have such a number, and none of their bytes is 0.
        let before = [[3_000_000_001], [4_000_000_002]];
        let lent = self.lend(yard);
        let list = self.lender.lend(plan);
        let [mut first, mut edge] = before.map(|number| self.lender.lend(&number));
        let got = during(&inputs, || {
            let [parents, pebbles, targets, depths] = [&lent.parents, &lent.pebbles, &lent.targets, &lent.depths].map(Lent::list);
            library::wear(parents, pebbles, targets, depths, list.list(), width, [&mut first.list_mut()[0], &mut edge.list_mut()[0]])
        });
        let expected = wear_by(count, yard, plan, width);
        quick(&inputs, fast::wear(&yard.parents, &yard.pebbles, &yard.targets, &yard.depths, plan, width), &expected)?;
        let first_after = written(&before[0], &expected.map(|wear| vec![wear.first]));
        let edge_after = written(&before[1], &expected.map(|wear| vec![wear.edge]));
        let wrong = lent.wrong(yard).or_else(|| list.wrong("plan", plan)).or_else(|| first.wrong("first", &first_after));
        self.same(&inputs, got, expected, wrong.or_else(|| edge.wrong("edge", &edge_after)))?;
        Ok(expected)
    }

    pub fn trial(&self, yard: &Yard, plan: &[u8], budget: u16) -> Same {
        let inputs = Inputs { bytes: plan, numbers: &[usize::from(budget)], ..Inputs::of("trial", yard) };
        let mut lent = self.lend(yard);
        let list = self.lender.lend(plan);
        let got = during(&inputs, || {
            library::trial(lent.parents.list(), lent.pebbles.list_mut(), lent.targets.list(), lent.depths.list(), list.list(), budget)
        });
        let expected = checker::trial(yard, plan, budget);
        let tried = expected.as_ref().map(|(tried, _)| *tried).map_err(|refusal| *refusal);
        let after = Yard { pebbles: written(&yard.pebbles, &expected.map(|(_, pebbles)| pebbles)), ..yard.clone() };
        let mut quick_pebbles = yard.pebbles.clone();
        quick(&inputs, fast::trial(&yard.parents, &mut quick_pebbles, &yard.targets, &yard.depths, plan, budget), &tried)?;
        quick(&inputs, Ok(&quick_pebbles), &Ok(&after.pebbles))?;
        self.same(&inputs, got, tried, lent.wrong(&after).or_else(|| list.wrong("plan", plan)))
    }

    /// A step on any plan and any block. Gives back both sides' answer, with what they leave if
    /// they accept.
    pub fn step(&self, yard: &Yard, plan: &[u8], block: &[u8], failed: u8) -> Same<Answer<Stepped>> {
        let inputs = Inputs { bytes: plan, block, numbers: &[usize::from(failed)], ..Inputs::of("step", yard) };
        let mut lent = self.lend(yard);
        let LentYard { parents, pebbles, targets, depths } = &mut lent;
        let list = self.lender.lend(plan);
        let mut registers = self.lender.lend(block);
        let got = during(&inputs, || {
            library::step(parents.list(), pebbles.list_mut(), targets.list(), depths.list(), list.list(), registers.list_mut(), failed)
        });
        let expected = cabinet::step(yard, plan, block, failed != 0);
        let line = expected.as_ref().map(|stepped| u32::from(stepped.registers.line())).map_err(|refusal| *refusal);
        let (pebbles, block_after) = match &expected {
            Ok(stepped) => (stepped.pebbles.clone(), stepped.registers.block().to_vec()),
            Err(_) => (yard.pebbles.clone(), block.to_vec()),
        };
        let (mut quick_pebbles, mut quick_block) = (yard.pebbles.clone(), block.to_vec());
        quick(&inputs, fast::step(&yard.parents, &mut quick_pebbles, &yard.targets, &yard.depths, plan, &mut quick_block, failed), &line)?;
        quick(&inputs, Ok((&quick_pebbles, &quick_block)), &Ok((&pebbles, &block_after)))?;
        let wrong = lent.wrong(&Yard { pebbles, ..yard.clone() }).or_else(|| list.wrong("plan", plan));
        self.same(&inputs, got, line, wrong.or_else(|| registers.wrong("registers", &block_after)))?;
        Ok(expected)
    }

    /// The reader with lists of these lengths. A sheet that both accept must be what the writer
    /// makes of its lists.
    pub fn read_sheet(&self, bytes: &[u8], lengths: [usize; 4]) -> Same {
        let nothing = Yard::default();
        let inputs = Inputs { bytes, numbers: &lengths, ..Inputs::of("read_sheet", &nothing) };
        let before = lengths.map(unwritten);
        let lent = self.lender.lend(bytes);
        let [mut parents, mut pebbles, mut targets, mut depths] = [0, 1, 2, 3].map(|list| self.lender.lend(&before[list]));
        let got = during(&inputs, || {
            library::read_sheet(lent.list(), parents.list_mut(), pebbles.list_mut(), targets.list_mut(), depths.list_mut())
        });
        let expected = sheet::read(bytes, lengths);
        let after = |list: usize, read: fn(&Yard) -> &Vec<u8>| {
            written(&before[list], &expected.as_ref().map(read).cloned().map_err(|refusal| *refusal))
        };
        let wrong = lent
            .wrong("sheet", bytes)
            .or_else(|| parents.wrong("parents", &after(0, |yard| &yard.parents)))
            .or_else(|| pebbles.wrong("pebbles", &after(1, |yard| &yard.pebbles)))
            .or_else(|| targets.wrong("targets", &after(2, |yard| &yard.targets)))
            .or_else(|| depths.wrong("depths", &after(3, |yard| &yard.depths)));
        self.same(&inputs, got, expected.as_ref().map(|yard| yard.nodes() as u32).map_err(|refusal| *refusal), wrong)?;
        match expected {
            Ok(yard) if sheet::unjudged(&yard) != bytes => Err(format!("{inputs}accepted, but not what the writer makes of {yard:?}")),
            _ => Ok(()),
        }
    }

    /// The writer with a list of `room` bytes.
    pub fn write_sheet(&self, yard: &Yard, room: usize) -> Same {
        let inputs = Inputs { numbers: &[room], ..Inputs::of("write_sheet", yard) };
        let before = unwritten(room);
        let lent = self.lend(yard);
        let mut list = self.lender.lend(&before);
        let got = during(&inputs, || {
            library::write_sheet(lent.parents.list(), lent.pebbles.list(), lent.targets.list(), lent.depths.list(), list.list_mut())
        });
        let expected = sheet::write(yard, room);
        let wrong = lent.wrong(yard).or_else(|| list.wrong("sheet", &written(&before, &expected)));
        self.same(&inputs, got, expected.map(|sheet| sheet.len() as u32), wrong)
    }

    /// The calls that take the yard alone.
    pub fn figures(&self, yard: &Yard) -> Same {
        self.test_yard(yard)?;
        self.demands(yard, yard.nodes())?;
        self.length_bound(yard)?;
        self.displaced(yard)
    }
}

/// The code written for speed is compared too: a benchmark against wrong code would mean nothing.
fn quick<T: PartialEq + fmt::Debug>(inputs: &Inputs, got: Answer<T>, expected: &Answer<T>) -> Same {
    if got == *expected {
        Ok(())
    } else {
        Err(format!("{inputs}the fast planner gives {got:?}, the unrelated planner {expected:?}"))
    }
}
