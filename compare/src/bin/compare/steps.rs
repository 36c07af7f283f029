//! Families of the cabinet's steps. Each step is a case.

use crate::calls::{Caller, Same};
use unrelated::cabinet::{command, flag, status, Registers, Stepped, BLOCK_BYTES};
use unrelated::checker::MAX_PLAN_BYTES;
use unrelated::random::{Random, Thin};
use unrelated::shapes::{self, Shape};
use unrelated::yard::{total, Answer, Yard, MAX_DEPTH, MAX_NODES};
use unrelated::{damage, planner};

/// What is handed from step to step.
#[derive(Clone, Debug)]
struct Cabinet {
    yard: Yard,
    plan: Vec<u8>,
    registers: Registers,
}

/// The yard's plan; none where there is none.
fn planned(yard: &Yard) -> Vec<u8> {
    planner::plan(yard, usize::MAX).unwrap_or_default()
}

impl Cabinet {
    /// One step; what an accepted one leaves is kept. It takes the command, keeps the mask and the
    /// number of pebbles, and pushes a pebble and shows the move exactly if it obeys one.
    fn step(&mut self, caller: &Caller, failed: u8) -> Same<Answer<()>> {
        let answer = caller.step(&self.yard, &self.plan, &self.registers.block(), failed)?;
        let Stepped { pebbles, registers } = match answer {
            Ok(stepped) => stepped,
            Err(refusal) => return Ok(Err(refusal)),
        };
        let before = self.registers;
        let obeys = (before.command, before.status) == (command::NONE, status::RUNNING) && failed == 0;
        let shown = if obeys { &self.plan[self.plan.len() - 2 * before.left as usize..][..2] } else { &[before.from, before.to] };
        let sound = (registers.command, registers.mask) == (command::NONE, before.mask)
            && [registers.from, registers.to] == shown
            && (pebbles != self.yard.pebbles) == obeys
            && total(&pebbles) == total(&self.yard.pebbles);
        if !sound {
            return Err(format!("{self:?}, failed {failed}: a step leaves {pebbles:?} and {registers:?}"));
        }
        self.yard.pebbles = pebbles;
        self.registers = registers;
        Ok(Ok(()))
    }

    /// A step with this command that must be accepted and leave these registers.
    fn told(&mut self, caller: &Caller, command: u8, failed: u8, due: Registers) -> Same {
        self.registers.command = command;
        match self.step(caller, failed)? {
            Ok(()) if self.registers == due => Ok(()),
            answer => Err(format!("{self:?}: a step with command {command} is answered {answer:?}, and must leave {due:?}")),
        }
    }
}

/// Any number that tells of a failed push.
fn failure(random: &mut Random) -> u8 {
    let any = random.within(1, 255) as u8;
    random.pick(&[1, 2, 128, 255, any])
}

/// Any registers that a plan of so many moves allows; 0 moves left are drawn with any status.
fn drawn(moves: usize, random: &mut Random) -> Registers {
    Registers {
        command: random.below(4) as u8,
        status: random.below(3) as u8,
        from: random.byte(),
        to: random.byte(),
        left: random.below(moves + 1) as u32,
        mask: random.byte(),
        flags: random.below(4) as u8,
    }
}

/// Small yards with plans that a start accepts, and for each of its refusals one that it refuses.
fn examples() -> Vec<(Yard, Vec<u8>)> {
    let two = |pebbles: [u8; 2], targets: [u8; 2], plan: &[u8]| (Yard::shallow(&[0, 0], &pebbles, &targets), plan.to_vec());
    let deep = |depths: [u8; 2], (yard, plan): (Yard, Vec<u8>)| (Yard { depths: depths.to_vec(), ..yard }, plan);
    vec![
        (Yard::shallow(&[0], &[1], &[1]), vec![]),
        (Yard::shallow(&[0, 0, 1], &[1, 1, 0], &[0, 1, 1]), vec![1, 2, 0, 1]),
        (Yard::shallow(&[0, 0, 0, 1, 1], &[0, 1, 0, 1, 0], &[0, 0, 1, 0, 1]), vec![1, 0, 0, 2, 3, 1, 1, 4]),
        deep([3, 2], two([3, 0], [1, 2], &[0, 1, 0, 1])),
        two([1, 0], [1, 0], &[0, 1, 1, 0]),
        two([1, 0], [1, 1], &[0, 1]),
        two([1, 0], [0, 1], &[0]),
        two([1, 0], [0, 1], &[0, 1, 1]),
        two([1, 0], [0, 1], &[0, 1, 0, 2]),
        two([1, 0], [0, 1], &[0, 1, 1, 1]),
        two([0, 1], [0, 1], &[0, 1]),
        two([1, 1], [1, 1], &[0, 1]),
        two([1, 0], [0, 1], &[0, 1, 1, 0]),
        // Full after two moves; a target count that is not reached.
        deep([3, 2], two([3, 0], [0, 2], &[0, 1, 0, 1, 0, 1])),
        deep([3, 2], two([3, 0], [1, 2], &[0, 1])),
    ]
}

/// Every command, status and number of moves left, the other registers drawn: then each byte with
/// every value, with a failed push and without.
pub fn every_value(caller: &Caller, thin: Thin) -> Same<u64> {
    let mut random = Random::new(35);
    let begun = caller.calls.get();
    let mut number = 0;
    for (yard, plan) in examples() {
        let moves = plan.len() / 2;
        for state in 0..12 * (moves + 1) {
            let (command, status, left) = ((state % 4) as u8, (state / 4 % 3) as u8, (state / 12) as u32);
            let block = Registers { command, status, left, ..drawn(moves, &mut random) }.block();
            for (place, value) in (0..BLOCK_BYTES).flat_map(|place| (0..=255).map(move |value| (place, value))) {
                number += 1;
                if thin.keeps(number) {
                    let mut block = block;
                    block[place] = value;
                    for failed in [0, failure(&mut random)] {
                        caller.step(&yard, &plan, &block, failed).map(drop)?;
                    }
                }
            }
        }
    }
    Ok(caller.calls.get() - begun)
}

/// Every flags with every mask; flags that can be with every command, status and kind of push. Then
/// blocks of every length to 12, and of lengths that are 9 once the high bytes are lost.
pub fn every_mask(caller: &Caller, thin: Thin) -> Same<u64> {
    let mut random = Random::new(36);
    let begun = caller.calls.get();
    let yard = Yard::shallow(&[0, 0], &[1, 0], &[1, 0]);
    let plan = [0, 1, 1, 0];
    let mut number = 0;
    for (flags, mask) in (0..=255).flat_map(|flags| (0..=255).map(move |mask| (flags, mask))) {
        number += 1;
        if !thin.keeps(number) {
            continue;
        }
        let states = if flags <= flag::BOTH { 12 } else { 1 };
        for state in 0..states {
            let (command, status) = (state % 4, state / 4);
            let block = Registers { command, status, left: 2, mask, flags, ..drawn(2, &mut random) }.block();
            for failed in [0, failure(&mut random)] {
                caller.step(&yard, &plan, &block, failed).map(drop)?;
            }
        }
    }
    let examples = examples();
    for length in (0..=12).chain([16, 18, 256 + 9, 65_536 + 9]) {
        for _ in 0..thin.of(200) {
            let (yard, plan) = &examples[random.below(examples.len())];
            let mut block = drawn(plan.len() / 2, &mut random).block().to_vec();
            block.resize(length, 0);
            caller.step(yard, plan, &block, random.pick(&[0, 1])).map(drop)?;
        }
    }
    Ok(caller.calls.get() - begun)
}

/// From the start of an accepted plan to its end: each step counts down, only the last goes idle
/// and sets the finished flag, and the pebbles end on exactly the targets. With stalls, a push may
/// fail, and again after it was acknowledged.
fn whole(caller: &Caller, cabinet: &mut Cabinet, stalls: bool, random: &mut Random) -> Same {
    let settled = |running: Registers| match running.left {
        0 => Registers { status: status::IDLE, flags: running.flags | flag::FINISHED, ..running },
        _ => running,
    };
    let plan = cabinet.plan.clone();
    let mut due = settled(Registers { status: status::RUNNING, left: (plan.len() / 2) as u32, ..cabinet.registers });
    cabinet.told(caller, command::START, random.pick(&[0, 1]), due)?;
    for ends in plan.chunks(2) {
        while stalls && random.once_in(4) {
            let stalled = Registers { status: status::STALLED, flags: due.flags | flag::STALLED, ..due };
            cabinet.told(caller, command::NONE, failure(random), stalled)?;
            if random.once_in(2) {
                cabinet.told(caller, command::NONE, random.pick(&[0, 1]), stalled)?;
            }
            due.flags = 0;
            cabinet.told(caller, command::ACKNOWLEDGE, random.pick(&[0, 1]), due)?;
        }
        due = settled(Registers { from: ends[0], to: ends[1], left: due.left - 1, ..due });
        cabinet.told(caller, command::NONE, 0, due)?;
    }
    if cabinet.yard.pebbles != cabinet.yard.targets {
        return Err(format!("{cabinet:?}: the run does not end on the targets"));
    }
    Ok(())
}

/// The same run without stalls and with them, which end alike; then one that is stopped anywhere,
/// running or stalled, and started again with a plan for the yard as it is.
fn three_runs(caller: &Caller, begun: &Cabinet, random: &mut Random) -> Same {
    let (mut smooth, mut stalling, mut stopped) = (begun.clone(), begun.clone(), begun.clone());
    whole(caller, &mut smooth, false, random)?;
    whole(caller, &mut stalling, true, random)?;
    if smooth.yard != stalling.yard || smooth.registers != stalling.registers {
        return Err(format!("{smooth:?}: with stalls the run ends as {stalling:?}"));
    }
    let moves = begun.plan.len() / 2;
    if moves == 0 {
        return Ok(());
    }
    stopped.told(caller, command::START, 0, Registers { status: status::RUNNING, left: moves as u32, ..begun.registers })?;
    for _ in 0..random.below(moves) {
        stopped.step(caller, 0).map(drop)?;
    }
    if random.once_in(2) {
        let stalled = Registers { status: status::STALLED, flags: flag::STALLED, ..stopped.registers };
        stopped.told(caller, command::NONE, failure(random), stalled)?;
    }
    let idle = Registers { status: status::IDLE, left: 0, ..stopped.registers };
    stopped.told(caller, command::STOP, random.pick(&[0, 1]), idle)?;
    stopped.plan = planned(&stopped.yard);
    whole(caller, &mut stopped, false, random)
}

/// Plans at times with spare moves in front that go somewhere and back, more than 255 in all. Then
/// halves exchanged: some 1,000 moves in a line of 64 nodes of depth 1 or 22 of depth 8, and on 256
/// nodes the shapes in which no way is long.
pub fn whole_runs(caller: &Caller, thin: Thin) -> Same<u64> {
    let mut random = Random::new(37);
    let begun = caller.calls.get();
    for run in 0..thin.of(1_000) {
        let n = shapes::size(1, 60, &mut random);
        let yard = shapes::any_yard(Shape::ALL[run as usize % Shape::ALL.len()], n, &mut random);
        let mut plan = planned(&yard);
        if random.once_in(3) {
            let most = random.pick(&[2, 10, 800]);
            let there = damage::wander(&yard, most, &mut random);
            // Reversed, a move's ends change places and the last move comes first.
            plan = [&there[..], &there.iter().rev().copied().collect::<Vec<u8>>(), &plan].concat();
        }
        let registers = Registers { from: random.byte(), to: random.byte(), mask: random.byte(), ..Registers::default() };
        three_runs(caller, &Cabinet { yard, plan, registers }, &mut random)?;
    }
    let depths = [1, MAX_DEPTH].into_iter().flat_map(|depth| Shape::ALL.map(|shape| (shape, depth)));
    for (number, (shape, depth)) in (0..).zip(depths) {
        if thin.keeps(number) {
            let n = match (shape, depth) {
                (Shape::Line | Shape::Caterpillar | Shape::Broom, 1) => 64,
                (Shape::Line | Shape::Caterpillar | Shape::Broom, _) => 22,
                _ => MAX_NODES,
            };
            let yard = shapes::far(shape, n, depth, &mut random);
            three_runs(caller, &Cabinet { plan: planned(&yard), yard, registers: Registers::default() }, &mut random)?;
        }
    }
    Ok(caller.calls.get() - begun)
}

/// What a keeper, or another program, may alter between two steps.
fn alter(cabinet: &mut Cabinet, random: &mut Random) {
    let Cabinet { yard, plan, registers } = cabinet;
    let (n, moves) = (yard.nodes(), plan.len() / 2);
    match (registers.status, random.below(2)) {
        (status::IDLE, 0) => registers.command = command::START,
        (status::STALLED, 0) => registers.command = command::ACKNOWLEDGE,
        _ => {}
    }
    match random.below(60) {
        0..=3 => registers.command = random.below(4) as u8,
        4 | 5 => registers.mask = random.byte(),
        6 => registers.flags = random.below(4) as u8,
        7 => {
            let mut block = registers.block();
            let any = random.byte();
            block[random.below(BLOCK_BYTES)] = random.pick(&[0, 1, 2, 3, 4, 255, any]);
            *registers = Registers::read(block);
        }
        8 => {
            let within = random.below(moves + 1);
            registers.left = random.pick(&[0, 1, moves, moves + 1, moves + 256, moves + 65_536, within]) as u32;
        }
        // Another plan, an altered one, or one that goes nowhere.
        9 => *plan = planned(yard),
        10 | 11 => damage::plan(plan, yard, random),
        12 => *plan = damage::wander(yard, 40, random),
        // The pebbles of two nodes exchanged, perhaps more than there is room for; one pebble or
        // target more or less; another depth.
        13 => yard.pebbles.swap(random.below(n), random.below(n)),
        14 => damage::recount(yard, random.below(n), random),
        15 => yard.depths[random.below(n)] = random.within(1, usize::from(MAX_DEPTH)) as u8,
        _ => {}
    }
}

/// Step after step, with commands, failed pushes, and registers, plan or yard altered between them;
/// at times one step on any lists. After a refusal the keeper at times begins anew.
pub fn any_runs(caller: &Caller, thin: Thin) -> Same<u64> {
    let mut random = Random::new(38);
    let begun = caller.calls.get();
    for run in 0..thin.of(5_000) {
        let n = if random.once_in(100) { MAX_NODES } else { shapes::size(1, 60, &mut random) };
        let yard = shapes::any_yard(Shape::ALL[run as usize % Shape::ALL.len()], n, &mut random);
        let mut cabinet = Cabinet { plan: planned(&yard), yard, registers: Registers::default() };
        for _ in 0..random.within(20, 200) {
            alter(&mut cabinet, &mut random);
            let failed = if random.once_in(6) { failure(&mut random) } else { 0 };
            let refused = cabinet.step(caller, failed)?.is_err();
            if random.once_in(40) {
                let mut spoilt = cabinet.yard.clone();
                damage::lists(&mut spoilt, &mut random);
                any_lists(caller, &spoilt, &cabinet.plan, &mut random)?;
            }
            if refused && random.once_in(2) {
                let Cabinet { yard, plan, registers } = &mut cabinet;
                let k = random.within(0, total(&yard.depths));
                [yard.pebbles, yard.targets] = [(); 2].map(|()| shapes::scattered(&yard.depths, k, &mut random));
                *plan = planned(yard);
                *registers = Registers { mask: random.byte(), ..Registers::default() };
            }
        }
    }
    Ok(caller.calls.get() - begun)
}

/// One pebble goes to and fro between two nodes, for as many bytes as a plan may have and some more
/// or fewer: every command and status with moves left at the ends of each byte, then some steps on
/// from there. The longest accepted plan also runs whole, through every number of moves left.
pub fn long_plans(caller: &Caller, thin: Thin) -> Same<u64> {
    let mut random = Random::new(39);
    let begun = caller.calls.get();
    // The pebble is at one of the nodes, the target where the plan brings it that began at node 0.
    let cabinet = |length: usize, at: usize, registers: Registers| {
        let held = |at: usize| [u8::from(at == 0), u8::from(at == 1)];
        let yard = Yard::shallow(&[0, 0], &held(at), &held(length / 2 % 2));
        Cabinet { yard, plan: [0, 1, 1, 0].into_iter().cycle().take(length).collect(), registers }
    };
    let mut number = 0;
    for length in MAX_PLAN_BYTES - 4..=MAX_PLAN_BYTES + 6 {
        for left in [0, 1, 255, 256, 257, 65_535, 65_536, 65_537, 65_792, 131_070, 131_071, 131_072, 131_073, 131_328, 16_777_215] {
            for state in 0..24 {
                number += 1;
                if thin.keeps(number) {
                    let (command, status, at) = (state % 4, state / 4 % 3, state / 12);
                    let registers = Registers { command, status, left, ..drawn(0, &mut random) };
                    let mut cabinet = cabinet(length, usize::from(at), registers);
                    for _ in 0..3 {
                        cabinet.step(caller, 0).map(drop)?;
                    }
                }
            }
        }
    }
    if thin.is_full() {
        whole(caller, &mut cabinet(MAX_PLAN_BYTES, 0, Registers::default()), false, &mut random)?;
    }
    Ok(caller.calls.get() - begun)
}

/// One step on any lists.
pub fn any_lists(caller: &Caller, yard: &Yard, plan: &[u8], random: &mut Random) -> Same {
    let mut block = drawn(plan.len() / 2, random).block().to_vec();
    match random.below(8) {
        0 => block[random.below(BLOCK_BYTES)] = random.byte(),
        1 => block.resize(random.below(13), 0),
        _ => {}
    }
    caller.step(yard, plan, &block, random.pick(&[0, 0, 1, 255])).map(drop)
}
