//! The pusher cabinet (requests 2.9 and 2.10): its registers, and a step of it on a yard and a
//! plan.

use crate::checker::{check, judge_plan_length, push};
use crate::yard::{judge, refuse, Answer, Refusal, Yard};

/// The bytes of a register block.
pub const BLOCK_BYTES: usize = 9;

/// What the command register can hold.
pub mod command {
    pub const NONE: u8 = 0;
    pub const START: u8 = 1;
    pub const STOP: u8 = 2;
    pub const ACKNOWLEDGE: u8 = 3;
}

/// What the status register can hold.
pub mod status {
    pub const IDLE: u8 = 0;
    pub const RUNNING: u8 = 1;
    pub const STALLED: u8 = 2;
}

/// The bits of the flags.
pub mod flag {
    pub const FINISHED: u8 = 1;
    pub const STALLED: u8 = 2;
    pub const BOTH: u8 = FINISHED | STALLED;
}

/// A register block, whatever it holds.
#[derive(Clone, Copy, Debug, Default, PartialEq, Eq)]
pub struct Registers {
    pub command: u8,
    pub status: u8,
    pub from: u8,
    pub to: u8,
    /// Of its four bytes the block has the three low ones.
    pub left: u32,
    pub mask: u8,
    pub flags: u8,
}

impl Registers {
    pub fn read(block: [u8; BLOCK_BYTES]) -> Registers {
        let [command, status, from, to, low, middle, high, mask, flags] = block;
        let left = u32::from(low) + 256 * u32::from(middle) + 65_536 * u32::from(high);
        Registers { command, status, from, to, left, mask, flags }
    }

    pub fn block(self) -> [u8; BLOCK_BYTES] {
        let [low, middle, high] = [1, 256, 65_536].map(|unit| (self.left / unit % 256) as u8);
        [self.command, self.status, self.from, self.to, low, middle, high, self.mask, self.flags]
    }

    /// Whether the line is raised.
    pub fn line(self) -> bool {
        self.flags & self.mask != 0
    }

    /// The lowest register that holds what it cannot beside a plan of so many whole moves.
    fn wrong(self, moves: usize) -> Option<usize> {
        let left = self.left as usize;
        let registers = [
            (0, self.command > command::ACKNOWLEDGE),
            (1, self.status > status::STALLED),
            (4, left > moves || (left == 0 && self.status != status::IDLE)),
            (8, self.flags > flag::BOTH),
        ];
        registers.into_iter().find(|(_, wrong)| *wrong).map(|(place, _)| place)
    }

    /// No move is left.
    fn finish(&mut self) {
        self.status = status::IDLE;
        self.flags |= flag::FINISHED;
    }
}

/// What an accepted step leaves: the pebbles and the registers.
#[derive(Clone, Debug, PartialEq, Eq)]
pub struct Stepped {
    pub pebbles: Vec<u8>,
    pub registers: Registers,
}

/// One step. `failed` tells that the pebble did not arrive.
pub fn step(yard: &Yard, plan: &[u8], block: &[u8], failed: bool) -> Answer<Stepped> {
    judge(yard)?;
    let Ok(block) = block.try_into() else {
        return refuse(2, 0);
    };
    let before = Registers::read(block);
    let moves = plan.len() / 2;
    if let Some(place) = before.wrong(moves) {
        return refuse(24, place);
    }
    let mut pebbles = yard.pebbles.clone();
    let mut registers = Registers { command: command::NONE, ..before };
    match (before.command, before.status) {
        (command::START, status::IDLE) => {
            check(yard, plan)?;
            registers.status = status::RUNNING;
            registers.left = moves as u32;
            if moves == 0 {
                registers.finish();
            }
        }
        (command::START, _) => return refuse(25, 0),
        (command::STOP, _) => {
            registers.status = status::IDLE;
            registers.left = 0;
        }
        (command::ACKNOWLEDGE, at) => {
            registers.flags = 0;
            if at == status::STALLED {
                registers.status = status::RUNNING;
            }
        }
        (command::NONE, status::RUNNING) => {
            judge_plan_length(plan)?;
            let place = moves - before.left as usize;
            let (from, to) = (plan[2 * place], plan[2 * place + 1]);
            // A move that cannot be obeyed is refused even if its pebble did not arrive.
            let pushed = push(yard, usize::from(from), usize::from(to)).map_err(|refusal| Refusal { place: place as u32, ..refusal })?;
            if failed {
                registers.status = status::STALLED;
                registers.flags |= flag::STALLED;
            } else {
                pebbles = pushed;
                registers = Registers { from, to, left: before.left - 1, ..registers };
                if registers.left == 0 {
                    registers.finish();
                }
            }
        }
        _ => {}
    }
    Ok(Stepped { pebbles, registers })
}
