//! Random programs: each task's window gets instructions that suit its windows.

use super::layout::Size;
use super::values::{Use, USES};
use crate::emulator::assemble::*;
use crate::emulator::codes;
use crate::emulator::draft::{Draft, Task};
use crate::generate::random::Random;

/// What the writer of a task's program knows of the task.
struct Author<'a> {
    random: &'a mut Random,
    task: Task,
    constants: u64,
    registers: u64,
    length: u64,
    /// How many instructions in a thousand are strays.
    strays: u64,
    /// How many register operands in a hundred have an access code.
    accessed: u64,
    /// How many instructions create or quit for a hundred of the usual ones.
    turnover: u64,
    /// How many instructions load or store beside those.
    traffic: u64,
    /// How many loads and stores in a hundred wait for a data state.
    awaited: u64,
}

/// From so many processes on some programs create and quit a lot.
const CROWD: usize = 56;

const THREE: [u16; 10] = [EOR, EQV, NAND, NOR, OR, BITCLR, BITSET, ADD, SUB, MUL];
const TWO: [u16; 6] = [MOV, NOT, ENCODE0, ENCODE1, DEC, INC];

/// Fills the program windows, later tasks over earlier ones.
pub fn fill(draft: &mut Draft, size: Size, random: &mut Random) {
    let (strays, accessed) = match size {
        Size::Any => (random.pick(&[0, 2, 8, 30]), random.pick(&[0, 0, 2, 8, 40])),
        Size::Small => (random.pick(&[0, 10, 40]), random.pick(&[0, 8, 20, 40])),
    };
    let turnover = if draft.processes.len() < CROWD { 0 } else { random.pick(&[0, 60, 200]) };
    let (traffic, awaited) = random.pick(&[(0, 20), (0, 20), (0, 60), (100, 20), (100, 60)]);
    for task in draft.tasks.clone() {
        if task.pb > task.pl {
            continue;
        }
        let length = (u64::from(task.pl) - u64::from(task.pb) + 1) * 16;
        let registers = (u64::from(task.rl) + 1).saturating_sub(u64::from(task.rb)) * 2;
        let constants = draft.constants.len() as u64;
        let mut author = Author {
            random,
            task,
            constants,
            registers,
            length,
            strays,
            accessed,
            turnover,
            traffic,
            awaited,
        };
        let first = usize::from(task.pb) * 16;
        for word in &mut draft.program[first..][..length as usize] {
            *word = author.instruction();
        }
        draft.program[first + length as usize - 1] = author.last();
    }
}

impl Author<'_> {
    fn instruction(&mut self) -> u64 {
        if self.random.rarely(self.strays) {
            return self.stray();
        }
        if self.random.below(100 + self.turnover + self.traffic) < self.traffic {
            return if self.random.chance(50) { self.load() } else { self.store() };
        }
        match self.random.below(100 + self.turnover) {
            0..=1 => word(NOP, 0, 0, 0),
            2..=32 => {
                let code = self.random.pick(&THREE);
                word(code, self.destination(), self.source(), self.source())
            }
            33..=49 => self.two(),
            50..=54 => {
                let code = self.random.pick(&[CLR, ONE]);
                word(code, self.destination(), 0, 0)
            }
            55..=68 => self.branch(),
            69..=72 => {
                let (test, target) = (self.test(), self.meant(Use::Status));
                call(test, self.destination(), target, self.source())
            }
            73..=77 => self.create(),
            78 => self.quit(),
            79..=89 => self.load(),
            90..=99 => self.store(),
            _ if self.random.chance(50) => self.create(),
            _ => self.quit(),
        }
    }

    /// An operation with D and S1.
    fn two(&mut self) -> u64 {
        let code = self.random.pick(&TWO);
        word(code, self.destination(), self.source(), 0)
    }

    /// The last instruction: a way back, or a branch that shows a register in the PC.
    fn last(&mut self) -> u64 {
        let target = self.random.below(self.length) as u32;
        let zero = self.meant(Use::Zero);
        if self.random.rarely(10 * self.strays) {
            return branch(ALWAYS, target, self.source(), zero);
        }
        branch(ALWAYS, target, zero, zero)
    }

    fn test(&mut self) -> u16 {
        if self.random.chance(25) {
            ALWAYS
        } else {
            self.random.below(16) as u16
        }
    }

    fn branch(&mut self) -> u64 {
        let target = self.random.below(self.length) as u32;
        let (test, tested) = (self.test(), self.source());
        let added =
            if self.random.rarely(self.strays) { self.source() } else { self.meant(Use::Zero) };
        branch(test, target, added, tested)
    }

    fn create(&mut self) -> u64 {
        let act = self.random.below(16) as u16;
        let (test, start) = (self.test(), self.meant(Use::Status));
        create(test, act, start, self.source())
    }

    fn quit(&mut self) -> u64 {
        let test = self.random.below(16) as u16;
        quit(test, self.source())
    }

    fn load(&mut self) -> u64 {
        let access = self.awaited(&[SAC_FULL, SAC_TAKE]) | self.byte();
        let (d, address) = (self.destination(), self.address());
        if self.random.chance(50) {
            return word(LODI | access, d, address, 0);
        }
        let index = self.index();
        word(LODX | access, d, address, index)
    }

    fn store(&mut self) -> u64 {
        let access = self.awaited(&[0, DAC_EMPTY]) | self.byte();
        let (value, address) = (self.source(), self.address());
        if self.random.chance(50) {
            return word(STOI | access, 0, address, value);
        }
        let index = self.index();
        word(STOX | access, value, address, index)
    }

    /// One of these data access codes, or none.
    fn awaited(&mut self, choices: &[u16]) -> u16 {
        if self.random.chance(self.awaited) {
            self.random.pick(choices)
        } else {
            0
        }
    }

    /// The bit B, now and then.
    fn byte(&mut self) -> u16 {
        if self.random.chance(15) {
            BYTE
        } else {
            0
        }
    }

    fn address(&mut self) -> u16 {
        if self.random.rarely(2 * self.strays) {
            self.source()
        } else {
            self.meant(Use::Address)
        }
    }

    fn index(&mut self) -> u16 {
        let purpose = self.random.pick(&[Use::Zero, Use::Zero, Use::Address]);
        self.meant(purpose)
    }

    /// A constant for this use, as long as CI is zero; or a register that holds a byte
    /// address or status word from the start.
    fn meant(&mut self, purpose: Use) -> u16 {
        let held = matches!(purpose, Use::Address | Use::Status) && self.registers > 1;
        if held && self.random.chance(25) {
            let access = self.access(&[1, 1, 2, 2]);
            return self.register() | 1 | access;
        }
        let turn = USES.iter().position(|&other| other == purpose).unwrap_or(0) as u64;
        let place = 4 * self.random.below(self.constants / 4 + 1) + turn;
        // Now and then a place that reads as zero.
        let past = if self.random.chance(3) { 4_096 } else { 0 };
        let base = u64::from(self.task.cb) * 2;
        constant(((place + past).wrapping_sub(base) % 8_192) as u16)
    }

    fn source(&mut self) -> u16 {
        if self.registers == 0 || self.random.chance(25) {
            let indexed = if self.random.chance(15) { INDEXED } else { 0 };
            let purpose = self.random.pick(&USES);
            return indexed | self.meant(purpose);
        }
        let access = self.access(&[1, 1, 1, 2, 2, 3]);
        self.register() | access
    }

    /// Mostly an even register, so that the odd ones keep what they hold.
    fn destination(&mut self) -> u16 {
        let access = self.access(&[1, 1, 2, 3]);
        let low = if self.random.chance(85) { 1 } else { 0 };
        self.register() & !low | access
    }

    fn access(&mut self, choices: &[u16]) -> u16 {
        if self.random.chance(self.accessed) {
            self.random.pick(choices) << 11
        } else {
            0
        }
    }

    /// A register of the window, mostly one of the first few.
    fn register(&mut self) -> u16 {
        let few = self.registers.clamp(1, 2_048);
        let few = if self.random.chance(70) { few.min(8) } else { few };
        let indexed = if self.random.chance(10) { INDEXED } else { 0 };
        indexed | register(self.random.below(few) as u16)
    }

    /// An instruction that breaks some rule, mostly.
    fn stray(&mut self) -> u64 {
        let word_of_code = |code: u16, random: &mut Random| word(code, random.draw() as u16, 0, 0);
        match self.random.below(12) {
            0 => self.random.draw(),
            1 => word_of_code(SVC, self.random),
            2 => word_of_code(self.random.pick(&codes::PRIVILEGED), self.random),
            3 => word_of_code(self.random.pick(&codes::SIMULATED), self.random),
            4 => self.instruction() ^ 1 << 48 << self.random.below(16),
            5 => self.instruction() | 0x4000 << self.random.pick(&[0, 16, 32]),
            6 => self.instruction() | 0x2000 << self.random.pick(&[0, 16, 32]),
            7 => self.instruction() | self.random.below(0x800) << self.random.pick(&[0, 16, 32]),
            8 => self.two() | self.random.between(1, 0xFFFF),
            9 => self.load() | self.random.pick(&[0x1, 0x2, 0xC, 0xE]) << 48,
            10 => self.store() | self.random.pick(&[0x1, 0x3, 0x4, 0x8]) << 48,
            _ => self.instruction() ^ 1 << self.random.below(48),
        }
    }
}
