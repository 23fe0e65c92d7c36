//! One item of a task: a try, a step, or both; each makes the checks in order, then the operation.

use crate::emulator::arithmetic::{add, bit, leftmost, mul, sub};
use crate::emulator::codes::{decode, forbidden, Op};
use crate::emulator::machine::*;
use crate::emulator::part;
use crate::emulator::psw;

/// Places of the operand fields in the instruction word. S0 stands where D does.
const D: u32 = 32;
const S1: u32 = 16;
const S2: u32 = 0;

const INDEXED: u64 = 0x8000;
const CONSTANT: u64 = 0x4000;

/// Bit 2 * AC + (1 if empty) is up where the access test is unmet.
const SOURCE_UNMET: u8 = 1 << 3 | 1 << 5 | 1 << 6;
const DESTINATION_UNMET: u8 = 1 << 3 | 1 << 4 | 1 << 6;

/// The running process and its instruction.
#[derive(Clone, Copy)]
struct At {
    attempt: Attempt,
    task: usize,
    pt: usize,
    psw: u64,
    word: u64,
}

/// Why an attempt isn't executed: it waits, for a data word or for another thing, or the trap of
/// that kind.
#[derive(Clone, Copy, PartialEq, Eq)]
#[repr(u8)]
enum Stop {
    Wave = NO_TRAP,
    DataWave = NO_TRAP - 1,
    CreateFault = CREATE_FAULT,
    Illegal = ILLEGAL,
    Protection = PROTECTION,
    Privileged = PRIVILEGED,
    SupervisorCall = SUPERVISOR_CALL,
    Simulated = SIMULATED,
    DataException = DATA_EXCEPTION,
}

impl At {
    /// Where only the operands count: status word and instruction of a task.
    fn of(task: u8, psw: u64, word: u64) -> Self {
        At { attempt: Attempt::Step, task: usize::from(task), pt: 0, psw, word }
    }
}

type Outcome = Result<(), Stop>;

/// An operand's cell and access code; a constant counts as code 0.
#[derive(Clone, Copy, Default)]
struct Place {
    cell: usize,
    access: u8,
}

#[derive(Clone, Copy, Default)]
struct Source {
    place: Place,
    word: u64,
}

/// The test of C on S2's word and state and the running status word.
#[inline(always)]
fn holds(at: &At, word: u64, empty: bool) -> bool {
    let value = word as i64;
    match at.word >> 52 & 15 {
        0x0 => false,                                // never
        0x1 => value < 0,                            // less than
        0x2 => value == 0,                           // equal to
        0x3 => value <= 0,                           // less than or equal to
        0x4 => value > 0,                            // greater than
        0x5 => value != 0,                           // not equal to
        0x6 => value >= 0,                           // greater than or equal to
        0x7 => true,                                 // always
        0x8 => empty,                                // empty
        0x9 => !empty,                               // full
        0xA => psw::ri(at.psw) == 0,                 // RI equal to zero
        0xB => psw::ri(at.psw) != 0,                 // RI not equal to zero
        0xC => psw::ci(at.psw) == 0,                 // CI equal to zero
        0xD => psw::ci(at.psw) != 0,                 // CI not equal to zero
        0xE => value.count_ones().is_multiple_of(2), // even parity
        _ => !value.count_ones().is_multiple_of(2),  // odd parity: code F
    }
}

/// The byte address that the words of these sources add up to.
#[inline(always)]
fn address(sources: &[Source]) -> u64 {
    let sum = sources.iter().fold(0, |sum: u64, s| sum.wrapping_add(s.word));
    sum & 0xFFFF_FFFF
}

impl Machine {
    /// The attempts of a task's item in turn, none if it is idle; one that traps is the last.
    #[inline(always)]
    pub fn attempts(&self, task: u8) -> &'static [Attempt] {
        let Some(row) = self.rows.get(usize::from(task)).filter(|row| row.kind == NO_TRAP) else {
            return &[];
        };
        match (row.sfu.is_empty(), row.queue.is_empty()) {
            (true, true) => &[],
            (true, false) => &[Attempt::Step],
            (false, true) => &[Attempt::Try],
            (false, false) => &[Attempt::Try, Attempt::Step],
        }
    }

    /// One item of a task; it ends as its last attempt does.
    #[inline(always)]
    pub fn item(&mut self, task: u8) -> Item {
        match self.attempts(task) {
            [Attempt::Step] => Item { tried: None, ending: self.attempt(task, Attempt::Step) },
            attempts => self.item_of(task, attempts),
        }
    }

    /// An item of these attempts; apart from `item`, so that an item of a step alone is fast.
    #[cold]
    #[inline(never)]
    fn item_of(&mut self, task: u8, attempts: &[Attempt]) -> Item {
        let mut item = Item { tried: None, ending: Ending::Idle };
        for &attempt in attempts {
            item.ending = self.attempt(task, attempt);
            if attempt == Attempt::Try {
                item.tried = Some(item.ending);
            }
            if let Ending::Trapped { .. } = item.ending {
                break;
            }
        }
        item
    }

    /// One attempt of an item, of the queue's head.
    #[inline(always)]
    pub fn attempt(&mut self, task: u8, attempt: Attempt) -> Ending {
        let task = usize::from(task);
        let row = &mut self.rows[task];
        let pt = row.attempted(attempt).head();
        let psw = self.psws[pt];
        let Some(real) = row.program.real(psw::pc(psw)) else {
            return self.trap(task, pt, Stop::Protection);
        };
        let word = self.program[real as usize];
        match self.execute(At { attempt, task, pt, psw, word }) {
            Ok(()) => Ending::Executed,
            Err(Stop::Wave) if attempt == Attempt::Step => {
                self.rows[task].queue.rotate();
                Ending::Waved
            }
            Err(Stop::Wave | Stop::DataWave) => {
                self.rows[task].head_to_sfu_tail(attempt);
                Ending::Waved
            }
            Err(stop) => self.trap(task, pt, stop),
        }
    }

    /// Traps a process, which stays head; PC is past the instruction for kinds 1A and 00.
    #[cold]
    fn trap(&mut self, task: usize, pt: usize, stop: Stop) -> Ending {
        let running = &mut self.psws[pt];
        if matches!(stop, Stop::SupervisorCall | Stop::CreateFault) {
            *running = psw::next(*running);
        }
        let row = &mut self.rows[task];
        row.kind = stop as u8;
        row.trapped = *running;
        Ending::Trapped { kind: row.kind, psw: row.trapped }
    }

    /// Checks 2 to 8, then the operation.
    #[inline(always)]
    fn execute(&mut self, at: At) -> Outcome {
        let op = decode(at.word);
        if forbidden(op, at.word) {
            return Err(Stop::Illegal);
        }
        match op {
            Op::Unlisted => Err(Stop::Illegal),
            Op::Privileged => Err(Stop::Privileged),
            Op::Simulated => Err(Stop::Simulated),
            Op::Svc => Err(Stop::SupervisorCall),
            Op::Nop => self.advance(at, psw::next(at.psw)),
            Op::Mov => self.compute(at, [S1], |[a]| (a, 0)),
            Op::Clr => self.compute(at, [], |[]| (0, 0)),
            Op::One => self.compute(at, [], |[]| (!0, 0)),
            Op::Not => self.compute(at, [S1], |[a]| (!a, 0)),
            Op::Eor => self.compute(at, [S1, S2], |[a, b]| (a ^ b, 0)),
            Op::Eqv => self.compute(at, [S1, S2], |[a, b]| (!(a ^ b), 0)),
            Op::Nand => self.compute(at, [S1, S2], |[a, b]| (!(a & b), 0)),
            Op::Nor => self.compute(at, [S1, S2], |[a, b]| (!(a | b), 0)),
            Op::Or => self.compute(at, [S1, S2], |[a, b]| (a | b, 0)),
            Op::Bitclr => self.compute(at, [S1, S2], |[a, b]| (a & !bit(b), 0)),
            Op::Bitset => self.compute(at, [S1, S2], |[a, b]| (a | bit(b), 0)),
            Op::Encode0 => self.compute(at, [S1], |[a]| (leftmost(!a), 0)),
            Op::Encode1 => self.compute(at, [S1], |[a]| (leftmost(a), 0)),
            Op::Dec => self.compute(at, [S1], |[a]| sub(a, 1)),
            Op::Inc => self.compute(at, [S1], |[a]| add(a, 1)),
            Op::Add => self.compute(at, [S1, S2], |[a, b]| add(a, b)),
            Op::Sub => self.compute(at, [S1, S2], |[a, b]| sub(a, b)),
            Op::Mul => self.compute(at, [S1, S2], |[a, b]| mul(a, b)),
            Op::Branch => self.branch(at),
            Op::Call => self.call(at),
            Op::Create => self.create(at),
            Op::Quit => self.quit(at),
            Op::Lodi => self.load(at, [S1]),
            Op::Lodx => self.load(at, [S1, S2]),
            Op::Stoi => self.store(at, [S2, S1]),
            Op::Stox => self.store(at, [D, S1, S2]),
        }
    }

    /// Check 4 for one operand.
    #[inline(always)]
    fn place(&self, at: &At, shift: u32) -> Result<Place, Stop> {
        let field = at.word >> shift;
        let index = |value| if field & INDEXED != 0 { value } else { 0 };
        let row = &self.rows[at.task];
        if field & CONSTANT != 0 {
            let real = u64::from(row.constant_base) + (field & 0x1FFF) + index(psw::ci(at.psw));
            return Ok(Place { cell: REGISTERS + real as usize % CONSTANTS, access: 0 });
        }
        match row.registers.real((field & 0x7FF) + index(psw::ri(at.psw))) {
            Some(real) => Ok(Place { cell: real as usize, access: (field >> 11 & 3) as u8 }),
            None => Err(Stop::Protection),
        }
    }

    /// The cell that the ith of an instruction's three fields names as an operand.
    pub(crate) fn operand_cell(&self, task: u8, psw: u64, word: u64, i: usize) -> Option<usize> {
        let at = At::of(task, psw, word);
        self.place(&at, 32 - 16 * i as u32).ok().map(|place| place.cell)
    }

    /// The byte address of a load or store whose operands lie in their windows.
    pub fn data_address(&self, task: u8, psw: u64, word: u64) -> Option<u64> {
        let fields: &[u32] = match decode(word) {
            Op::Lodi | Op::Stoi => &[S1],
            Op::Lodx | Op::Stox => &[S1, S2],
            _ => return None,
        };
        let at = At::of(task, psw, word);
        let source = |&field: &u32| {
            let place = self.place(&at, field).ok()?;
            Some(Source { place, word: self.words[place.cell] })
        };
        let sources: Option<Vec<Source>> = fields.iter().map(source).collect();
        Some(address(&sources?))
    }

    /// Check 4 for the destination, which can't be a constant.
    #[inline(always)]
    fn destination(&self, at: &At) -> Result<Place, Stop> {
        if at.word >> D & CONSTANT != 0 {
            return Err(Stop::Protection);
        }
        self.place(at, D)
    }

    /// Check 5 for one operand.
    #[inline(always)]
    fn unmet(&self, rule: u8, place: Place) -> bool {
        let empty = self.tags[place.cell] >> 3;
        place.access != 0 && rule >> (place.access << 1 | empty) & 1 != 0
    }

    /// Check 6 for one source, register or constant.
    #[inline(always)]
    fn excepted(&self, mask: u64, place: Place) -> bool {
        mask & 0x80 >> (self.tags[place.cell] & 7) != 0
    }

    /// The test of C on S2.
    #[inline(always)]
    fn holds(&self, at: &At, s2: &Source) -> bool {
        holds(at, s2.word, self.tags[s2.place.cell] & EMPTY != 0)
    }

    /// Checks 4 to 6 for the sources; `waits` tells of an unmet destination.
    #[inline(always)]
    fn sources<const N: usize>(
        &self,
        at: &At,
        fields: [u32; N],
        waits: bool,
    ) -> Result<[Source; N], Stop> {
        let mut sources = [Source::default(); N];
        for (source, field) in sources.iter_mut().zip(fields) {
            source.place = self.place(at, field)?;
        }
        if waits || sources.iter().any(|source| self.unmet(SOURCE_UNMET, source.place)) {
            return Err(Stop::Wave);
        }
        let mask = psw::utm(at.psw);
        if mask != 0 && sources.iter().any(|source| self.excepted(mask, source.place)) {
            return Err(Stop::DataException);
        }
        for source in &mut sources {
            source.word = self.words[source.place.cell];
        }
        Ok(sources)
    }

    /// Checks 4 to 6 for a destination and sources.
    #[inline(always)]
    fn operands<const N: usize>(
        &self,
        at: &At,
        fields: [u32; N],
    ) -> Result<(Place, [Source; N]), Stop> {
        let d = self.destination(at)?;
        let waits = self.unmet(DESTINATION_UNMET, d);
        Ok((d, self.sources(at, fields, waits)?))
    }

    /// Sets the sources under code 2 empty.
    #[inline(always)]
    fn release(&mut self, sources: &[Source]) {
        for source in sources {
            if source.place.access == 2 {
                self.tags[source.place.cell] |= EMPTY;
            }
        }
    }

    #[inline(always)]
    fn write(&mut self, d: Place, word: u64, quality: u8) {
        self.words[d.cell] = word;
        self.tags[d.cell] = if d.access == 3 { quality | EMPTY } else { quality };
    }

    /// The process goes to the tail of its task's own queue with this status word.
    #[inline(always)]
    fn advance(&mut self, at: At, psw: u64) -> Outcome {
        self.psws[at.pt] = psw;
        self.rows[at.task].head_to_own_tail(at.attempt);
        Ok(())
    }

    /// D gets what `f` makes of the sources.
    #[inline(always)]
    fn compute<const N: usize>(
        &mut self,
        at: At,
        fields: [u32; N],
        f: impl Fn([u64; N]) -> (u64, u8),
    ) -> Outcome {
        let (d, sources) = self.operands(&at, fields)?;
        let (word, quality) = f(sources.map(|source| source.word));
        self.release(&sources);
        self.write(d, word, quality);
        self.advance(at, psw::next(at.psw))
    }

    #[inline(always)]
    fn branch(&mut self, at: At) -> Outcome {
        let sources = self.sources(&at, [S1, S2], false)?;
        let [s1, s2] = sources;
        let target = at.word >> 32 & psw::PC;
        let next = if self.holds(&at, &s2) {
            psw::add(at.psw & !psw::PC | target, s1.word)
        } else {
            psw::next(at.psw)
        };
        self.release(&sources);
        self.advance(at, next)
    }

    #[inline(always)]
    fn call(&mut self, at: At) -> Outcome {
        let (d, sources) = self.operands(&at, [S1, S2])?;
        let [s1, s2] = sources;
        let next = psw::next(at.psw);
        let act = u64::from(self.holds(&at, &s2));
        self.release(&sources);
        self.write(d, next, 0);
        self.advance(at, psw::merge(next, s1.word, act))
    }

    #[inline(always)]
    fn quit(&mut self, at: At) -> Outcome {
        let sources = self.sources(&at, [S2], false)?;
        let leaves = self.holds(&at, &sources[0]);
        self.release(&sources);
        if !leaves {
            return self.advance(at, psw::next(at.psw));
        }
        self.leave(at.task, at.attempt, at.pt);
        Ok(())
    }

    #[inline(always)]
    fn create(&mut self, at: At) -> Outcome {
        let sources = self.sources(&at, [S1, S2], false)?;
        let [s1, s2] = sources;
        let next = psw::next(at.psw);
        if !self.holds(&at, &s2) {
            self.release(&sources);
            return self.advance(at, next);
        }
        if self.flag {
            return Err(Stop::Wave);
        }
        self.release(&sources);
        let created = (!self.used).trailing_zeros() as usize;
        self.psws[created] = psw::merge(next, s1.word, at.word >> 48);
        if usize::from(self.live_total) + 1 == PROCESSES {
            self.flag = true;
            self.join(at.task, Attempt::Step, created);
            return Err(Stop::CreateFault);
        }
        self.advance(at, next)?;
        self.join(at.task, Attempt::Step, created);
        Ok(())
    }

    /// Check 7, its protection violation: the place of a data word.
    #[inline(always)]
    fn checked_data_place(&self, at: &At, address: u64) -> Result<usize, Stop> {
        let real = self.rows[at.task].data.real(address);
        match (real, address < 1 << 31) {
            (Some(real), true) => Ok(real as usize / 8),
            _ => Err(Stop::Protection),
        }
    }

    /// LODI and LODX: the sources add up to the address.
    #[inline(always)]
    fn load<const N: usize>(&mut self, at: At, fields: [u32; N]) -> Outcome {
        let (d, sources) = self.operands(&at, fields)?;
        let address = address(&sources);
        let place = self.checked_data_place(&at, address)?;
        let loaded = part::loaded(at.word, address, self.data[place]).ok_or(Stop::Illegal)?;
        let sac = at.word >> 50 & 3;
        if sac != 0 && self.full[place] == 0 {
            return Err(Stop::DataWave);
        }
        self.release(&sources);
        if sac == 2 {
            self.full[place] = 0;
        }
        self.write(d, loaded, 0);
        self.advance(at, psw::next(at.psw))
    }

    /// STOI and STOX: the first source is stored, the others add up to the address.
    #[inline(always)]
    fn store<const N: usize>(&mut self, at: At, fields: [u32; N]) -> Outcome {
        let sources = self.sources(&at, fields, false)?;
        let address = address(&sources[1..]);
        let place = self.checked_data_place(&at, address)?;
        let stored = part::stored(at.word, address, self.data[place], sources[0].word);
        let stored = stored.ok_or(Stop::Illegal)?;
        let dac = at.word >> 48 & 3;
        if dac == 2 && self.full[place] == 1 {
            return Err(Stop::DataWave);
        }
        self.release(&sources);
        self.data[place] = stored;
        self.full[place] = 1;
        self.advance(at, psw::next(at.psw))
    }
}
