//! Operation codes: one table of the operations, which decoding, the generator and
//! the text share.

/// What an instruction's code stands for.
#[derive(Clone, Copy, PartialEq, Eq, Debug)]
#[repr(u8)]
pub enum Op {
    Unlisted,
    Privileged,
    Simulated,
    Svc,
    Nop,
    Mov,
    Clr,
    One,
    Not,
    Eor,
    Eqv,
    Nand,
    Nor,
    Or,
    Bitclr,
    Bitset,
    Encode0,
    Encode1,
    Dec,
    Inc,
    Add,
    Sub,
    Mul,
    Branch,
    Call,
    Create,
    Quit,
    Lodi,
    Lodx,
    Stoi,
    Stox,
}

/// Codes of the chapter 5 pages marked privileged.
pub const PRIVILEGED: [u16; 27] = [
    0x0700, 0x3601, 0x3700, 0x3B7F, 0x3C00, 0x4A00, 0x5700, 0x5800, 0x7600, 0x8700, 0x8701, 0x9900,
    0x9901, 0x9902, 0x9903, 0xB700, 0xC900, 0xD700, 0xE10E, 0xE11F, 0xE705, 0xE706, 0xE707, 0xE97F,
    0xEC00, 0xF101, 0xF10D,
];

/// Codes carried out by software.
pub const SIMULATED: [u16; 4] = [0x7200, 0x7F00, 0x610A, 0x6108];

/// What the low bits of a code hold.
#[derive(Clone, Copy, PartialEq, Eq, Debug)]
pub enum Low {
    /// Nothing: the code is whole.
    Whole,
    /// A test in the low digit but one.
    Test,
    /// A test, then the high digit of P.
    TestTarget,
    /// A test, then ACT.
    TestAct,
    /// B and SAC.
    Load,
    /// B and DAC.
    Store,
}

/// The role of an instruction's second, third or fourth field.
#[derive(Clone, Copy, PartialEq, Eq, Debug)]
pub enum Role {
    Unused,
    /// Any value; of B it is the low part of P.
    Free,
    Destination,
    Source,
}

/// An operation: its name in chapter 5, its code with the low bits zero, the roles of
/// its fields, and the order in which the assembler names those in use.
#[derive(Clone, Copy, Debug)]
pub struct Operation {
    pub op: Op,
    pub name: &'static str,
    pub code: u16,
    pub low: Low,
    pub fields: [Role; 3],
    pub order: &'static [usize],
}

/// An operation that names its fields in their order.
const fn row(op: Op, name: &'static str, code: u16, low: Low, fields: [Role; 3]) -> Operation {
    let order: &[usize] = match fields {
        [Role::Unused, Role::Unused, Role::Unused] => &[],
        [Role::Unused, Role::Unused, _] => &[2],
        [Role::Unused, _, _] => &[1, 2],
        [_, Role::Unused, _] => &[0],
        [_, _, Role::Unused] => &[0, 1],
        _ => &[0, 1, 2],
    };
    Operation { op, name, code, low, fields, order }
}

/// The same with the assembler's own order.
const fn turned(operation: Operation, order: &'static [usize]) -> Operation {
    Operation { order, ..operation }
}

/// Every operation that document 01 lists.
pub const OPERATIONS: [Operation; 28] = {
    use Low::*;
    use Role::{Destination as D, Free, Source as S, Unused as U};
    [
        row(Op::Svc, "SVC", 0x0900, Whole, [Free, U, U]),
        row(Op::Nop, "NOP", 0x0000, Whole, [U, U, U]),
        row(Op::Mov, "MOV", 0x611F, Whole, [D, S, U]),
        row(Op::Clr, "CLR", 0x411C, Whole, [D, U, U]),
        row(Op::One, "ONE", 0x4113, Whole, [D, U, U]),
        row(Op::Not, "NOT", 0x6110, Whole, [D, S, U]),
        row(Op::Eor, "EOR", 0x7119, Whole, [D, S, S]),
        row(Op::Eqv, "EQV", 0x7116, Whole, [D, S, S]),
        row(Op::Nand, "NAND", 0x7111, Whole, [D, S, S]),
        row(Op::Nor, "NOR", 0x7114, Whole, [D, S, S]),
        row(Op::Or, "OR", 0x711B, Whole, [D, S, S]),
        row(Op::Bitclr, "BITCLR", 0x7728, Whole, [D, S, S]),
        row(Op::Bitset, "BITSET", 0x7720, Whole, [D, S, S]),
        row(Op::Encode0, "ENCODE0", 0x6718, Whole, [D, S, U]),
        row(Op::Encode1, "ENCODE1", 0x6710, Whole, [D, S, U]),
        row(Op::Dec, "DEC", 0x612F, Whole, [D, S, U]),
        row(Op::Inc, "INC", 0x6130, Whole, [D, S, U]),
        row(Op::Add, "ADD", 0x7126, Whole, [D, S, S]),
        row(Op::Sub, "SUB", 0x7139, Whole, [D, S, S]),
        row(Op::Mul, "MUL", 0x7320, Whole, [D, S, S]),
        turned(row(Op::Branch, "B", 0x3800, TestTarget, [Free, S, S]), &[0, 2, 1]),
        row(Op::Call, "CALL", 0x7901, Test, [D, S, S]),
        row(Op::Create, "CREATE", 0x3900, TestAct, [U, S, S]),
        row(Op::Quit, "QT", 0x1900, Test, [U, U, S]),
        row(Op::Lodi, "LODI", 0x6C00, Load, [D, S, U]),
        row(Op::Lodx, "LODX", 0x7C00, Load, [D, S, S]),
        turned(row(Op::Stoi, "STOI", 0xBC00, Store, [U, S, S]), &[2, 1]),
        row(Op::Stox, "STOX", 0xFC00, Store, [S, S, S]),
    ]
};

/// The operation's row in the table, if it has one.
pub const fn operation(op: Op) -> Option<&'static Operation> {
    let mut i = 0;
    while i < OPERATIONS.len() {
        if OPERATIONS[i].op as u8 == op as u8 {
            return Some(&OPERATIONS[i]);
        }
        i += 1;
    }
    None
}

static CODES: [Op; 65_536] = codes();

const fn codes() -> [Op; 65_536] {
    let mut table = [Op::Unlisted; 65_536];
    let mut i = 0;
    while i < OPERATIONS.len() {
        table = fill(table, &OPERATIONS[i]);
        i += 1;
    }
    table = set(table, &PRIVILEGED, Op::Privileged);
    set(table, &SIMULATED, Op::Simulated)
}

const fn set(mut table: [Op; 65_536], codes: &[u16], op: Op) -> [Op; 65_536] {
    let mut i = 0;
    while i < codes.len() {
        table[codes[i] as usize] = op;
        i += 1;
    }
    table
}

/// Sets the codes of an operation: those whose low bits are legal.
const fn fill(mut table: [Op; 65_536], operation: &Operation) -> [Op; 65_536] {
    let mut low = 0;
    while low < 0x100 {
        if legal(operation.low, low) {
            table[(operation.code | low) as usize] = operation.op;
        }
        low += 1;
    }
    table
}

/// Whether the low bits may be these: SAC is 0, 1 or 2, and DAC 0 or 2.
const fn legal(low: Low, bits: u16) -> bool {
    match low {
        Low::Whole => bits == 0,
        Low::Test => bits.is_multiple_of(16),
        Low::TestTarget | Low::TestAct => true,
        Low::Load => matches!(bits & !0x10, 0x0 | 0x4 | 0x8),
        Low::Store => matches!(bits & !0x10, 0x0 | 0x2),
    }
}

/// The operation of an instruction word.
#[inline(always)]
pub fn decode(word: u64) -> Op {
    CODES[(word >> 48) as usize]
}

const OPS: usize = Op::Stox as usize + 1;

/// For each operation the instruction bits that make it illegal: the whole of an
/// unused field; bit 2 of an operand (AC 4 to 7, or a constant's unused bit).
static FORBIDDEN: [u64; OPS] = forbidden_table();

const fn forbidden_table() -> [u64; OPS] {
    let mut table = [0; OPS];
    let mut i = 0;
    while i < OPERATIONS.len() {
        let [first, second, third] = OPERATIONS[i].fields;
        let bits = forbidden_bits(first) << 32 | forbidden_bits(second) << 16;
        table[OPERATIONS[i].op as usize] = bits | forbidden_bits(third);
        i += 1;
    }
    table
}

const fn forbidden_bits(role: Role) -> u64 {
    match role {
        Role::Unused => 0xFFFF,
        Role::Free => 0,
        Role::Destination | Role::Source => 0x2000,
    }
}

/// Whether the instruction has an illegal access code or a nonzero unused field.
#[inline(always)]
pub fn forbidden(op: Op, word: u64) -> bool {
    word & FORBIDDEN[op as usize] != 0
}

/// The operation of a word that check 2 passes.
pub fn listed(word: u64) -> Option<&'static Operation> {
    let op = decode(word);
    if forbidden(op, word) {
        return None;
    }
    operation(op)
}
