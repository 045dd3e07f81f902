//! Random code: whole blocks inside each other, breaks and continues, and memory accesses that mostly
//! find their word.

use super::random::Random;
use crate::arithmetic;
use crate::operations::{Form, Operation};
use crate::words::{self, Instruction};

/// The operations that leave a round of a loop.
const JUMPS: [Operation; 2] = [Operation::Break, Operation::Continue];
/// Offsets of loads and stores that mostly find their word.
const OFFSETS: [u32; 7] = [0, 0, 0, 0, 0, 4, 8];

/// Writes random code for so many registers of a lane and words of each memory.
pub struct Coder<'a> {
    pub random: &'a mut Random,
    pub registers: u32,
    pub device: usize,
    pub local: usize,
    pub code: Vec<u32>,
    /// How many blocks are open, and how many of them are loops.
    depth: usize,
    loops: usize,
}

/// The words of an instruction that words give.
pub fn words_of(instruction: &Instruction) -> Vec<u32> {
    let mut output = [0; 2];
    let length = words::write(instruction, &mut output).expect("an instruction that words give");
    output[..length].to_vec()
}

/// A random instruction of this operation that the desk carries, for so many registers.
pub fn instruction(random: &mut Random, operation: Operation, registers: u32) -> Instruction {
    let mut i = Instruction::plain(operation);
    let mut register = || random.below(registers as usize) as u32;
    let form = operation.form();
    if form != Form::Control {
        (i.rd, i.rs1) = (register(), register());
    }
    match form {
        Form::TwoSources | Form::Comparison | Form::Atomic | Form::Shuffle => i.rs2 = register(),
        Form::CompareAndSwap => (i.rs2, i.rs3) = (register(), register()),
        _ => (),
    }
    match form {
        Form::Comparison => i.rd = 1 + random.below(3) as u32,
        Form::Special => i.rs1 = random.below(3) as u32,
        Form::Immediate => (i.rs1, i.number) = (0, random.word()),
        Form::Memory => i.number = random.word(),
        Form::Atomic | Form::CompareAndSwap => i.scope = random.below(4) as u32,
        _ => (),
    }
    let often = match operation {
        Operation::If => 100,
        Operation::Break | Operation::Continue | Operation::Halt => 85,
        _ => 30,
    };
    if words::takes_predicate(operation) && random.chance(often) {
        i.predicate = 1 + random.below(3) as u32;
        i.negate = random.chance(50);
    }
    i
}

impl<'a> Coder<'a> {
    pub fn new(random: &'a mut Random, registers: u32, device: usize, local: usize) -> Coder<'a> {
        Coder {
            random,
            registers,
            device,
            local,
            code: Vec::new(),
            depth: 0,
            loops: 0,
        }
    }

    fn emit(&mut self, instruction: &Instruction) {
        self.code.extend(words_of(instruction));
    }

    fn plain(&mut self, operation: Operation) {
        self.emit(&Instruction::plain(operation));
    }

    fn some(&mut self, operation: Operation) {
        let instruction = instruction(self.random, operation, self.registers);
        self.emit(&instruction);
    }

    fn register(&mut self) -> u32 {
        self.random.below(self.registers as usize) as u32
    }

    fn immediate(&mut self, rd: u32, number: u32) {
        self.emit(&Instruction {
            rd,
            number,
            ..Instruction::plain(Operation::MovImm)
        });
    }

    /// A random program, mostly with predicates that differ between the lanes.
    pub fn program(&mut self, width: u32) {
        if self.random.chance(70) {
            self.part(width);
        }
        let items = self.random.below(36);
        self.items(items);
    }

    /// Sets the predicates so that the lanes differ, given two registers: some lower ones in p1, some higher ones in
    /// p2, one in p3.
    pub fn part(&mut self, width: u32) {
        let lane = self.register();
        let number = (lane + 1) % self.registers;
        self.emit(&Instruction {
            rd: lane,
            ..Instruction::plain(Operation::MovSpecial)
        });
        for (rd, operation) in (1..).zip([Operation::Lt, Operation::Ge, Operation::Eq]) {
            let limit = self.random.below(width as usize) as u32;
            self.immediate(number, limit);
            self.emit(&Instruction {
                rd,
                rs1: lane,
                rs2: number,
                ..Instruction::plain(operation)
            });
        }
    }

    /// So many random items: instructions, accesses, whole blocks.
    pub fn items(&mut self, count: usize) {
        for _ in 0..count {
            let inside = usize::from(self.depth > 0);
            let jumps = if self.loops > 0 {
                8 + 4 * self.depth
            } else {
                0
            };
            let blocks = if self.depth < 6 { 9 } else { 0 };
            let weights = [36, 26, 10, blocks, blocks, jumps, 2, 1 + inside, 3, 18];
            match self.random.weighted(&weights) {
                0 => self.computation(),
                1 => self.access(),
                2 => self.comparison(),
                3 => self.branch(),
                4 => self.round(),
                5 => {
                    let operation = self.random.pick(&JUMPS);
                    self.some(operation);
                }
                6 => self.some(Operation::Halt),
                7 => self.plain(Operation::Barrier),
                8 => self.plain(Operation::Nop),
                _ => self.wave(),
            }
        }
    }

    /// An operation on registers; a division mostly after its divisor got a number.
    fn computation(&mut self) {
        let operation = self.any_of(|form| {
            matches!(
                form,
                Form::TwoSources | Form::OneSource | Form::Special | Form::Immediate
            )
        });
        let instruction = instruction(self.random, operation, self.registers);
        if arithmetic::divides(operation) && self.random.chance(75) {
            self.divisor(&instruction);
        }
        self.emit(&instruction);
    }

    /// Gives the divisor a number that isn't 0; at times the two of the overflowing quotient.
    fn divisor(&mut self, division: &Instruction) {
        if self.random.chance(20) {
            self.immediate(division.rs1, 0x80000000);
            self.immediate(division.rs2, 0xFFFFFFFF);
        } else {
            let divisor = self.random.word().max(1);
            self.immediate(division.rs2, divisor);
        }
    }

    fn comparison(&mut self) {
        let operation = self.any_of(|form| form == Form::Comparison);
        self.some(operation);
    }

    /// An operation whose form is wanted.
    fn any_of(&mut self, wanted: fn(Form) -> bool) -> Operation {
        let all = Operation::ALL.iter().copied();
        let found: Vec<Operation> = all.filter(|op| wanted(op.form())).collect();
        self.random.pick(&found)
    }

    /// An access to memory, mostly after its base got the address of some word. Where it didn't, a load or store
    /// has any offset.
    fn access(&mut self) {
        let operation = match self.random.below(5) {
            0..=2 => self.any_of(|form| matches!(form, Form::Atomic | Form::CompareAndSwap)),
            _ => self.any_of(|form| form == Form::Memory),
        };
        let mut instruction = instruction(self.random, operation, self.registers);
        if self.random.chance(93) {
            self.near(&mut instruction);
            self.address(&instruction);
        }
        self.emit(&instruction);
    }

    /// Gives a load or store a small offset.
    fn near(&mut self, access: &mut Instruction) {
        if access.operation.form() == Form::Memory {
            access.number = self.random.pick(&OFFSETS);
        }
    }

    /// Gives the base register of an access one word's address for all lanes, or a word's for each lane. Where the
    /// one word's address is below the offset, the sum reaches 2^32.
    fn address(&mut self, access: &Instruction) {
        let words = match access.operation {
            Operation::LocalLoad | Operation::LocalStore => self.local,
            _ => self.device,
        };
        let (base, other) = (access.rs1, self.register());
        if other == base || words < 32 && self.random.chance(80) {
            let address = 4 * self.random.below(words.max(1)) as u32;
            return self.immediate(base, address.wrapping_sub(access.number));
        }
        self.emit(&Instruction {
            rd: base,
            ..Instruction::plain(Operation::MovSpecial)
        });
        let shift = self.random.pick(&[2, 2, 2, 2, 2, 2, 2, 1]);
        self.immediate(other, shift);
        self.emit(&Instruction {
            rd: base,
            rs1: base,
            rs2: other,
            ..Instruction::plain(Operation::Shl)
        });
    }

    /// A wave operation; a SHUFFLE mostly after its RS2 got lane numbers.
    fn wave(&mut self) {
        let operation = self.any_of(Form::is_wave);
        let instruction = instruction(self.random, operation, self.registers);
        if operation == Operation::Shuffle && self.random.chance(80) {
            self.lane_numbers(&instruction);
        }
        self.emit(&instruction);
    }

    /// Gives a SHUFFLE's RS2 one lane's number for all lanes, or another lane's for each; some are past the width.
    fn lane_numbers(&mut self, shuffle: &Instruction) {
        let (lane, other) = (shuffle.rs2, self.register());
        let most = self.random.pick(&[4, 8, 16, 32, 40]);
        let number = self.random.below(most) as u32;
        if other == lane || self.random.chance(20) {
            return self.immediate(lane, number);
        }
        self.emit(&Instruction {
            rd: lane,
            ..Instruction::plain(Operation::MovSpecial)
        });
        self.immediate(other, number);
        let operation = self
            .random
            .pick(&[Operation::Add, Operation::Sub, Operation::Xor]);
        self.emit(&Instruction {
            rd: lane,
            rs1: other,
            rs2: lane,
            ..Instruction::plain(operation)
        });
    }

    /// A wave operation in every lane, in the lane of p3, in the others, and in each half of an IF.
    pub fn guarded(&mut self, operation: Operation) {
        for (predicate, negate) in [(0, false), (3, false), (3, true)] {
            self.swept((operation, predicate, negate));
        }
        let negate = self.random.chance(50);
        self.emit(&Instruction {
            predicate: 3,
            negate,
            ..Instruction::plain(Operation::If)
        });
        self.swept((operation, 0, false));
        self.plain(Operation::Else);
        self.swept((operation, 0, false));
        self.plain(Operation::Endif);
    }

    /// Every instruction that isn't control, in random order, each once on every lane, once on a
    /// predicate and once on one negated, with addresses and divisors that don't fault.
    pub fn sweep(&mut self) {
        let all = Operation::ALL.iter().copied();
        let mut left: Vec<(Operation, u32, bool)> = all
            .filter(|op| op.form() != Form::Control)
            .flat_map(|op| [(op, 0, false), (op, 1, false), (op, 1, true)])
            .collect();
        while !left.is_empty() {
            let next = left.swap_remove(self.random.below(left.len()));
            self.swept(next);
        }
    }

    /// One instruction of a sweep.
    fn swept(&mut self, (operation, predicate, negate): (Operation, u32, bool)) {
        let mut instruction = instruction(self.random, operation, self.registers);
        (instruction.predicate, instruction.negate) = (predicate, negate);
        match operation.form() {
            Form::Comparison => instruction.rd = 2 + self.random.below(2) as u32,
            Form::TwoSources if arithmetic::divides(operation) => self.divisor(&instruction),
            Form::Shuffle => self.lane_numbers(&instruction),
            Form::Memory | Form::Atomic | Form::CompareAndSwap => {
                self.near(&mut instruction);
                let address = 4 * self.random.below(8) as u32;
                self.immediate(instruction.rs1, address.saturating_sub(instruction.number));
            }
            _ => (),
        }
        self.emit(&instruction);
    }

    /// An IF, often with an ELSE.
    fn branch(&mut self) {
        self.some(Operation::If);
        self.depth += 1;
        let count = self.random.below(5);
        self.items(count);
        if self.loops > 0 && self.random.chance(40) {
            let operation = self.random.pick(&JUMPS);
            self.plain(operation);
        }
        if self.random.chance(60) {
            self.plain(Operation::Else);
            let count = self.random.below(5);
            self.items(count);
        }
        self.depth -= 1;
        self.plain(Operation::Endif);
    }

    /// A LOOP, often with a counter that breaks it.
    fn round(&mut self) {
        let (counter, limit) = (self.register(), self.register());
        let counted = counter != limit && self.random.chance(70);
        if counted {
            self.immediate(counter, 0);
        }
        self.plain(Operation::Loop);
        self.depth += 1;
        self.loops += 1;
        let count = 1 + self.random.below(5);
        self.items(count);
        if counted {
            self.count(counter, limit);
        }
        self.loops -= 1;
        self.depth -= 1;
        self.plain(Operation::Endloop);
    }

    /// Adds one to the counter, and breaks where it has got to some small number.
    fn count(&mut self, counter: u32, limit: u32) {
        self.immediate(limit, 1);
        self.emit(&Instruction {
            rd: counter,
            rs1: counter,
            rs2: limit,
            ..Instruction::plain(Operation::Add)
        });
        let rounds = 1 + self.random.below(3) as u32;
        self.immediate(limit, rounds);
        let predicate = 1 + self.random.below(3) as u32;
        self.emit(&Instruction {
            rd: predicate,
            rs1: counter,
            rs2: limit,
            ..Instruction::plain(Operation::Ge)
        });
        self.emit(&Instruction {
            predicate,
            ..Instruction::plain(Operation::Break)
        });
    }

    /// So many blocks inside each other, IF and LOOP mixed, with a break before each end of a loop.
    pub fn nest(&mut self, depth: usize) {
        let kinds: Vec<bool> = (0..depth).map(|_| self.random.chance(50)).collect();
        for is_loop in &kinds {
            match is_loop {
                true => self.plain(Operation::Loop),
                false => self.some(Operation::If),
            }
        }
        self.items_here(2);
        for is_loop in kinds.iter().rev() {
            match is_loop {
                true => {
                    self.plain(Operation::Break);
                    self.plain(Operation::Endloop);
                }
                false => self.plain(Operation::Endif),
            }
        }
    }

    /// A loop of breaks, continues and halts on predicates, some of them inside an IF.
    pub fn jumping_loop(&mut self) {
        self.plain(Operation::Loop);
        for _ in 0..1 + self.random.below(3) {
            let inside = self.random.chance(50);
            if inside {
                self.some(Operation::If);
            }
            let [jump, other] = JUMPS;
            let operation = self.random.pick(&[jump, other, Operation::Halt]);
            self.some(operation);
            if inside {
                self.plain(Operation::Endif);
            }
        }
        self.plain(Operation::Endloop);
    }

    /// Control instructions one after another, mostly an opener first, whatever blocks are open.
    pub fn control_only(&mut self, count: usize) {
        use Operation::*;
        let all = [
            If, Else, Else, Else, Endif, Endif, Loop, Break, Continue, Endloop, Endloop,
        ];
        if self.random.chance(70) {
            let opener = self.random.pick(&[If, If, Loop]);
            self.some(opener);
        }
        for _ in 0..count {
            let operation = self.random.pick(&all);
            self.some(operation);
        }
    }

    /// So many items without blocks.
    fn items_here(&mut self, count: usize) {
        for _ in 0..count {
            self.computation();
        }
    }
}
