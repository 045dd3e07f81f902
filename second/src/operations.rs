//! The operations that the desk carries, each with its opcode, its modifier and the form of its words.

/// How an operation uses the fields of its words.
#[derive(Clone, Copy, Debug, PartialEq, Eq)]
pub enum Form {
    /// Two words: RD, RS1, RS2.
    TwoSources,
    /// Two words, as `TwoSources`, where RD names a predicate from 1 to 3.
    Comparison,
    /// One word: RD, RS1.
    OneSource,
    /// One word: RD, and in RS1 a special number from 0 to 2.
    Special,
    /// Two words: RD and a number.
    Immediate,
    /// Two words: RD, the base in RS1, and the offset as a number.
    Memory,
    /// Two words: RD, the address in RS1, the operand in RS2, a scope.
    Atomic,
    /// Two words: RD, the address in RS1, expected in RS2, desired in RS3, a scope.
    CompareAndSwap,
    /// Two words: RD, and RS1 of all executing lanes.
    Wave,
    /// Two words: RD, and RS1 of the lane whose number is in RS2.
    Shuffle,
    /// One word without registers.
    Control,
}

impl Form {
    /// Whether its operations are wave operations, whose results are made of several lanes' registers.
    pub fn is_wave(self) -> bool {
        matches!(self, Form::Wave | Form::Shuffle)
    }
}

/// One table for the operations: variant, opcode times 16 plus modifier, form, name.
macro_rules! operations {
    ($($variant:ident $number:literal $form:ident $name:literal),* $(,)?) => {
        /// An operation: its opcode, and its modifier where the opcode lists several.
        #[derive(Clone, Copy, Debug, PartialEq, Eq)]
        pub enum Operation {
            $($variant),*
        }

        impl Operation {
            /// Every operation, in the page's order.
            pub const ALL: &'static [Operation] = &[$(Operation::$variant),*];

            /// The operation with this opcode times 16 plus modifier, if the desk carries it.
            pub fn with_number(number: u32) -> Option<Operation> {
                match number {
                    $($number => Some(Operation::$variant),)*
                    _ => None,
                }
            }

            /// Opcode times 16 plus modifier.
            pub fn number(self) -> u32 {
                match self {
                    $(Operation::$variant => $number),*
                }
            }

            /// The form of its words.
            pub fn form(self) -> Form {
                match self {
                    $(Operation::$variant => Form::$form),*
                }
            }

            /// Its name on the page.
            pub fn name(self) -> &'static str {
                match self {
                    $(Operation::$variant => $name),*
                }
            }
        }
    };
}

operations! {
    Add 0x000 TwoSources "ADD",
    Sub 0x010 TwoSources "SUB",
    Mul 0x020 TwoSources "MUL",
    Div 0x030 TwoSources "DIV",
    Udiv 0x040 TwoSources "UDIV",
    Rem 0x050 TwoSources "REM",
    Urem 0x060 TwoSources "UREM",
    Min 0x090 TwoSources "MIN",
    Max 0x0A0 TwoSources "MAX",
    Mulhi 0x0B0 TwoSources "MULHI",
    And 0x200 TwoSources "AND",
    Or 0x210 TwoSources "OR",
    Xor 0x220 TwoSources "XOR",
    Shl 0x240 TwoSources "SHL",
    Shr 0x250 TwoSources "SHR",
    Sar 0x260 TwoSources "SAR",
    Eq 0x280 Comparison "EQ",
    Ne 0x290 Comparison "NE",
    Lt 0x2A0 Comparison "LT",
    Ge 0x2B0 Comparison "GE",
    Neg 0x070 OneSource "NEG",
    Abs 0x080 OneSource "ABS",
    Not 0x230 OneSource "NOT",
    Popcnt 0x270 OneSource "POPCNT",
    Mov 0xF00 OneSource "MOV",
    MovSpecial 0xF20 Special "MOV_SPECIAL",
    Load 0x300 Memory "LOAD",
    LocalLoad 0x380 Memory "LOCAL_LOAD",
    Store 0x310 Memory "STORE",
    LocalStore 0x390 Memory "LOCAL_STORE",
    MovImm 0xF10 Immediate "MOV_IMM",
    AtomicAdd 0x3C0 Atomic "ATOMIC_ADD",
    AtomicSub 0x3C1 Atomic "ATOMIC_SUB",
    AtomicAnd 0x3C2 Atomic "ATOMIC_AND",
    AtomicOr 0x3C3 Atomic "ATOMIC_OR",
    AtomicXor 0x3C4 Atomic "ATOMIC_XOR",
    AtomicMin 0x3C5 Atomic "ATOMIC_MIN",
    AtomicMax 0x3C6 Atomic "ATOMIC_MAX",
    AtomicUmin 0x3C7 Atomic "ATOMIC_UMIN",
    AtomicUmax 0x3C8 Atomic "ATOMIC_UMAX",
    AtomicXchg 0x3C9 Atomic "ATOMIC_XCHG",
    Cas 0x3D0 CompareAndSwap "CAS",
    Broadcast 0x3E0 Wave "BROADCAST",
    ReduceAdd 0x3E1 Wave "REDUCE_ADD",
    ReduceMin 0x3E2 Wave "REDUCE_MIN",
    ReduceMax 0x3E3 Wave "REDUCE_MAX",
    PrefixSum 0x3E4 Wave "PREFIX_SUM",
    Shuffle 0x3E5 Shuffle "SHUFFLE",
    Ballot 0x3E6 Wave "BALLOT",
    Any 0x3E7 Wave "ANY",
    All 0x3E8 Wave "ALL",
    If 0x3F0 Control "IF",
    Else 0x3F1 Control "ELSE",
    Endif 0x3F2 Control "ENDIF",
    Loop 0x3F3 Control "LOOP",
    Break 0x3F4 Control "BREAK",
    Continue 0x3F5 Control "CONTINUE",
    Endloop 0x3F6 Control "ENDLOOP",
    Halt 0x3F9 Control "HALT",
    Barrier 0x3FA Control "BARRIER",
    Nop 0x3FF Control "NOP",
}

impl Operation {
    /// The operation with this name, if there is one.
    pub fn with_name(name: &str) -> Option<Operation> {
        Self::ALL.iter().copied().find(|op| op.name() == name)
    }

    /// How many words it takes: 1 or 2.
    pub fn words(self) -> usize {
        match self.form() {
            Form::OneSource | Form::Special | Form::Control => 1,
            _ => 2,
        }
    }
}
