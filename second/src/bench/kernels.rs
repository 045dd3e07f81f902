//! The kernels that are timed. Each goes round a loop until its budget stops it.

use crate::capture::Capture;
use crate::run::Settings;
use crate::text;

/// The widths that are timed.
pub const WIDTHS: [u32; 3] = [8, 16, 32];
/// The registers of a lane.
const REGISTERS: u32 = 16;
/// The words of each memory.
const MEMORY: usize = 256;

/// A kernel: its name, and what stands in its loop, so many times.
pub struct Kernel {
    pub name: &'static str,
    body: &'static str,
    times: usize,
}

/// Before each kernel's loop: r0 the lane, r1 its word's address, r2 1, r3 3, r4 half the width,
/// p1 the lower half, p2 the even lanes.
const BEFORE: &str = "
    MOV_SPECIAL r0, lane
    MOV_IMM r2, 2
    SHL r1, r0, r2
    MOV_IMM r2, 1
    MOV_IMM r3, 3
    MOV_IMM r15, 0
    LT p1, r0, r4
    AND r5, r0, r2
    EQ p2, r5, r15
";

/// The kernels in the order of the table.
pub const KERNELS: [Kernel; 10] = [
    Kernel {
        name: "no-op",
        body: "NOP",
        times: 64,
    },
    Kernel {
        name: "arithmetic",
        body: "
            ADD r6, r6, r3
            MUL r7, r6, r3
            XOR r8, r7, r6
            SHL r9, r8, r2
            SUB r10, r9, r7
            MIN r11, r10, r8
            MULHI r12, r10, r9
            SAR r13, r12, r3
        ",
        times: 8,
    },
    Kernel {
        name: "one-register",
        body: "
            POPCNT r6, r0
            NOT r7, r6
            NEG r8, r7
            ABS r9, r8
        ",
        times: 16,
    },
    Kernel {
        name: "comparison",
        body: "
            EQ p1, r0, r4
            NE p2, r0, r2
            LT p3, r0, r4
            GE p1, r3, r0
        ",
        times: 16,
    },
    Kernel {
        name: "load",
        body: "
            LOAD r6, [r1 + 0]
            LOAD r7, [r1 + 128]
            LOCAL_LOAD r8, [r1 + 256]
            LOAD r9, [r15 + 64]
        ",
        times: 16,
    },
    Kernel {
        name: "store",
        body: "
            STORE [r1 + 0], r6
            STORE [r1 + 128], r0
            LOCAL_STORE [r1 + 256], r3
            STORE [r15 + 512], r0
        ",
        times: 16,
    },
    Kernel {
        name: "atomic",
        body: "
            ATOMIC_ADD r6, [r1], r2
            ATOMIC_MAX r7, [r15], r0
            ATOMIC_XOR r8, [r1], r3
            CAS r9, [r15], r7, r3
        ",
        times: 16,
    },
    Kernel {
        name: "wave",
        body: "
            XOR r6, r0, r3
            SHUFFLE r7, r10, r6
            ADD r10, r7, r0
            REDUCE_ADD r8, r10
            PREFIX_SUM r9, r10
            REDUCE_MAX r11, r9
            BALLOT r12, r5
            BROADCAST r13, r8
        ",
        times: 8,
    },
    Kernel {
        name: "control",
        body: "
            IF on p1
              IF on p2
                NOP
              ELSE
                NOP
              ENDIF
            ELSE
              LOOP
                BREAK on p2
                BREAK
              ENDLOOP
            ENDIF
        ",
        times: 6,
    },
    Kernel {
        name: "mixed",
        body: "
            LOAD r6, [r1 + 128]
            MUL r7, r6, r3
            ADD r7, r7, r0
            LT p3, r7, r6
            IF on p3
              SUB r8, r7, r4
              XOR r9, r8, r6
            ELSE
              ADD r8, r6, r2
              SHR r9, r8, r3
            ENDIF
            MAX r10, r9, r8 on p2
            STORE [r1 + 128], r7
            AND r11, r10, r3
            EQ p3, r11, r2
            ATOMIC_ADD r12, [r15], r2 on p3
            LOCAL_STORE [r1 + 0], r10
        ",
        times: 4,
    },
];

impl Kernel {
    /// The kernel as a launch of all lanes of a width.
    pub fn capture(&self, width: u32, budget: u32) -> Result<Capture, String> {
        let body = format!("{}\n", self.body).repeat(self.times);
        let half = width / 2;
        let lines = format!("MOV_IMM r4, {half}\n{BEFORE}\nLOOP\n{body}\nENDLOOP");
        let code = text::code(&lines)?;
        Ok(Capture {
            kernel: 0,
            settings: Settings {
                width,
                registers: REGISTERS,
                lanes: width,
                budget,
            },
            code,
            registers: vec![0; (width * REGISTERS) as usize],
            device: (0..MEMORY as u32)
                .map(|i| i.wrapping_mul(0x9E3779B9))
                .collect(),
            local: vec![0; MEMORY],
            state: None,
        })
    }
}
