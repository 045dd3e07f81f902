//! A small desk for the tests: settings, code and buffers in one place.

#![allow(dead_code)]

use second::run::{self, Answer, Outcome, Settings};
use second::state::State;
use second::step::Lent;

/// Everything that a run takes.
#[derive(Clone)]
pub struct Desk {
    pub settings: Settings,
    pub code: Vec<u32>,
    pub registers: Vec<u32>,
    pub device: Vec<u32>,
    pub local: Vec<u32>,
}

/// The words of a text of hexadecimal numbers.
pub fn hex(text: &str) -> Vec<u32> {
    text.split_whitespace()
        .map(|word| u32::from_str_radix(word, 16).expect("a hexadecimal word"))
        .collect()
}

/// A desk with registers of zero, no memory and a budget of 1,000.
pub fn desk(width: u32, lanes: u32, registers: u32, code: &str) -> Desk {
    Desk {
        settings: Settings {
            width,
            registers,
            lanes,
            budget: 1000,
        },
        code: hex(code),
        registers: vec![0; (width * registers) as usize],
        device: vec![],
        local: vec![],
    }
}

impl Desk {
    /// Launches, changing the desk's buffers.
    pub fn launch(&mut self) -> Answer {
        self.go(None)
    }

    /// Goes on with a state, or launches where there is none.
    pub fn go(&mut self, state: Option<&State>) -> Answer {
        let mut lent = Lent {
            registers: &mut self.registers,
            device: &mut self.device,
            local: &mut self.local,
        };
        run::run(self.settings, &self.code, state, &mut lent)
    }

    /// The register of a lane.
    pub fn register(&self, lane: u32, register: u32) -> u32 {
        self.registers[(lane * self.settings.registers + register) as usize]
    }

    /// Launches and gives the refusal as number and place; it is checked that nothing changed.
    pub fn refusal(&self, state: Option<&State>) -> (u32, u32) {
        let mut after = self.clone();
        after.local.push(7);
        let answer = after.go(state);
        assert_eq!(after.registers, self.registers);
        assert_eq!(after.device, self.device);
        let Outcome::Refused(refusal) = answer.outcome else {
            panic!("expected a refusal, found {:?}", answer.outcome);
        };
        assert_eq!(after.local.last(), Some(&7));
        assert_eq!(answer.steps, 0);
        assert_eq!(answer.state, state.cloned().unwrap_or_default());
        (refusal.number, refusal.place)
    }
}
