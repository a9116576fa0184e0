//! Runs of one step, which are made from buffers set out once.

use super::case::Case;
use crate::calls::{self, Answer};
use crate::cases::{Budget, Call, Desk, ListPair};
use crate::types::{Engine, State};

/// Past the last instruction, as every such run ends.
const PAST_END: u32 = 2;

/// What an engine calls undefined in a result, and what the fillings show.
pub struct Seen {
    /// The V word of the result.
    pub called: u32,
    /// The bits of the result to which two fillings give different values.
    pub varies: u32,
    /// How many fillings were made.
    pub fillings: u64,
}

pub struct Stepper<'a> {
    engine: &'a Engine,
    desk: Desk,
}

impl Stepper<'_> {
    pub fn new(engine: &Engine) -> Stepper<'_> {
        let lists = ListPair::default();
        let desk = Desk {
            image: Vec::new(),
            state: State::default(),
            mem: vec![0],
            v: vec![255],
            a: vec![0],
            spare: lists.clone(),
            lists,
        };
        Stepper { engine, desk }
    }

    /// The state after one step, or what came instead of it.
    fn step(&mut self, before: State) -> Result<&State, String> {
        self.desk.state = before;
        match calls::make(self.engine, &mut self.desk, Call::Run(Budget::Exactly(1))) {
            Answer::Ran(ran) if (ran.number, ran.reason, ran.state.steps) == (0, PAST_END, 1) => {
                Ok(&self.desk.state)
            }
            Answer::Panicked(message) => Err(message),
            _ => Err("no run of one step".to_string()),
        }
    }

    /// The case as it is, and with every filling.
    pub fn look(&mut self, case: &Case) -> Result<Seen, String> {
        self.desk.image = case.image();
        let State { regs, vregs, .. } = *self.step(case.state)?;
        let (data, called) = (regs[case.d()], vregs[case.d()]);
        let (mut ones, mut noughts) = (0, 0);
        let fillings = case.fillings();
        for &filling in &fillings {
            let result = self.step(case.filled(filling))?.regs[case.d()];
            if filling == case.operands.as_they_are() && result != data {
                return Err("the data depend on V".to_string());
            }
            ones |= result;
            noughts |= !result;
        }
        Ok(Seen { called, varies: ones & noughts, fillings: fillings.len() as u64 })
    }
}
