//! The live engine, in memory: a live state is a term, a memory and a stopped set.

use crate::config::{read_config, Config};
use crate::limits::Edition;
use crate::refusal::Refusal;
use crate::rules::{Order, State};

/// A file in live run, and the state that it is in.
#[derive(Clone, Debug, PartialEq, Eq)]
pub struct Live {
    config: Config,
    state: State,
}

impl Live {
    /// "Live start (Adaptive): 1 to 14". There is no limit on the number of states.
    pub fn start(bytes: &[u8]) -> Result<Live, Refusal> {
        let config = read_config(bytes, Edition::Adaptive)?;
        let state = config.start();
        Ok(Live { config, state })
    }

    /// What the file says.
    pub fn config(&self) -> &Config {
        &self.config
    }

    /// The present state.
    pub fn state(&self) -> &State {
        &self.state
    }

    /// The modules that run in the present state.
    pub fn running(&self) -> Vec<u8> {
        self.config.running(&self.state)
    }

    /// "A step answers the next state and one order for each module." "a refused step leaves
    /// either edition in the state before it".
    pub fn step(&mut self, letter: u8) -> Result<Vec<Order>, Refusal> {
        let reaction = self.config.step(&self.state, letter)?;
        self.state = reaction.state;
        Ok(reaction.orders)
    }
}
