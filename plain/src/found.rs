//! Where a request's block was found (document 02, P2). Its place is looked up
//! when the request ceases to be held, as the jobs that hold it may move the
//! block. The user is told with the contents; the host is not.

use crate::mistakes::Mistake;
use crate::state::{Place, Request, State};

/// What the look-up of a place says. The default is what all calls tell but an
/// accepted collect.
#[derive(Clone, Copy, Debug, Default, PartialEq, Eq, Hash)]
pub enum Found {
    #[default]
    Nowhere,
    Cache,
    Level(usize),
}

impl Found {
    /// The number of each case, as an answer has it.
    pub fn number(self) -> usize {
        match self {
            Found::Nowhere => 0,
            Found::Cache => 1,
            Found::Level(level) => 2 + level,
        }
    }
}

impl State {
    pub fn look_up(&self, block: usize) -> Found {
        match self.place[block] {
            Place::Nowhere => Found::Nowhere,
            Place::Waiting(_) => Found::Cache,
            Place::Stored { level, .. } => Found::Level(level),
        }
    }

    /// What comes after every accepted call: a held request is released once
    /// nothing holds it. That may be its own acceptance, or the completion
    /// that ends a job.
    pub fn release(&mut self) {
        let Some(mut request) = self.request.take() else {
            return;
        };
        let held = self.holds(self.partition[request.block]);
        if request.is_held() && !held {
            request.found = Some(self.found_at_release(&request));
            request.awaits = self.awaited(request.block);
        } else if held && self.mistake == Mistake::HeldAgain {
            request.found = None;
        }
        self.request = Some(request);
    }

    fn found_at_release(&self, request: &Request) -> Found {
        match self.mistake {
            Mistake::FoundAtAcceptance => request.at_acceptance,
            Mistake::ReadCountsAsCache if self.was_read(request.block) => Found::Cache,
            _ => self.look_up(request.block),
        }
    }

    /// What a collect tells once the block is in the cache.
    pub fn found_at_collect(&self, block: usize, found: Found) -> Found {
        match self.mistake {
            Mistake::FoundAfterCollect => self.look_up(block),
            _ => found,
        }
    }

    /// What a refused collect tells: a request in hand keeps it to itself.
    pub fn found_at_refusal(&self) -> Found {
        match (self.mistake, &self.request) {
            (Mistake::RefusalTells, Some(request)) => request.found.unwrap_or_default(),
            _ => Found::Nowhere,
        }
    }
}
