//! A plain implementation of document 01's block store and of document 02's
//! page on its state (P1), where a block was found (P2), even draws (P3),
//! look-ups while a partition is rebuilt (P4), saving the client (P5), the
//! partition reader in the paper's order (P6) and jobs of one partition together
//! (P7). It is written from these documents alone and made to be read, so that
//! other implementations and definitions can be compared with it. Beside it is a
//! fast implementation of the same rules but P5's and P6's, for benchmarks.

pub mod antt;
pub mod array;
pub mod beside;
pub mod calls;
pub mod choose;
pub mod draws;
pub mod fast;
pub mod form;
pub mod found;
pub mod host;
pub mod joined;
pub mod lists;
pub mod lookups;
pub mod marks;
pub mod mistakes;
mod mixer;
pub mod page;
pub mod random_session;
pub mod reader;
pub mod releases;
pub mod rng;
pub mod runs;
pub mod saves;
pub mod saving;
pub mod script;
pub mod session;
pub mod shape;
pub mod situations;
pub mod state;
pub mod told;
pub mod transcripts;
pub mod turn;
pub mod walk;
pub mod words;
