//! The Rust: sendai.rs, unchanged, with a driver in the same module, where its private items are in reach.
//! (util.rs stands at the crate's root, where sendai.rs looks for it.)
mod panics;

#[allow(dead_code)]
mod sendai {
    use super::panics::quietly;
    use crate::answers::{Answer, Groups};
    use crate::stubs::{cspuz_core, cspuz_rs};

    include!(env!("SENDAI_RS"));
    include!("reference/driver.rs");
}

pub use panics::{heard, silence};
pub use sendai::{numbering, rooms, Board, City, Info, Numbering, Puzzle, Union, NO_CLUE};
