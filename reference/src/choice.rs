//! Requests P5 and P4: what a link is opened as. The choice is made at opening
//! and a restart keeps it.

/// Which end of the line a link is.
#[derive(Clone, Copy, Debug, PartialEq, Eq)]
pub enum Role {
    /// The end that document 01 describes.
    Host,
    /// The stand-in for a module. It differs in one rule (002, 5.3): while it
    /// waits for an ACK it cancels what the other end sends.
    Module,
}

/// How soon a copy that was lost by time is repeated.
#[derive(Clone, Copy, Debug, PartialEq, Eq)]
pub enum Mode {
    /// The 1,600 ticks already waited are subtracted from the back-off, as
    /// 002, 6.3, allows.
    Sooner,
    /// They are not, as document 01 has it.
    Spaced,
}

/// All that an opening chooses.
#[derive(Clone, Copy, Debug, PartialEq, Eq)]
pub struct Choice {
    pub role: Role,
    pub mode: Mode,
}

impl Choice {
    /// What is chosen where nothing is said.
    pub const HOST: Choice = Choice::without_mode(Role::Host);
    /// The module's end, nothing more being said.
    pub const MODULE: Choice = Choice::without_mode(Role::Module);

    /// This end, in the mode of a link that is opened without a choice.
    pub const fn without_mode(role: Role) -> Choice {
        let mode = Mode::Sooner;
        Choice { role, mode }
    }
}
