//! The front command: every subcommand on every sample, on every refusal that can come, on what cannot be read and written, and on bad usage.

mod calling;
mod checking;
mod explaining;
mod refusing;
mod stages;
mod streams;
mod texts;
mod usage;
