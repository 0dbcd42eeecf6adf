//! The same answers as the plain forms, written for speed.
mod adopt;
mod check;
mod margins;
mod propose;
mod read;
mod simulate;
mod tick;

pub use adopt::adopt;
pub use check::check;
pub use margins::margins;
pub use propose::propose;
pub use read::read;
pub use simulate::simulate;
pub use tick::{replay, start, tick};
