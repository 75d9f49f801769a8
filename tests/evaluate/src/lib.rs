//! The independent implementations of the Rust tests and the outside vectors, without the proved library.
#[path = "../../rust/src/amended.rs"]
pub mod amended;
#[path = "../../rust/src/circles.rs"]
pub mod circles;
#[path = "../../rust/src/ledger.rs"]
pub mod ledger;
#[path = "../../rust/src/pages.rs"]
pub mod pages;
#[path = "../../rust/src/paper.rs"]
pub mod paper;
#[path = "../../rust/src/sheet.rs"]
pub mod sheet;
#[path = "../../rust/src/vectors.rs"]
pub mod vectors;
