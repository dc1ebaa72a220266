//! The ten calls of document 01, in both block forms, and of document 02 the copying call, the turning call, PUT and GET, the tray, salvage, the name
//! register, and the reading set.
//!
//! Each call first makes a plan from the words as they stood when it began, and only then stores:
//! a plan that fails leaves everything as it was.
mod adv;
mod answer;
mod copy;
mod description;
mod dlete;
mod free;
mod keyed;
mod layout;
mod lookup;
mod nsert;
mod plan;
mod reading;
pub mod register;
mod rows;
mod salvage;
pub mod sequential;
mod session;
mod space;
mod texts;
mod tray;
mod turn;
mod xtend;

pub use answer::{Answer, Event, Kind, Lent, Move, Part};
pub use description::{Description, Use};
pub use layout::inspect;
pub use plan::Plan;
pub use salvage::{salvage, Salvaged};
pub use session::{create, Session};
pub use space::Space;
pub use tray::Trayed;

/// The largest word, and each word of the key ONES.
pub const ONES: u32 = 262143;

pub const DONE: u32 = 0;
pub const NOT_FOUND: u32 = 0o1;
pub const OUT_OF_SEQUENCE: u32 = 0o5;
pub const CLOSED: u32 = 0o020005;
pub const ALREADY_OPEN: u32 = 0o020006;
pub const WRONG_SIZE: u32 = 0o020007;
pub const READING_ONLY: u32 = 0o020010;
pub const WRONG_LENGTH: u32 = 0o020012;
pub const BAD_WORD: u32 = 0o030001;
pub const END_REACHED: u32 = 0o030002;
pub const NOT_ALLOWED: u32 = 0o030007;
pub const STORED_FULL: u32 = 0o070001;
pub const NO_ROOM: u32 = 0o070002;
pub const BAD_FILE: u32 = 0o070003;
