//! A layered painting engine: layers, groups, strokes painted by many threads, cancel and undo.
//!
//! A [`Desk`] holds one document. It is fed commands, and a [`Crew`] of threads paints them. A [`Shot`] has the picture as it
//! was when it was taken. These types are those of the C headers `strokes.h` and `strokes_crew.h`: each owns what it has,
//! closes it when it is dropped, and needs `&mut` for a call, as the engine takes one call at a time on each.
//!
//! ```
//! use strokes::{Brush, Canvas, Crew, Desk, Document};
//!
//! let desk = Desk::open(&Canvas { w: 640, h: 480, paper: 0xffffff }, strokes::MOST_SLOTS)?;
//! let crew = Crew::start(desk, 0)?;
//! {
//!     let mut desk = crew.lock();
//!     desk.feed("layer 1 0 0")?;
//!     for (stroke, x) in [(1, 200), (2, 300)] {
//!         desk.begin(stroke, 1, false)?;
//!         desk.dab(stroke, x, 240, &Brush::soft(0x2060a0ff, 20))?;
//!         desk.end(stroke)?;
//!     }
//!     desk.undo()?; // of the second one
//! } // (the lock is let go, and the threads begin)
//! crew.settle()?;
//! let mut shot = crew.stop().shoot()?;
//! assert_eq!(shot.pixel(200, 240)?, [0x20, 0x60, 0xa0]);
//! assert_eq!(shot.pixel(300, 240)?, [0xff, 0xff, 0xff]);
//! # Ok::<(), strokes::Error>(())
//! ```
#![warn(missing_docs)]

mod crew;
mod desk;
mod error;
mod piece;
#[allow(missing_docs)]
mod raw;
mod shot;
mod values;

pub use crew::{Crew, Locked, News};
pub use desk::{Desk, Document, Taken};
pub use error::{Error, Returned};
pub use piece::Piece;
pub use raw::{Answer, Brush, Canvas, Count, Outcome, Point, Rect};
pub use shot::Shot;
pub use values::{Kind, Op};

/// As many pieces of a desk as may be out at once.
pub const MOST_SLOTS: u8 = 17;
/// As many threads as a crew may have.
pub const MOST_THREADS: u32 = raw::CREW_MOST_THREADS;
