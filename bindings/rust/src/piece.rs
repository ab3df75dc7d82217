use crate::error::{ok, Error};
use crate::raw::{self, Answer};
use std::ptr;

/// Work of a desk, which a thread does: a job's tiles, or tiles of the picture to be composed anew.
///
/// Dropping a piece lets its work go; [`Document::settle`](crate::Document::settle) does it then.
#[derive(Debug)]
pub struct Piece {
    pub(crate) raw: raw::Piece,
}

// SAFETY: a piece may be worked on by any thread, one call at a time, which `&mut` sees to.
unsafe impl Send for Piece {}

impl Piece {
    pub(crate) fn shut() -> Piece {
        Piece {
            raw: raw::Piece {
                at: ptr::null_mut(),
                full: false,
            },
        }
    }

    /// Does the work, without the desk.
    ///
    /// # Errors
    /// `NO_MEMORY`: the same call goes on with what is done so far.
    pub fn work(&mut self) -> Result<(), Error> {
        // SAFETY: the handle is this piece's alone.
        ok(unsafe { raw::strokes_work(&mut self.raw) })
    }

    /// Takes a part of the work off, for one of so many threads. None where there is nothing to share.
    ///
    /// # Errors
    /// `NO_MEMORY`: the piece is as it was.
    pub fn share(&mut self, shares: u32) -> Result<Option<Piece>, Error> {
        let mut other = Piece::shut();
        // SAFETY: the handles are two, and nobody else's.
        match unsafe { raw::strokes_share(&mut self.raw, shares, &mut other.raw) } {
            Answer::NOTHING => Ok(None),
            answer => ok(answer).map(|()| Some(other)),
        }
    }
}

impl Drop for Piece {
    fn drop(&mut self) {
        // SAFETY: the handle is this piece's alone, and a shut one stays shut.
        unsafe { raw::strokes_close_piece(&mut self.raw) }
    }
}
