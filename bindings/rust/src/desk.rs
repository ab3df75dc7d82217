use crate::error::{ok, Error, Returned};
use crate::piece::Piece;
use crate::raw::{self, Answer, Brush, Canvas, Count, Outcome, Point, Rect};
use crate::shot::Shot;
use crate::values::Kind;
use std::ptr;

pub(crate) mod sealed {
    /// A desk that may be called now.
    pub trait Callable {
        /// Its handle, which is good for calls while `self` is borrowed.
        fn raw(&mut self) -> *mut crate::raw::Desk;
    }
}

/// The calls of a desk, whether a program owns it ([`Desk`]) or a crew lends it ([`Locked`](crate::Locked)).
///
/// A call that feeds a command answers `FULL` where the desk was fed 4,294,967,294 of them, and `NO_MEMORY`; then nothing was
/// fed, but of a path. What became of a command is told later, by its [`outcome`](Document::outcome).
pub trait Document: sealed::Callable {
    /// Feeds what a line says: any command but `canvas`. Of an empty line or a remark nothing is fed.
    ///
    /// # Errors
    /// The line's first fault.
    fn feed(&mut self, line: impl AsRef<[u8]>) -> Result<(), Error>
    where
        Self: Sized,
    {
        let line = line.as_ref();
        // SAFETY: here and below, the desk is this call's alone, and pointers are of what the call was passed.
        ok(unsafe { raw::strokes_feed(self.raw(), line.as_ptr(), line.len()) })
    }

    /// Begins a stroke on a layer, with a number that no stroke had. While an exclusive one is painted, no group is composed.
    ///
    /// # Errors
    /// `OUT_OF_RANGE`: the layer is 0; `USED_AGAIN`.
    fn begin(&mut self, stroke: u32, layer: u16, exclusive: bool) -> Result<(), Error> {
        ok(unsafe { raw::strokes_begin(self.raw(), stroke, layer, exclusive) })
    }

    /// Adds a dab to an open stroke, of the kind `Seq`.
    ///
    /// # Errors
    /// `OUT_OF_RANGE`, `OUT_OF_WORLD`, `UNKNOWN_STROKE`, `CLOSED_STROKE`; `TOO_MANY_JOBS`: it has 4,096.
    fn dab(&mut self, stroke: u32, x: i32, y: i32, brush: &Brush) -> Result<(), Error> {
        self.dab_of(Kind::Seq, stroke, x, y, brush)
    }

    /// Adds a dab of another kind.
    ///
    /// # Errors
    /// Those of [`dab`](Document::dab).
    fn dab_of(
        &mut self,
        kind: Kind,
        stroke: u32,
        x: i32,
        y: i32,
        brush: &Brush,
    ) -> Result<(), Error> {
        ok(unsafe { raw::strokes_dab(self.raw(), stroke, kind as u32, x, y, brush) })
    }

    /// Adds the dabs along a line of 2 to 8 points, one each `gap` steps.
    ///
    /// # Errors
    /// `FIELD_COUNT`: too few points or too many; those of [`dab`](Document::dab); `TOO_MANY_DABS`. After `NO_MEMORY` a part
    /// of its jobs may be fed: cancel the stroke.
    fn path(&mut self, stroke: u32, gap: u8, points: &[Point], brush: &Brush) -> Result<(), Error> {
        ok(unsafe {
            raw::strokes_path(
                self.raw(),
                stroke,
                gap,
                points.as_ptr(),
                points.len(),
                brush,
            )
        })
    }

    /// Closes an open stroke, which takes effect at its turn.
    ///
    /// # Errors
    /// `UNKNOWN_STROKE`, `CLOSED_STROKE`.
    fn end(&mut self, stroke: u32) -> Result<(), Error> {
        ok(unsafe { raw::strokes_end(self.raw(), stroke) })
    }

    /// Closes an open stroke, which leaves nothing.
    ///
    /// # Errors
    /// `UNKNOWN_STROKE`, `CLOSED_STROKE`.
    fn cancel(&mut self, stroke: u32) -> Result<(), Error> {
        ok(unsafe { raw::strokes_cancel(self.raw(), stroke) })
    }

    /// Feeds an undo.
    ///
    /// # Errors
    /// None of its own: the outcome tells whether there was something to undo.
    fn undo(&mut self) -> Result<(), Error> {
        ok(unsafe { raw::strokes_undo(self.raw()) })
    }

    /// Feeds a redo.
    ///
    /// # Errors
    /// None of its own.
    fn redo(&mut self) -> Result<(), Error> {
        ok(unsafe { raw::strokes_redo(self.raw()) })
    }

    /// Paints a few small jobs of the stroke whose turn it is, for a program of one thread. Whether some were painted.
    ///
    /// # Errors
    /// `NO_MEMORY`.
    fn small(&mut self) -> Result<bool, Error> {
        match unsafe { raw::strokes_small(self.raw()) } {
            Answer::NOTHING => Ok(false),
            answer => ok(answer).map(|()| true),
        }
    }

    /// Whether all strokes are closed.
    ///
    /// # Errors
    /// None that is known.
    fn all_closed(&mut self) -> Result<bool, Error> {
        match unsafe { raw::strokes_all_closed(self.raw()) } {
            Answer::STROKE_LEFT => Ok(false),
            answer => ok(answer).map(|()| true),
        }
    }

    /// Does all that is left, in the call, also work whose piece is out.
    ///
    /// # Errors
    /// `STROKE_LEFT`: a stroke is open, and nothing changed; `NO_MEMORY`: the same call goes on.
    fn settle(&mut self) -> Result<(), Error> {
        ok(unsafe { raw::strokes_settle(self.raw()) })
    }

    /// Copies a tile of 64 by 64 pixels of the root's picture, four bytes each, and gives the rectangle of it in which
    /// something is still to be composed.
    ///
    /// # Errors
    /// `OUTSIDE`: the canvas has no point in that tile.
    fn tile(&mut self, col: u8, row: u8, out: &mut [u8; 16384]) -> Result<Rect, Error> {
        let mut dirty = Rect::default();
        ok(unsafe {
            raw::strokes_tile(
                self.raw(),
                col,
                row,
                out.as_mut_ptr(),
                out.len(),
                &mut dirty,
            )
        })?;
        Ok(dirty)
    }

    /// Takes a shot: the root's picture as it is now. It copies no pixel.
    ///
    /// # Errors
    /// `NO_MEMORY`.
    fn shoot(&mut self) -> Result<Shot, Error> {
        let mut shot = Shot::shut();
        self.shoot_again(&mut shot)?;
        Ok(shot)
    }

    /// Takes a shot in the place of another one, as a screen does at each frame.
    ///
    /// # Errors
    /// `NO_MEMORY`: the shot is as it was.
    fn shoot_again(&mut self, shot: &mut Shot) -> Result<(), Error> {
        let canvas = self.canvas()?;
        ok(unsafe { raw::strokes_shoot(self.raw(), &mut shot.raw, &mut shot.dirty) })?;
        shot.canvas = canvas;
        Ok(())
    }

    /// The canvas.
    ///
    /// # Errors
    /// None that is known.
    fn canvas(&mut self) -> Result<Canvas, Error> {
        let mut canvas = Canvas::default();
        ok(unsafe { raw::strokes_canvas_of(self.raw(), &mut canvas) })?;
        Ok(canvas)
    }

    /// How many commands were fed, outcomes came, and frames were exported.
    ///
    /// # Errors
    /// None that is known.
    fn count(&mut self) -> Result<Count, Error> {
        let mut count = Count::default();
        ok(unsafe { raw::strokes_count_of(self.raw(), &mut count) })?;
        Ok(count)
    }

    /// What became of an entry, from 0 on in the order of feeding.
    ///
    /// # Errors
    /// `OUTSIDE`: it has had no turn, or wasn't fed.
    fn outcome(&mut self, entry: u64) -> Result<Outcome, Error> {
        let mut outcome = Outcome::default();
        ok(unsafe { raw::strokes_outcome_at(self.raw(), entry, &mut outcome) })?;
        Ok(outcome)
    }

    /// Copies a row of an exported frame, three bytes a pixel.
    ///
    /// # Errors
    /// `OUTSIDE`: no such frame or row; `NO_ROOM`.
    fn frame_row(&mut self, frame: u64, y: u16, out: &mut [u8]) -> Result<(), Error> {
        ok(unsafe { raw::strokes_frame_row(self.raw(), frame, y, out.as_mut_ptr(), out.len()) })
    }

    /// What was fed, as the text of a script.
    ///
    /// # Errors
    /// `NO_MEMORY`.
    fn text(&mut self) -> Result<Vec<u8>, Error> {
        let (mut text, mut part, mut next) = (Vec::new(), [0; 4096], 0);
        loop {
            let mut written = 0;
            ok(unsafe {
                raw::strokes_text(
                    self.raw(),
                    &mut next,
                    part.as_mut_ptr(),
                    part.len(),
                    &mut written,
                )
            })?;
            if written == 0 {
                return Ok(text);
            }
            text.extend_from_slice(&part[..written]);
        }
    }
}

impl<T: sealed::Callable> Document for T {}

/// What [`Desk::take`] found.
#[derive(Debug)]
pub enum Taken {
    /// Work.
    Work(Piece),
    /// Something was done in the call: ask again at once.
    Again,
    /// Nothing can be done before work is given back or commands are fed.
    Idle,
    /// Every entry has its outcome, and nothing is at work or waits.
    Settled,
}

/// A desk that the program owns: one document.
///
/// ```
/// use strokes::{Brush, Canvas, Desk, Document, Taken};
///
/// let mut desk = Desk::open(&Canvas::white(64, 64), 1)?;
/// desk.feed("layer 1 0 0")?;
/// desk.begin(1, 1, false)?;
/// desk.dab(1, 20, 20, &Brush::hard(0xff0000ff, 5))?;
/// desk.end(1)?;
/// loop {
///     match desk.take()? {
///         Taken::Work(mut piece) => {
///             piece.work()?; // (another thread may do this)
///             desk.give(piece)?;
///         }
///         Taken::Again => {}
///         Taken::Idle => unreachable!("no piece is out, and no stroke open"),
///         Taken::Settled => break,
///     }
/// }
/// assert_eq!(desk.shoot()?.pixel(20, 20)?, [255, 0, 0]);
/// # Ok::<(), strokes::Error>(())
/// ```
///
/// A desk may be moved to another thread, and not be called by two at once:
///
/// ```compile_fail
/// fn shared<T: Sync>(_: T) {}
/// shared(strokes::Desk::open(&strokes::Canvas::white(8, 8), 1).unwrap());
/// ```
#[derive(Debug)]
pub struct Desk {
    pub(crate) raw: raw::Desk,
}

// SAFETY: any thread may call a desk, one call at a time, which `&mut` sees to.
unsafe impl Send for Desk {}

impl Desk {
    pub(crate) fn shut() -> Desk {
        Desk {
            raw: raw::Desk {
                at: ptr::null_mut(),
                full: false,
            },
        }
    }

    /// Opens a desk on which nothing was fed. `slots`, 1 to 17, is how many pieces may be out at once.
    ///
    /// # Errors
    /// `OUT_OF_RANGE`: a side, the paper or the slots; `NO_MEMORY`.
    pub fn open(canvas: &Canvas, slots: u8) -> Result<Desk, Error> {
        let mut desk = Desk::shut();
        // SAFETY: the handle is shut, and nobody else's.
        ok(unsafe { raw::strokes_open(&mut desk.raw, canvas, slots) })?;
        Ok(desk)
    }

    /// Opens a desk for the canvas of a script, which is fed with all of the script's commands.
    ///
    /// # Errors
    /// The first bad line's first fault, with the line.
    pub fn open_script(text: impl AsRef<[u8]>, slots: u8) -> Result<Desk, Error> {
        let (text, mut desk, mut line) = (text.as_ref(), Desk::shut(), 0);
        // SAFETY: the handle is shut, and nobody else's; the text has so many bytes.
        let answer = unsafe {
            raw::strokes_open_script(&mut desk.raw, text.as_ptr(), text.len(), slots, &mut line)
        };
        match answer {
            Answer::OK => Ok(desk),
            other => Err(Error::at(other, line)),
        }
    }

    /// Takes what can be done next.
    ///
    /// # Errors
    /// `NO_MEMORY`: nothing was taken.
    pub fn take(&mut self) -> Result<Taken, Error> {
        let mut piece = Piece::shut();
        // SAFETY: the handles are nobody else's.
        match unsafe { raw::strokes_take(&mut self.raw, &mut piece.raw) } {
            Answer::OK => Ok(Taken::Work(piece)),
            Answer::AGAIN => Ok(Taken::Again),
            Answer::IDLE => Ok(Taken::Idle),
            Answer::SETTLED => Ok(Taken::Settled),
            other => Err(Error::at(other, 0)),
        }
    }

    /// Gives back a piece whose work is done. What is to be drawn anew: outside of it no pixel of the root's picture changed.
    ///
    /// # Errors
    /// The piece comes back with `UNDONE`: work on it; `NO_MEMORY`: give it again; `STRANGER`: the desk doesn't wait for it.
    pub fn give(&mut self, mut piece: Piece) -> Result<Rect, Returned<Piece>> {
        let mut drawn = Rect::default();
        // SAFETY: the handles are nobody else's.
        match ok(unsafe { raw::strokes_give(&mut self.raw, &mut piece.raw, &mut drawn) }) {
            Ok(()) => Ok(drawn),
            Err(error) => Err(Returned {
                value: piece,
                error,
            }),
        }
    }
}

impl sealed::Callable for Desk {
    fn raw(&mut self) -> *mut raw::Desk {
        &mut self.raw
    }
}

impl Drop for Desk {
    fn drop(&mut self) {
        // SAFETY: the handle is this desk's alone, and a shut one stays shut.
        unsafe { raw::strokes_close(&mut self.raw) }
    }
}
