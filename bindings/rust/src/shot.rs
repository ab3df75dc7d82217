use crate::error::{ok, Error};
use crate::raw::{self, Canvas, Rect};
use std::ptr;

/// The root's picture as it was when the shot was taken, whatever is done to the desk afterwards. Reading it needs no desk.
#[derive(Debug)]
pub struct Shot {
    pub(crate) raw: raw::Shot,
    pub(crate) canvas: Canvas,
    pub(crate) dirty: Rect,
}

// SAFETY: a shot may be read by any thread, one call at a time, which `&mut` sees to.
unsafe impl Send for Shot {}

impl Shot {
    pub(crate) fn shut() -> Shot {
        Shot {
            raw: raw::Shot {
                at: ptr::null_mut(),
                full: false,
            },
            canvas: Canvas::default(),
            dirty: Rect::default(),
        }
    }

    /// The canvas that it shows.
    pub fn canvas(&self) -> Canvas {
        self.canvas
    }

    /// The rectangle in which something was still to be composed: outside of it each pixel is the document's.
    pub fn dirty(&self) -> Rect {
        self.dirty
    }

    /// Copies the pixels from (x, y) to the right, three bytes each (red, green, blue), as many as `out` has room for.
    ///
    /// # Errors
    /// `OUTSIDE`: not all of them are of the canvas, or there is none.
    pub fn row(&mut self, x: u16, y: u16, out: &mut [u8]) -> Result<(), Error> {
        let w = u16::try_from(out.len() / 3).unwrap_or(u16::MAX);
        // SAFETY: the handle is this shot's alone, and `out` has so many bytes.
        ok(unsafe { raw::strokes_shot_row(&mut self.raw, x, y, w, out.as_mut_ptr(), out.len()) })
    }

    /// A pixel: red, green, blue.
    ///
    /// # Errors
    /// `OUTSIDE`: it isn't of the canvas.
    pub fn pixel(&mut self, x: u16, y: u16) -> Result<[u8; 3], Error> {
        let mut out = [0; 3];
        self.row(x, y, &mut out)?;
        Ok(out)
    }

    /// The whole picture, row by row, three bytes a pixel.
    ///
    /// ```
    /// # use strokes::{Canvas, Desk, Document};
    /// let mut shot = Desk::open(&Canvas::white(6, 4), 1)?.shoot()?;
    /// assert_eq!(shot.rgb()?, [255; 6 * 4 * 3]);
    /// # Ok::<(), strokes::Error>(())
    /// ```
    ///
    /// # Errors
    /// None that is known.
    pub fn rgb(&mut self) -> Result<Vec<u8>, Error> {
        let mut out = vec![0; 3 * self.canvas.w as usize * self.canvas.h as usize];
        for (y, row) in (0..).zip(out.chunks_exact_mut(3 * self.canvas.w as usize)) {
            self.row(0, y, row)?;
        }
        Ok(out)
    }
}

impl Drop for Shot {
    fn drop(&mut self) {
        // SAFETY: the handle is this shot's alone, and a shut one stays shut.
        unsafe { raw::strokes_close_shot(&mut self.raw) }
    }
}
