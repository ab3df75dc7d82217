use crate::raw::{self, Brush, Canvas, Outcome, Rect};

/// How a brush lays its colour.
#[derive(Clone, Copy, Debug, Default, PartialEq, Eq)]
#[repr(u8)]
pub enum Op {
    /// Source-over.
    #[default]
    Over = raw::OVER as u8,
    /// Takes the layer's pixels away (destination-out).
    Erase = raw::ERASE as u8,
    /// Multiplies colours.
    Multiply = raw::MULTIPLY as u8,
    /// Multiplies the complements of colours.
    Screen = raw::SCREEN as u8,
    /// Adds colours.
    Addition = raw::ADDITION as u8,
}

/// Beside which neighbours of its stroke a job may be painted.
#[derive(Clone, Copy, Debug, Default, PartialEq, Eq)]
#[repr(u32)]
pub enum Kind {
    /// After all jobs before it. It never conflicts.
    #[default]
    Seq = raw::SEQ,
    /// Beside other concurrent jobs, with which it may share no pixel.
    Con = raw::CON,
    /// After all before it, and before all behind it.
    Bar = raw::BAR,
    /// As a concurrent job, but beside no other one of this kind.
    Uni = raw::UNI,
}

impl Canvas {
    /// A canvas on white paper.
    pub fn white(w: u32, h: u32) -> Canvas {
        Canvas {
            w,
            h,
            paper: 0xffffff,
        }
    }
}

impl Brush {
    /// A soft brush of full strength: a colour as 0xRRGGBBAA, and a radius up to 128.
    pub fn soft(colour: u32, radius: u8) -> Brush {
        Brush {
            colour,
            radius,
            soft: 1,
            op: Op::Over as u8,
            strength: 255,
        }
    }

    /// The same with a hard edge.
    pub fn hard(colour: u32, radius: u8) -> Brush {
        Brush {
            soft: 0,
            ..Brush::soft(colour, radius)
        }
    }

    /// The same brush with another way to lay its colour.
    pub fn with(self, op: Op) -> Brush {
        Brush {
            op: op as u8,
            ..self
        }
    }
}

impl Rect {
    /// Whether it has no points.
    pub fn is_empty(&self) -> bool {
        self.w == 0
    }
}

impl Outcome {
    /// Whether the entry was refused: neither done nor cancelled.
    pub fn was_refused(&self) -> bool {
        !matches!(self.what, raw::DONE | raw::CANCELLED)
    }
}
