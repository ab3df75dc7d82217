//! Paints two dabs, takes the second back, and saves the picture as picture.ppm.
//!
//! In a package whose Cargo.toml has, under [dependencies], the folder of the crate:
//!
//!     strokes = { path = "/usr/local/share/strokes/rust" }
use std::error::Error;
use std::fs::File;
use std::io::Write;
use strokes::{Brush, Canvas, Crew, Desk, Document, MOST_SLOTS};

fn feed(desk: &mut impl Document) -> Result<(), strokes::Error> {
    desk.feed("layer 1 0 0")?;
    for (stroke, x) in [(1, 200), (2, 440)] {
        desk.begin(stroke, 1, false)?;
        desk.dab(stroke, x, 240, &Brush::soft(0x2060a0ff, 60))?;
        desk.end(stroke)?;
    }
    desk.undo()
}

fn save(desk: &mut Desk, name: &str) -> Result<(), Box<dyn Error>> {
    let mut shot = desk.shoot()?;
    let Canvas { w, h, .. } = shot.canvas();
    let mut file = File::create(name)?;
    write!(file, "P6\n{w} {h}\n255\n")?;
    Ok(file.write_all(&shot.rgb()?)?)
}

fn main() -> Result<(), Box<dyn Error>> {
    let crew = Crew::start(Desk::open(&Canvas::white(640, 480), MOST_SLOTS)?, 0)?;
    feed(&mut crew.lock())?;
    crew.settle()?;
    save(&mut crew.stop(), "picture.ppm")
}
