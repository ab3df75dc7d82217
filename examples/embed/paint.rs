//! Paints a script as the command does, in a Rust program.
//!
//!     paint_rs THREADS [picture|live] < SCRIPT > PICTURES
//!
//! A crew of 1 to 16 threads paints, and the caller helps at the end. The exit codes are the
//! command's.
use std::fmt;
use std::io::{self, BufWriter, Read, Write};
use std::process::ExitCode;
use strokes::{Canvas, Crew, Desk, Document, Error, MOST_THREADS};

/// What ended the program.
enum Fault {
    Script(Error),
    Line(usize, Error),
    CanvasMissing,
    Reading,
    Writing,
}

impl Fault {
    fn code(&self) -> u8 {
        match self {
            Fault::Script(error) | Fault::Line(_, error) if error.is_no_memory() => 6,
            Fault::Script(_) | Fault::Line(..) | Fault::CanvasMissing => 3,
            Fault::Reading => 4,
            Fault::Writing => 5,
        }
    }
}

impl fmt::Display for Fault {
    fn fmt(&self, out: &mut fmt::Formatter<'_>) -> fmt::Result {
        match self {
            Fault::Line(line, error) if !error.is_no_memory() => {
                write!(out, "line {line}: {}", error.answer().text())
            }
            Fault::Script(error) | Fault::Line(_, error) => out.write_str(error.answer().text()),
            Fault::CanvasMissing => {
                write!(out, "line 1: {}", strokes::Answer::CANVAS_MISSING.text())
            }
            Fault::Reading => out.write_str("reading failed"),
            Fault::Writing => out.write_str("writing failed"),
        }
    }
}

impl From<Error> for Fault {
    fn from(error: Error) -> Fault {
        Fault::Script(error)
    }
}

impl From<io::Error> for Fault {
    fn from(_: io::Error) -> Fault {
        Fault::Writing
    }
}

fn says_nothing(line: &[u8]) -> bool {
    match line.iter().find(|byte| !b" \t\r".contains(byte)) {
        Some(first) => *first == b'#',
        None => true,
    }
}

/// Paints the script with a crew of so many threads, and gives the settled desk.
fn painted(text: &[u8], threads: u8) -> Result<Desk, Fault> {
    let lines = text.split(|byte| *byte == b'\n').enumerate();
    let mut lines = lines.skip_while(|(_, line)| says_nothing(line));
    let (at, first) = lines.next().ok_or(Fault::CanvasMissing)?;
    let desk = Desk::open_script(first, threads + 1).map_err(|error| Fault::Line(at + 1, error))?;
    let crew = Crew::start(desk, threads.into()).map_err(Error::from)?;
    for (at, line) in lines {
        let fed = crew.lock().feed(line);
        fed.map_err(|error| Fault::Line(at + 1, error))?;
    }
    crew.settle()?;
    Ok(crew.stop())
}

fn write_header(out: &mut impl Write, canvas: &Canvas) -> io::Result<()> {
    write!(out, "P6\n{} {}\n255\n", canvas.w, canvas.h)
}

/// Writes each frame as a portable pixmap.
fn write_frames(desk: &mut Desk, out: &mut impl Write) -> Result<(), Fault> {
    let canvas = desk.canvas()?;
    let mut row = vec![0; 3 * canvas.w as usize];
    for frame in 0..desk.count()?.frames {
        write_header(out, &canvas)?;
        for y in 0..canvas.h as u16 {
            desk.frame_row(frame, y, &mut row)?;
            out.write_all(&row)?;
        }
    }
    Ok(())
}

/// Writes the picture of the document.
fn write_picture(desk: &mut Desk, out: &mut impl Write) -> Result<(), Fault> {
    let mut shot = desk.shoot()?;
    write_header(out, &shot.canvas())?;
    Ok(out.write_all(&shot.rgb()?)?)
}

fn was_refused(desk: &mut Desk) -> Result<bool, Error> {
    for entry in 0..desk.count()?.outcomes {
        if desk.outcome(entry)?.was_refused() {
            return Ok(true);
        }
    }
    Ok(false)
}

fn run(threads: u8, is_live: bool) -> Result<bool, Fault> {
    let mut text = Vec::new();
    let read = io::stdin().lock().read_to_end(&mut text);
    read.map_err(|_| Fault::Reading)?;
    let mut desk = painted(&text, threads)?;
    let mut out = BufWriter::new(io::stdout().lock());
    match is_live {
        true => write_picture(&mut desk, &mut out)?,
        false => write_frames(&mut desk, &mut out)?,
    }
    out.flush()?;
    Ok(was_refused(&mut desk)?)
}

/// The number of threads, and whether the picture of the document is wanted.
fn arguments() -> Option<(u8, bool)> {
    let words: Vec<String> = std::env::args().skip(1).collect();
    let (threads, what) = match &words[..] {
        [threads] => (threads, "picture"),
        [threads, what] => (threads, what.as_str()),
        _ => return None,
    };
    let threads = threads.parse().ok()?;
    let is_known =
        (1..=MOST_THREADS).contains(&u32::from(threads)) && matches!(what, "picture" | "live");
    is_known.then_some((threads, what == "live"))
}

fn main() -> ExitCode {
    let Some((threads, is_live)) = arguments() else {
        eprintln!("usage: paint_rs THREADS [picture|live] < SCRIPT > PICTURES");
        return ExitCode::from(2);
    };
    match run(threads, is_live) {
        Ok(was_refused) => ExitCode::from(u8::from(was_refused)),
        Err(fault) => {
            eprintln!("paint_rs: {fault}");
            ExitCode::from(fault.code())
        }
    }
}
