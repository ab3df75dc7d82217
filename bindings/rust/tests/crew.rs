//! What the types add to the C library: threads, news, and handles that close themselves.
use std::sync::mpsc;
use std::thread;
use std::time::Duration;
use strokes::{
    Answer, Brush, Canvas, Crew, Desk, Document, Error, Op, Point, Rect, Taken, MOST_SLOTS,
    MOST_THREADS,
};

const RED: u32 = 0xff0000ff;

fn desk() -> Result<Desk, Error> {
    let mut desk = Desk::open(&Canvas::white(200, 100), MOST_SLOTS)?;
    desk.feed("layer 1 0 0")?;
    Ok(desk)
}

fn paint(desk: &mut impl Document, stroke: u32, x: i32) -> Result<(), Error> {
    desk.begin(stroke, 1, false)?;
    desk.dab(stroke, x, 50, &Brush::hard(RED, 9))?;
    desk.end(stroke)
}

#[test]
fn several_threads_feed_one_crew() -> Result<(), Error> {
    let crew = Crew::start(desk()?, 2)?;
    thread::scope(|scope| {
        for hand in 0..4 {
            let crew = &crew;
            scope.spawn(move || paint(&mut crew.lock(), hand, 20 + 40 * hand as i32).unwrap());
        }
    });
    crew.settle()?;
    let mut desk = crew.stop();
    let mut shot = desk.shoot()?;
    for hand in 0..4 {
        assert_eq!(shot.pixel(20 + 40 * hand, 50)?, [255, 0, 0]);
    }
    assert_eq!(desk.count()?.outcomes, 5);
    Ok(())
}

#[test]
fn news_wakes_the_program() -> Result<(), Error> {
    let (told, news) = mpsc::sync_channel(64);
    let crew = Crew::start_telling(desk()?, 1, move || {
        let _ = told.try_send(());
    })?;
    paint(&mut crew.lock(), 1, 50)?;
    news.recv_timeout(Duration::from_secs(60))
        .expect("no news came");
    let news = crew.news()?;
    assert!(!news.redraw.is_empty() && !news.lacks_memory);
    assert!(crew.settle_for(Some(Duration::from_secs(60)))?);
    assert_eq!(
        crew.wait(Some(Duration::ZERO)).map(|it| it.lacks_memory),
        Ok(false)
    );
    Ok(())
}

#[test]
fn a_piece_goes_to_another_thread() -> Result<(), Error> {
    let mut desk = desk()?;
    paint(&mut desk, 1, 50)?;
    let mut pieces = 0;
    loop {
        match desk.take()? {
            Taken::Work(mut piece) => {
                let piece = thread::spawn(move || piece.work().map(|()| piece))
                    .join()
                    .unwrap()?;
                desk.give(piece)?;
                pieces += 1;
            }
            Taken::Again => {}
            Taken::Idle | Taken::Settled => break,
        }
    }
    assert!(pieces > 0 && desk.all_closed()?);
    assert!(!desk.outcome(0)?.was_refused());
    Ok(())
}

#[test]
fn a_piece_that_is_not_done_comes_back() -> Result<(), Error> {
    let mut desk = desk()?;
    paint(&mut desk, 1, 50)?;
    let piece = loop {
        if let Taken::Work(piece) = desk.take()? {
            break piece;
        }
    };
    let strokes::Returned {
        value: mut piece,
        error,
    } = desk.give(piece).unwrap_err();
    assert_eq!(error.answer(), Answer::UNDONE);
    assert!(piece.share(1)?.is_none());
    drop(piece);
    desk.settle()?;
    assert_eq!(desk.shoot()?.pixel(50, 50)?, [255, 0, 0]);
    Ok(())
}

#[test]
fn a_desk_comes_back_where_no_crew_starts() -> Result<(), Error> {
    let Err(mut returned) = Crew::start(desk()?, MOST_THREADS + 1) else {
        panic!("so many threads start")
    };
    assert_eq!(returned.error.answer(), Answer::OUT_OF_RANGE);
    returned.value.settle()
}

#[test]
fn a_bad_line_is_named() {
    let error = Desk::open_script("canvas 9 9 ffffff\nlayer 1 0\n", 1).unwrap_err();
    assert_eq!(
        (error.answer(), error.line()),
        (Answer::FIELD_COUNT, Some(2))
    );
    assert_eq!(error.to_string(), "line 2: wrong number of fields");
}

#[test]
fn all_else_is_the_librarys() -> Result<(), Error> {
    let mut desk = desk()?;
    let brush = Brush::soft(RED, 4).with(Op::Multiply);
    desk.begin(7, 1, true)?;
    desk.path(
        7,
        3,
        &[Point { x: 5, y: 5 }, Point { x: 90, y: 80 }],
        &brush,
    )?;
    assert_eq!(
        desk.path(7, 3, &[], &brush).unwrap_err().answer(),
        Answer::FIELD_COUNT
    );
    desk.cancel(7)?;
    desk.redo()?;
    desk.feed("export")?;
    while desk.small()? {}
    desk.settle()?;
    assert!(desk.outcome(2)?.was_refused());
    let (mut tile, mut row) = ([1; 16384], [0; 600]);
    assert_eq!(desk.tile(0, 0, &mut tile)?, Rect::default());
    desk.frame_row(0, 99, &mut row)?;
    assert_eq!((tile[..4].to_vec(), row), (vec![0; 4], [255; 600]));
    assert_eq!(
        desk.frame_row(1, 0, &mut row).unwrap_err().answer(),
        Answer::OUTSIDE
    );
    let again = Desk::open_script(desk.text()?, 1)?.count()?;
    assert_eq!(again.commands, desk.count()?.commands);
    let mut shot = desk.shoot()?;
    assert_eq!(
        (shot.canvas(), shot.dirty()),
        (Canvas::white(200, 100), Rect::default())
    );
    assert_eq!(shot.rgb()?, vec![255; 60000]);
    Ok(())
}
