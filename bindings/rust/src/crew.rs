use crate::desk::{sealed, Desk};
use crate::error::{ok, Error, Returned};
use crate::raw::{self, Answer, CrewOptions, Rect};
use std::ffi::c_void;
use std::ptr;
use std::time::Duration;

/// What is to be drawn anew, and whether memory ended for a thread, which tries again.
#[derive(Clone, Copy, Debug, PartialEq, Eq)]
pub struct News {
    /// Outside of it no pixel of the root's picture changed.
    pub redraw: Rect,
    /// Whether a thread wants memory.
    pub lacks_memory: bool,
}

type Callback = Box<dyn Fn() + Send + Sync>;

/// Threads that paint a desk, which is theirs until they are stopped.
///
/// Several threads of the program may call one crew at once.
pub struct Crew {
    raw: raw::Crew,
    /// What the threads call; it stays where it is until they have ended.
    _news: Option<Box<Callback>>,
}

// SAFETY: any thread may make any call of a crew, several at once; those that want the handle for themselves take `self`.
unsafe impl Send for Crew {}
// SAFETY: as above.
unsafe impl Sync for Crew {}

unsafe extern "C" fn call(whose: *mut c_void) {
    // SAFETY: `whose` is the crew's callback, which lives until its threads have ended.
    unsafe { (*whose.cast::<Callback>())() }
}

impl Crew {
    /// Starts threads: 1 to 16, or with 0 as many as suit the machine.
    ///
    /// # Errors
    /// The desk comes back with `OUT_OF_RANGE`: the threads; `NO_MEMORY`: no thread could be started.
    pub fn start(desk: Desk, threads: u32) -> Result<Crew, Returned<Desk>> {
        Crew::begin(desk, threads, None)
    }

    /// Starts threads that tell when there is news: one of them calls `news`, without the lock, once until the news is asked
    /// for. It is to wake the program's own thread, and no more.
    ///
    /// # Errors
    /// Those of [`start`](Crew::start).
    pub fn start_telling(
        desk: Desk,
        threads: u32,
        news: impl Fn() + Send + Sync + 'static,
    ) -> Result<Crew, Returned<Desk>> {
        Crew::begin(desk, threads, Some(Box::new(Box::new(news))))
    }

    fn begin(
        mut desk: Desk,
        threads: u32,
        mut news: Option<Box<Callback>>,
    ) -> Result<Crew, Returned<Desk>> {
        let whose = news.as_deref_mut().map_or(ptr::null_mut(), |it| {
            let at: *mut Callback = it;
            at.cast()
        });
        let options = CrewOptions {
            threads,
            zero: 0,
            news: news
                .as_ref()
                .map(|_| call as unsafe extern "C" fn(*mut c_void)),
            whose,
        };
        let mut crew = Crew {
            raw: raw::Crew {
                at: ptr::null_mut(),
            },
            _news: news,
        };
        // SAFETY: the handles are nobody else's, and the callback stays as long as the crew.
        match ok(unsafe { raw::strokes_crew_start(&mut crew.raw, &mut desk.raw, &options) }) {
            Ok(()) => Ok(crew),
            Err(error) => Err(Returned { value: desk, error }),
        }
    }

    /// The handle, which all calls but the last only read.
    fn raw(&self) -> *mut raw::Crew {
        &self.raw as *const raw::Crew as *mut raw::Crew
    }

    /// Waits for the lock, and lends the desk until it is let go. Threads begin with what was fed when it is.
    ///
    /// Of the crew's calls this thread may make [`news`](Crew::news) alone meanwhile: it would wait for itself in the others.
    pub fn lock(&self) -> Locked<'_> {
        // SAFETY: the crew isn't shut.
        Locked {
            desk: unsafe { raw::strokes_crew_lock(self.raw()) },
            crew: self,
        }
    }

    /// The news since it was asked for last. With the lock held it and the desk are of one moment.
    ///
    /// # Errors
    /// None that is known.
    pub fn news(&self) -> Result<News, Error> {
        let mut redraw = Rect::default();
        // SAFETY: the crew isn't shut.
        let answer = unsafe { raw::strokes_crew_news(self.raw(), &mut redraw) };
        news(answer, redraw)
    }

    /// The same, but where there is no news it waits for some, for so long at most, or without a limit.
    ///
    /// # Errors
    /// None that is known.
    pub fn wait(&self, limit: Option<Duration>) -> Result<News, Error> {
        let mut redraw = Rect::default();
        // SAFETY: the crew isn't shut.
        let answer =
            unsafe { raw::strokes_crew_wait(self.raw(), milliseconds(limit), &mut redraw) };
        news(answer, redraw)
    }

    /// Works with the threads until the desk is settled.
    ///
    /// # Errors
    /// `STROKE_LEFT`: a stroke is open, and the rest is done; `NO_MEMORY`: the same call goes on, and so do the threads.
    pub fn settle(&self) -> Result<(), Error> {
        self.settle_for(None).map(|_| ())
    }

    /// The same for so long at most, or without a limit. Whether the desk is settled.
    ///
    /// # Errors
    /// Those of [`settle`](Crew::settle).
    pub fn settle_for(&self, limit: Option<Duration>) -> Result<bool, Error> {
        // SAFETY: the crew isn't shut.
        match unsafe { raw::strokes_crew_settle(self.raw(), milliseconds(limit)) } {
            Answer::AGAIN => Ok(false),
            answer => ok(answer).map(|()| true),
        }
    }

    /// Ends the threads, and gives the desk back.
    pub fn stop(mut self) -> Desk {
        let mut desk = Desk::shut();
        // SAFETY: the crew isn't shut, the desk is, and nobody else has them.
        let answer = unsafe { raw::strokes_crew_stop(&mut self.raw, &mut desk.raw) };
        debug_assert_eq!(answer, Answer::OK);
        desk
    }
}

impl Drop for Crew {
    fn drop(&mut self) {
        // SAFETY: nobody else has the crew, and a shut one stays shut.
        unsafe { raw::strokes_crew_close(&mut self.raw) }
    }
}

fn news(answer: Answer, redraw: Rect) -> Result<News, Error> {
    match answer {
        Answer::NO_MEMORY => Ok(News {
            redraw,
            lacks_memory: true,
        }),
        answer => ok(answer).map(|()| News {
            redraw,
            lacks_memory: false,
        }),
    }
}

fn milliseconds(limit: Option<Duration>) -> u32 {
    let most = raw::CREW_NO_LIMIT;
    limit.map_or(most, |it| {
        u32::try_from(it.as_millis()).map_or(most - 1, |it| it.min(most - 1))
    })
}

/// A crew's lock, and its desk as long as the lock is held: the calls of [`Document`](crate::Document). The thread that has it
/// lets it go, so it can't be sent to another one.
pub struct Locked<'a> {
    desk: *mut raw::Desk,
    crew: &'a Crew,
}

impl sealed::Callable for Locked<'_> {
    fn raw(&mut self) -> *mut raw::Desk {
        self.desk
    }
}

impl Drop for Locked<'_> {
    fn drop(&mut self) {
        // SAFETY: this thread has the lock.
        unsafe { raw::strokes_crew_unlock(self.crew.raw()) }
    }
}
