/* The crew for C (examples/embed/strokes_crew.c): WORKERS threads, and SETTLERS threads of the program, of which the first
 * feeds ENTRIES entries, settles between them or not, then waits until the threads alone have settled the desk, or
 * settles itself.  The desk is as strokes.h says: an entry has up to JOBS jobs, which follow one another or not; each
 * job that ends queues a walk, of which up to PARTS pieces may be made.  Which piece of the board is the oldest isn't
 * told here: any of them is taken.  Left out: pixels, news but for the moment in which the program is called, the ends
 * of times (a nap, and a settling with a limit, may end at any moment).
 * FAILS: so often memory may end.  LIMITS: so often settling may end for time.  OPEN=1: entries are closed later.
 * SPOIL_..: what has to be found. */
#ifndef WORKERS
#define WORKERS 2
#endif
#ifndef SETTLERS
#define SETTLERS 1
#endif
#define THREADS (WORKERS + SETTLERS)
#define ABSTRACT_LOCK
#include "primitives.h"
#ifndef ENTRIES
#define ENTRIES 2
#endif
#ifndef JOBS
#define JOBS 2
#endif
#ifndef PARTS
#define PARTS 2
#endif
#ifndef FAILS
#define FAILS 0
#endif
#ifndef LIMITS
#define LIMITS 0
#endif
#ifndef OPEN
#define OPEN 0
#endif
#define SLOTS THREADS

/* the desk */
byte jobs[ENTRIES];
bit in_turn[ENTRIES];                    /* its jobs follow one another */
byte fed = 0, closed = 0;                /* entries */
byte head = 0, started = 0, painters = 0, busy = 0;
bit patch = 0;                           /* something is to be composed */
byte walkers = 0, made = 0;              /* pieces of the walk, and how many of them were made */
byte lost = 0;                           /* ghost: pieces that were closed with work */

/* the crew */
byte on_board[3];                        /* by what they are: jobs and walks */
byte at_work = 0, asleep = 0, woken = 0;
bit is_settling = 0, settler_sleeps = 0, is_over = 0;
byte lacks = 0, fails = FAILS, limits = LIMITS;
byte ended = 0;
bit finished = 0;

/* pieces, and what the calls answer */
#define NONE 0
#define JOB 1
#define WALK 2
#define OK 0
#define AGAIN 1
#define IDLE 2
#define SETTLED 3
#define NO_MEMORY 4
#define STROKE_LEFT 5
/* on what a thread sleeps */
#define WORK 2
#define REST 3

#define BOARD (on_board[JOB] + on_board[WALK])
#define MAY_START (head < fed && started < jobs[head] && (!in_turn[head] || painters == 0) && busy < SLOTS)
#define MAY_END (head < closed && started == jobs[head] && painters == 0)
#define MAY_WALK (patch && walkers == 0 && busy < SLOTS)
#define IS_SETTLED (head == fed && busy == 0 && !patch)
#define AT_REST (told == SETTLED || (told == IDLE && at_work == 0))

/* ---- Sleeping and waking, with the lock */

/* pthread_cond_wait: the lock is let go and taken again. */
inline wait_on(which) {
  atomic { assert(holder == me); on[me] = which; holder = NOBODY };
  if
  :: on[me] == 0
  :: atomic { on[me] == which && whims > 0 -> whims--; on[me] = 0 }
  fi;
  lock()
}

/* The same, for a time that may be past at any moment. */
inline wait_a_while(which, is_past) {
  atomic { assert(holder == me); on[me] = which; holder = NOBODY };
  if
  :: on[me] == 0
  :: atomic { on[me] == which -> on[me] = 0; is_past = 1 }
  fi;
  lock()
}

inline wake_settler() {
  if :: settler_sleeps -> settler_sleeps = 0; wake_all(REST) :: else fi
}

inline wake() {
  if
  :: woken == asleep -> wake_settler()
  :: else -> woken++; wake_one(WORK)
  fi
}

/* ---- Calls of the desk */

inline may_fail() {
  if :: fails > 0 -> fails--; told = NO_MEMORY :: true fi
}

inline desk_take() {
  may_fail();
  if
  :: told == NO_MEMORY
  :: else ->
    if
    :: MAY_START -> started++; painters++; busy++; piece = JOB
    :: !MAY_START && MAY_END -> head++; started = 0; told = AGAIN
    :: !MAY_START && !MAY_END && MAY_WALK -> patch = 0; walkers = 1; made = 1; busy++; piece = WALK
    :: !MAY_START && !MAY_END && !MAY_WALK -> told = (IS_SETTLED -> SETTLED : IDLE)
    fi
  fi
}

inline desk_give() {
  may_fail();
  if
  :: told == NO_MEMORY
  :: told == OK && piece == JOB -> painters--; busy--; patch = 1
  :: told == OK && piece == WALK -> walkers--; if :: walkers == 0 -> busy-- :: else fi
  fi
}

/* ---- A turn, with the lock at its beginning and at its end */

inline take() {
  told = OK; piece = NONE;
  if
  :: on_board[JOB] > 0 -> on_board[JOB]--; piece = JOB
  :: on_board[WALK] > 0 -> on_board[WALK]--; piece = WALK
  :: BOARD == 0 -> desk_take()
  fi;
  if :: told == OK -> at_work++ :: else fi
}

inline keep() {
  at_work--; on_board[piece]++; piece = NONE;
  assert(BOARD + at_work <= THREADS)
}

inline share() {
  c = asleep + settler_sleeps;
  do
  :: piece == WALK && c > BOARD && made < PARTS -> walkers++; made++; on_board[WALK]++; c--; wake()
  :: true -> break
  od;
  c = 0
}

/* `limit` is whether the time may be past, and then `past` whether it is. */
inline turn(limit) {
  atomic {
    assert(holder == me);
    take();
    if
    :: told == OK && limit && limits > 0 -> limits--; past = 1; told = AGAIN; keep()
    :: told == OK -> share(); wake()
    :: else
    fi
  };
  if
  :: piece != NONE ->
    unlock();
    lock();
    atomic {
      desk_give();
      if
      :: told == OK -> at_work--; piece = NONE
      :: else -> keep()
      fi
    }
  :: else
  fi;
  atomic { if :: told == NO_MEMORY -> lacks++; wake_settler() :: else fi };
  if :: told == OK || told == NO_MEMORY -> unlock(); lock() :: true fi /* the program is called */
}

#define THREAD_VARS byte told, piece, c, seen; bit past;

/* ---- A thread of the crew */

inline doze(naps) {
  asleep++;
  past = 0;
  do
  :: woken == 0 && !is_over && !past && naps -> wait_a_while(WORK, past)
  :: woken == 0 && !is_over && !past && !naps -> wait_on(WORK)
  :: else -> break
  od;
  atomic { past = 0; asleep--; if :: woken > 0 -> woken-- :: else fi }
}

proctype Worker(byte me) {
  THREAD_VARS
  lock();
  do
  :: is_over -> break
  :: else ->
    turn(0);
#ifndef SPOIL_REST
    atomic { if :: AT_REST -> wake_settler() :: else fi };
#endif
    if
    :: told == NO_MEMORY -> doze(1)
    :: told == IDLE || told == SETTLED -> doze(0)
    :: else
    fi
  od;
  atomic { unlock(); ended++ }
}

/* ---- Settling */

/* What `told` is behind a turn, where settling ends; else OK. */
inline settle_on(limit) {
  seen = lacks; past = 0;
  do
  :: turn(limit);
    if
    :: told == SETTLED -> told = OK; break
    :: AT_REST && told == IDLE ->
#ifdef SPOIL_CLOSE
      told = OK; break
#else
      assert(head == closed && head < fed);                   /* strokes_settle has nothing to do */
      told = STROKE_LEFT; break
#endif
    :: told == NO_MEMORY || (!AT_REST && lacks != seen) -> told = NO_MEMORY; break
    :: else ->
      if
      :: past -> told = AGAIN; break
      :: !past && told != IDLE
      :: !past && told == IDLE ->
        settler_sleeps = 1;
        do
        :: settler_sleeps && !past && limit && limits > 0 -> wait_a_while(REST, past); if :: past -> limits-- :: else fi
        :: settler_sleeps && !past && !(limit && limits > 0) -> wait_on(REST)
        :: else -> break
        od;
        settler_sleeps = 0;
        if :: past -> told = AGAIN; break :: else fi
      fi
    fi
  od;
  past = 0
}

inline settle(limit) {
  lock();
  past = 0;
  do
  :: is_settling && !past && limit && limits > 0 -> wait_a_while(REST, past); if :: past -> limits-- :: else fi
  :: is_settling && !past && !(limit && limits > 0) -> wait_on(REST)
  :: else -> break
  od;
  if
  :: is_settling -> told = AGAIN; past = 0; unlock()
  :: else -> is_settling = 1; settle_on(limit); leave()
  fi
}

inline leave() {
  atomic {
    is_settling = 0;
    assert(told != OK || (IS_SETTLED && BOARD == 0 && at_work == 0 && lost == 0));
    wake_all(REST);
#ifdef SPOIL_CLOSE
    if :: told == NO_MEMORY && on_board[JOB] > 0 -> on_board[JOB]--; lost++ :: else fi;
#endif
#ifndef SPOIL_LEAVE
    if :: told == NO_MEMORY || told == AGAIN -> wake() :: else fi;
#endif
    unlock()
  }
}

inline feed(opens, closes) {
  lock();
  atomic {
    fed = fed + opens; closed = closed + closes;
#ifndef SPOIL_FEED
    wake();
#endif
    unlock()
  }
}

/* ---- The program */

#define FEED 0
#define TRY 1            /* to settle with a limit */
#define WAIT 2           /* until the threads alone have settled the desk, or not */
#define ALL 3            /* to settle all */
#define DONE 4
#define AFTER (me != WORKERS -> DONE : (closed == ENTRIES -> WAIT : FEED))

/* The first thread feeds, and settles until all is settled; the others settle once. */
proctype Program(byte me) {
  THREAD_VARS
  byte next = (me == WORKERS -> FEED : TRY);
  bit limit = 1;
  do
  :: next == FEED ->
    if :: fed == closed -> feed(1, 1 - OPEN) :: else -> feed(0, 1) fi;
    if :: next = TRY :: next = AFTER fi
  :: next == WAIT ->
    if :: true -> (IS_SETTLED) :: true fi;
    next = ALL; limit = 0
  :: next == TRY || next == ALL ->
    settle(limit);
    if
    :: next == TRY -> next = AFTER
    :: next == ALL && told == NO_MEMORY
    :: next == ALL && told != NO_MEMORY -> assert(told == OK); next = DONE
    fi
  :: next == DONE -> break
  od;
  if
  :: me != WORKERS -> atomic { ended++ }
  :: else ->
    (ended == SETTLERS - 1);
    lock();
    atomic { is_over = 1; wake_all(WORK); unlock() };
    (ended == THREADS - 1);
    assert(IS_SETTLED && BOARD == 0 && lost == 0 && asleep == 0);
    finished = 1
  fi
}

init {
  atomic {
    byte e = 0;
    do
    :: e < ENTRIES ->
      do :: jobs[e] < JOBS -> jobs[e]++ :: jobs[e] > 0 -> break od;
      if :: in_turn[e] = 1 :: in_turn[e] = 0 fi;
      e++
    :: else -> break
    od;
    e = 0;
    do :: e < WORKERS -> run Worker(e); e++ :: else -> break od;
    do :: e < THREADS -> run Program(e); e++ :: else -> break od
  }
}
ltl ends { <> finished }
