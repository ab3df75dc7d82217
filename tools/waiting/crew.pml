/* The crew (crates/crew_run: crew.rt, board.rt, pieces.rt): a caller and WORKERS workers on one board, over a
 * desk that chooses its events as crates/desk_events does (choices.rt).  The script is drawn: ENTRIES entries of
 * any sort, up to JOBS jobs of any kind, each for one thread or in RANGES ranges; walks in up to RANGES ranges,
 * in two cells.  Left out: pixels, what is damaged (an ended job queues one cell, with WIDE either or both), how
 * large work is (whether it is worth another thread is drawn), feeding (all entries are fed and closed), small
 * jobs that a caller without workers paints in place, and the gate and who watches (they return at once).
 * MEMFAIL: each call that allocates may fail.  NOSPAWN: each worker may not start.  PLAIN: strokes alone.
 * SPOIL_..: what has to be found. */
#ifndef WORKERS
#define WORKERS 2
#endif
#define THREADS (WORKERS + 1)
#include "primitives.h"
#ifndef ENTRIES
#define ENTRIES 2
#endif
#ifndef JOBS
#define JOBS 2
#endif
#ifndef RANGES
#define RANGES 2
#endif

#define STROKE 0
#define EXCL 1
#define CANCELLED 2
#define ACT 3
#define EXPORT 4

#define CON 0
#define UNIQ 1
#define SEQ 2
#define BAR 3

/* the script */
byte sort[ENTRIES], njobs[ENTRIES];
byte kind[ENTRIES * JOBS];
byte many[ENTRIES * JOBS];       /* in how many ranges the job is painted; 1: one thread has all */

/* the desk */
byte head = 0;
bit begun = 0;
byte started = 0, painters = 0, uniqs = 0, strict = 0;   /* jobs at work; of them unique ones; sequential ones and barriers */
bit patch[2], walker[2];
byte busy = 0;
#define SLOTS THREADS

/* the board */
bit is_over = 0, run_goes_on = 0;
byte jobs = 0, asleep = 0;
byte jnext[JOBS], jmade[JOBS];   /* of the pieces: ranges given out, and gathered */
bit jpiece[JOBS];
bit wopen[2]; byte wnext[2], wmany[2], wdone[2];
bit failed = 0;                  /* ghost: memory failed */

#define NO_WALKER (!walker[0] && !walker[1])
#define CLEAN (!patch[0] && !patch[1])
#define FREE_SLOT (busy < SLOTS)
#define NEXT_KIND kind[head * JOBS + started]
#define IS_STROKE (sort[head] == STROKE || sort[head] == EXCL)

#define MAY_START (begun && started < njobs[head] && FREE_SLOT && \
   (  (NEXT_KIND == CON && strict == 0) \
   || (NEXT_KIND == UNIQ && strict == 0 && uniqs == 0) \
   || (NEXT_KIND == SEQ && painters == 0) \
   || (NEXT_KIND == BAR && painters == 0 && (sort[head] == EXCL || (NO_WALKER && CLEAN)))))
#define MAY_INIT (!begun && (sort[head] == STROKE || NO_WALKER))
#define MAY_FINISH (begun && started == njobs[head] && painters == 0)
#define HEAD_MAY_GO (head < ENTRIES && ( \
      (IS_STROKE && (MAY_INIT || MAY_FINISH || MAY_START)) \
   || (sort[head] == CANCELLED && painters == 0) \
   || (sort[head] == ACT && NO_WALKER) \
   || (sort[head] == EXPORT && NO_WALKER && CLEAN)))
#define MAY_WALK(c) (patch[c] && !walker[c] && FREE_SLOT && !(begun && sort[head] == EXCL))
#define SETTLED (head == ENTRIES && busy == 0 && CLEAN)

/* what a look answers */
#define PART 0
#define AGAIN 1
#define WAIT 2
#define STOP 3
/* what a thread has */
#define NONE 0
#define ALL 1            /* all tiles of job `at` */
#define TILES 2          /* a range of job `at` */
#define ROWS 3           /* a range of the walk in cell `at` */

#ifdef MEMFAIL
#define MAY_FAIL(then) if :: true :: failed = 1; then fi
#else
#define MAY_FAIL(then) skip
#endif
#define GIVE_UP_LOOK is_over = 1; next = STOP

#ifdef WIDE
inline queue_some(j) { if :: patch[0] = 1 :: patch[1] = 1 :: patch[0] = 1; patch[1] = 1 fi }
#else
inline queue_some(j) { patch[(j) % 2] = 1 }
#endif

/* One look at the board, in one hold of the lock: `next`, and for work `have`, `at`, `leaves`. */
inline look() {
  atomic {
    assert(holder == me);
    next = AGAIN; leaves = 0;
    if
    :: is_over -> next = STOP
    :: else ->
      c = 0;
      do                                                       /* join: tiles */
      :: c < JOBS && jpiece[c] && jnext[c] < many[head * JOBS + c] -> break
      :: c < JOBS && !(jpiece[c] && jnext[c] < many[head * JOBS + c]) -> c++
      :: c == JOBS -> break
      od;
      if
      :: c < JOBS ->
        MAY_FAIL(GIVE_UP_LOOK);                                 /* Arc::try_clone */
        if :: next == STOP :: else ->
          jnext[c]++; have = TILES; at = c; next = PART; leaves = (jnext[c] < many[head * JOBS + c]) fi
      :: else ->
        c = 0;
        do                                                     /* join_walk: rows */
        :: c < 2 && wopen[c] && wnext[c] < wmany[c] -> break
        :: c < 2 && !(wopen[c] && wnext[c] < wmany[c]) -> c++
        :: c == 2 -> break
        od;
        if
        :: c < 2 ->
          MAY_FAIL(GIVE_UP_LOOK);
          if :: next == STOP :: else ->
            wnext[c]++; have = ROWS; at = c; next = PART; leaves = (wnext[c] < wmany[c]) fi
        :: else -> take()
        fi
      fi
    fi;
    c = 0; go = 0
  }
}

inline take() {
  MAY_FAIL(GIVE_UP_LOOK);                                       /* feed_ahead, desk.take */
  go = HEAD_MAY_GO;
  if
  :: next == STOP
  :: next != STOP && jobs > 0 && !go -> next = WAIT
  :: next != STOP && !(jobs > 0 && !go) ->
    if
    :: go && IS_STROKE && MAY_INIT -> begun = 1; started = 0
    :: go && IS_STROKE && MAY_FINISH -> begun = 0; started = 0; head++
    :: go && IS_STROKE && MAY_START -> begin_job()
    :: go && sort[head] == CANCELLED -> queue_some(0); head++
    :: go && sort[head] == ACT -> patch[0] = 1; patch[1] = 1; head++
    :: go && sort[head] == EXPORT -> head++
    :: !go && MAY_WALK(0) -> begin_walk(0)
    :: !go && !MAY_WALK(0) && MAY_WALK(1) -> begin_walk(1)
    :: !go && !MAY_WALK(0) && !MAY_WALK(1) ->
      if
      :: !SETTLED && (jobs > 0 || wopen[0] || wopen[1]) -> next = WAIT
      :: else -> is_over = 1; next = STOP
      fi
    fi
  fi
}

inline begin_job() {
  at = started;
  painters++; busy++;
  if :: NEXT_KIND == UNIQ -> uniqs++ :: NEXT_KIND >= SEQ -> strict++ :: else fi;
  started++;
  jobs++;
  go = HEAD_MAY_GO;
  MAY_FAIL(GIVE_UP_LOOK);                                       /* StampedPainting::new, Arc::new, Piece::new, push */
  if
  :: next == STOP
  :: next != STOP && many[head * JOBS + at] > 1 ->
    run_goes_on = go;
    jpiece[at] = 1; jnext[at] = 1; jmade[at] = 0;
    have = TILES; next = PART; leaves = 1
  :: next != STOP && many[head * JOBS + at] == 1 ->
    if
    :: go -> if :: !run_goes_on -> leaves = 1 :: else -> if :: leaves = 1 :: leaves = 0 fi fi; run_goes_on = 1
    :: else -> run_goes_on = 0; leaves = 0
    fi;
    have = ALL; next = PART
  fi
}

inline begin_walk(cell) {
  patch[cell] = 0; walker[cell] = 1; busy++;
  MAY_FAIL(GIVE_UP_LOOK);
  if
  :: next == STOP
  :: else ->
    if :: wmany[cell] = 1 :: wmany[cell] = RANGES fi;
    wopen[cell] = 1; wnext[cell] = 1; wdone[cell] = 0;
    have = ROWS; at = cell; next = PART;
    if :: leaves = 1 :: leaves = 0 fi
  fi
}

/* A hold of the lock is one step with ABSTRACT_LOCK: to take the lock commutes to the right, to leave it to the left,
 * what the lock guards is touched by the holder alone, and a hold reads the Condvar's word once at most. */
#ifdef ABSTRACT_LOCK
#define HOLD atomic
#else
#define HOLD true;
#endif

/* `next` of crew.rt, up to where the lock is left */
inline looks() {
  do :: look(); if :: next == AGAIN :: else -> break fi od;
  if
  :: next == PART -> for_two = leaves && asleep > 0; if :: alone :: else -> leaves = 0 fi
  :: next == WAIT -> assert(!alone); asleep++; seen_seq = seq
  :: next == STOP -> have = NONE; at = 0
  fi;
  unlock()
}

#define THREAD_VARS LOCK_VARS byte next, have, at, c, op; bit leaves, for_two, bad, alone, go;

/* what a thread does in its next hold */
#define FIRST 0
#define WOKEN 1
#define PUT 2            /* publish: all tiles of job `at` are there, and the gate was entered */
#define BRING 3
#define LAY 4            /* rows of the walk in cell `at` */
#define QUIT 5           /* give_up */
#define LEAVE 4          /* of `next`: the hold ends with no look */

bit finished = 0;

inline draw() {
  byte e = 0, j;
  do
  :: e < ENTRIES ->
    if
    :: sort[e] = STROKE
#ifndef PLAIN
    :: sort[e] = EXCL :: sort[e] = CANCELLED :: sort[e] = ACT :: sort[e] = EXPORT
#endif
    fi;
    if
    :: sort[e] <= EXCL ->
      do :: njobs[e] < JOBS -> njobs[e]++ :: break od;
      j = 0;
      do
      :: j < njobs[e] ->
        if :: kind[e * JOBS + j] = CON :: kind[e * JOBS + j] = BAR
#ifdef WIDE
          :: kind[e * JOBS + j] = UNIQ :: kind[e * JOBS + j] = SEQ
#endif
        fi;
        if :: many[e * JOBS + j] = 1 :: many[e * JOBS + j] = RANGES fi;
        j++
      :: else -> break
      od
    :: else
    fi;
    e++
  :: else -> break
  od;
  e = 0; j = 0
}

inline start_crew() {
  running = 1; c = 1;
  do
  :: c <= WORKERS ->
    if
    :: atomic { running++; run Thread(c) }
#ifdef NOSPAWN
    :: skip
#endif
    fi;
    c++
  :: else -> break
  od;
  c = 0
}

/* The caller is thread 0: it is alone up to work beside which something is left. */
proctype Thread(byte me) {
  THREAD_VARS
  alone = (me == 0);
  do
  :: if                                                        /* outside the lock: turn, paint, compose */
     :: have != NONE && op == FIRST ->
       MAY_FAIL(bad = 1);
       if
       :: bad -> bad = 0; op = QUIT
       :: !bad && have == ALL -> op = PUT
       :: !bad && have == TILES -> op = BRING
       :: !bad && have == ROWS -> op = LAY
       fi
     :: else
     fi;
     HOLD {
       lock();
       atomic {
         next = AGAIN;
         if
         :: op == FIRST
         :: op == WOKEN -> asleep--; seen_seq = 0
         :: op == PUT ->
           jobs--;
           MAY_FAIL(bad = 1);
           if
           :: bad -> is_over = 1
           :: else ->
             painters--; busy--;
             if :: kind[head * JOBS + at] == UNIQ -> uniqs-- :: kind[head * JOBS + at] >= SEQ -> strict-- :: else fi;
             queue_some(at)
           fi
         :: op == BRING ->
           MAY_FAIL(bad = 1);
           if
           :: bad -> op = QUIT; next = LEAVE
           :: else ->
             jmade[at]++;
             if :: jmade[at] == many[head * JOBS + at] -> op = PUT; next = LEAVE; jpiece[at] = 0; jnext[at] = 0; jmade[at] = 0
                :: else fi
           fi
         :: op == LAY ->                                       /* put_rows, tell_done, and who watches */
           MAY_FAIL(bad = 1);
           if
           :: bad -> is_over = 1
           :: else ->
             wdone[at]++;
             if :: wdone[at] == wmany[at] -> wopen[at] = 0; wnext[at] = 0; wmany[at] = 0; wdone[at] = 0; walker[at] = 0; busy--
                :: else fi
           fi
         :: op == QUIT -> is_over = 1; next = STOP; have = NONE; at = 0
         fi;
         bad = 0
       };
       if
       :: next == AGAIN -> op = FIRST; have = NONE; looks()
       :: else -> unlock()
       fi
     };
     if
     :: next == LEAVE -> next = 0                              /* the gate, or give_up */
     :: next == WAIT ->
#ifdef SPOIL_SEQ
       seen_seq = seq;
#endif
       sleepers++;
       sleep_on(2, seq, seen_seq);
       sleepers--;
       op = WOKEN; next = 0
     :: next == PART ->
       next = 0;
       if :: for_two -> for_two = 0; notify_one() :: else fi;
       if :: alone && leaves -> alone = 0; leaves = 0; start_crew() :: else fi
#ifdef SPOIL_STOP
     :: next == STOP -> break
#else
     :: next == STOP -> notify_all(); break
#endif
     fi
  od;
  if
  :: me == 0 ->
    if :: !alone -> scope_leave(); scope_finish() :: else fi;
    assert(is_over);
    assert(failed || SETTLED);
    assert(asleep == 0);
    finished = 1
  :: else -> scope_leave()
  fi
}
init { atomic { draw(); run Thread(0) } }
ltl ends { <> finished }
