/* The lock, the condition variable and the scope of threads as the kit has them, step by step over a futex: what
 * is one atomic step there is one here.  A wake picks any sleeper (the kernel's order is one of these).  A sleep
 * may end for no reason while WHIMS last: an endless supply would hide a wake-up that is lost.  THREADS threads,
 * with the ids from 0 up. */
#ifndef WHIMS
#define WHIMS 0
#endif
#define NOBODY 255
byte whims = WHIMS;
byte on[THREADS];          /* on which word a thread sleeps: 0 none, 1 lock, 2 condvar, 3 scope, 4 turn */
byte mw = 1;               /* the Mutex's word */
byte holder = NOBODY;      /* ghost: who has the lock */
byte seq = 0;              /* the Condvar's words */
byte sleepers = 0;
byte running = 0;          /* the scope's words */
bit scope_done = 0;

inline sleep_on(which, word, expected) {
  atomic { if :: word != expected :: else -> on[me] = which fi };
  if
  :: on[me] == 0
  :: atomic { on[me] == which && whims > 0 -> whims--; on[me] = 0 }
  fi
}

inline wake_one(which) {
  atomic {
    if
    :: on[0] == which -> on[0] = 0
    :: on[1] == which -> on[1] = 0
#if THREADS > 2
    :: on[2] == which -> on[2] = 0
#endif
#if THREADS > 3
    :: on[3] == which -> on[3] = 0
#endif
    :: else
    fi
  }
}

inline wake_all(which) {
  atomic {
    if :: on[0] == which -> on[0] = 0 :: else fi;
    if :: on[1] == which -> on[1] = 0 :: else fi;
#if THREADS > 2
    if :: on[2] == which -> on[2] = 0 :: else fi;
#endif
#if THREADS > 3
    if :: on[3] == which -> on[3] = 0 :: else fi;
#endif
  }
}

#ifdef SPOIL_TAKE
#define SLEPT_TAKES 0
#else
#define SLEPT_TAKES 2
#endif
#define LOCK_VARS byte seen, slept, wanted, found, seen_seq; bit ok, again;

#ifdef ABSTRACT_LOCK
inline lock() { atomic { holder == NOBODY -> holder = me } }
inline unlock() { holder = NOBODY }
#else
inline lock() {
  atomic { if :: mw == 1 -> mw = 0; ok = 1 :: else -> ok = 0 fi };
  if
  :: ok
  :: else ->
    seen = mw;
    if :: seen == 1 -> atomic { if :: mw == 1 -> mw = 0; ok = 1 :: else fi } :: else fi;
    slept = 0;
    do
    :: ok -> break
    :: !ok && (seen == 1 || (seen == 4 && slept != 0)) ->
      true; atomic { if :: mw == seen -> mw = SLEPT_TAKES; ok = 1 :: else fi };
      if :: ok :: else -> seen = mw fi
    :: !ok && !(seen == 1 || (seen == 4 && slept != 0)) ->
      wanted = (slept < 2 -> 2 : 3);
      again = 0;
      if
      :: seen < wanted ->
        atomic { found = mw; if :: mw == seen -> mw = wanted :: else fi };
        if :: found != seen -> seen = found; again = 1 :: else -> seen = wanted fi
      :: else
      fi;
      if
      :: again
      :: else ->
        sleep_on(1, mw, seen);
        if :: slept < 2 -> slept++ :: else fi;
        seen = mw
      fi
    od
  fi;
  atomic { seen = 0; slept = 0; wanted = 0; found = 0; ok = 0; again = 0;
           assert(holder == NOBODY); holder = me }
}
inline unlock() {
  atomic { assert(holder == me); holder = NOBODY;
           found = mw; if :: mw == 0 -> mw = 1 :: else fi };
  if
  :: found == 0
  :: else ->
    atomic { found = mw; if :: mw == 2 -> mw = 1 :: else fi };
    if :: found == 2 :: else -> assert(mw == 3); mw = 4 fi;
    wake_one(1)
  fi;
  found = 0
}
#endif

inline cv_wait() {
  seen_seq = seq;
  unlock();
  sleepers++;
  sleep_on(2, seq, seen_seq);
  sleepers--;
  seen_seq = 0;
  lock()
}
inline notify_one() { seq++; if :: sleepers != 0 -> wake_one(2) :: else fi }
inline notify_all() { seq++; if :: sleepers != 0 -> wake_all(2) :: else fi }

/* leave_and_signal and finish of the scope; `lower` yields in a loop until the flag is set */
bit was_last[THREADS];
inline scope_leave() {
  atomic { was_last[me] = (running == 1); running-- };
  if :: was_last[me] -> scope_done = 1; wake_one(3) :: else fi
}
inline scope_finish() {
  sleep_on(3, scope_done, 0);
  sleep_on(3, scope_done, 0);
  (scope_done == 1)
}
