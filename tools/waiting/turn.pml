/* turn_lock: one word, 0 FREE, 1 TAKEN, 2 AWAITED, as steps.rt and calls.rt have it. THREADS artists
 * make ROUNDS calls each. */
#ifndef THREADS
#define THREADS 3
#endif
#ifndef ROUNDS
#define ROUNDS 2
#endif
#include "primitives.h"
byte word = 0;
byte has_turn = NOBODY;
bit slot = 1;              /* whether the value is in the slot */
byte ended = 0;
proctype Artist(byte me) {
  byte k = 0, got;
  do
  :: k < ROUNDS ->
    atomic { got = word; if :: word == 0 -> word = 1 :: else fi };     /* begin */
    if
    :: got == 0
    :: else ->                                                        /* queue */
      do
      :: atomic { got = word;
#ifdef SPOIL_TURN
           word = (got == 0 -> 1 : 2)
#else
           word = 2
#endif
         };
         if :: got == 0 -> break :: else -> sleep_on(4, word, 2) fi
      od
    fi;
    atomic { assert(has_turn == NOBODY); has_turn = me; assert(slot == 1); slot = 0 };  /* take */
    skip;                                                             /* accept */
    atomic { slot = 1; has_turn = NOBODY };                           /* give */
    atomic { got = word; word = 0 };                                  /* end */
    if :: got == 2 -> wake_one(4) :: else fi;
    got = 0; k++
  :: else -> break
  od;
  ended++
}
init { byte i = 0; atomic { do :: i < THREADS -> run Artist(i); i++ :: else -> break od } }
#define all_ended (ended == THREADS)
ltl ends { <> all_ended }
