/* The kit's Mutex alone: THREADS threads take it ROUNDS times each. */
#ifndef THREADS
#define THREADS 3
#endif
#ifndef ROUNDS
#define ROUNDS 2
#endif
#include "primitives.h"
byte ended = 0;
proctype Thread(byte me) {
  LOCK_VARS
  byte k = 0;
  do
  :: k < ROUNDS -> lock(); skip; unlock(); k++
  :: else -> break
  od;
  ended++
}
init { byte i = 0; atomic { do :: i < THREADS -> run Thread(i); i++ :: else -> break od } }
#define all_ended (ended == THREADS)
ltl ends { <> all_ended }
