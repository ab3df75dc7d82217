/* The texts of strokes.h. tools/header-check compares them with the results there, and those for errors of a line with the
 * command's. */
#include "strokes.h"

const char *strokes_answer_text(strokes_answer answer) {
    switch (answer) {
    case STROKES_OK: return "ok";
    case STROKES_AGAIN: return "call again";
    case STROKES_IDLE: return "nothing to do for now";
    case STROKES_SETTLED: return "settled";
    case STROKES_NOTHING: return "nothing to paint or share";
    case STROKES_NO_MEMORY: return "out of memory";
    case STROKES_SHUT: return "empty handle";
    case STROKES_IN_USE: return "handle in use";
    case STROKES_UNDONE: return "unfinished work";
    case STROKES_STRANGER: return "stale or foreign work";
    case STROKES_OUTSIDE: return "out of bounds";
    case STROKES_NO_ROOM: return "buffer too small";
    case STROKES_FULL: return "too many commands";
    case STROKES_UNKNOWN_WORD: return "unknown word";
    case STROKES_FIELD_COUNT: return "wrong number of fields";
    case STROKES_BAD_NUMBER: return "bad number";
    case STROKES_OUT_OF_RANGE: return "out of range";
    case STROKES_TOO_MANY_DABS: return "too many dabs";
    case STROKES_OUT_OF_WORLD: return "out of world";
    case STROKES_UNKNOWN_STROKE: return "unknown stroke";
    case STROKES_CLOSED_STROKE: return "closed stroke";
    case STROKES_USED_AGAIN: return "stroke number used again";
    case STROKES_CANVAS_MISSING: return "canvas missing";
    case STROKES_CANVAS_AGAIN: return "canvas repeated";
    case STROKES_TOO_MANY_JOBS: return "too many jobs";
    case STROKES_TOO_MANY_EXPORTS: return "too many exports";
    case STROKES_STROKE_LEFT: return "stroke left open";
    case STROKES_SECOND_LINE: return "more than one line";
    }
    return "no result of strokes.h";
}
