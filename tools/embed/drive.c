/* Drives a program of SDL2 by a file in place of a hand: preloaded, it gives the events that the file named by DRIVE has, one
 * each 8 milliseconds, or each EACH, among those of the program itself.
 *
 *     down X Y, move X Y, up X Y      the left button
 *     drag DX DY                      the right one
 *     key NAME                        a key, by SDL's name
 *     wheel N                         up or down
 *     quit                            the window is closed; so it is at the file's end */
#define _GNU_SOURCE
#include <SDL.h>
#include <stdio.h>
#include <stdlib.h>
#include <string.h>
#include <time.h>

static void button(SDL_Event *event, Uint32 type, int x, int y) {
    event->type = type;
    event->button.button = SDL_BUTTON_LEFT;
    event->button.x = x;
    event->button.y = y;
}

static void motion(SDL_Event *event, Uint32 state, int x, int y) {
    event->type = SDL_MOUSEMOTION;
    event->motion.state = state;
    event->motion.x = event->motion.xrel = x;
    event->motion.y = event->motion.yrel = y;
}

static Uint64 each(void) {
    const char *told = getenv("EACH");
    return told ? (Uint64)atoi(told) : 8;
}

/* The event of a line. */
static void read_event(SDL_Event *event, const char *line) {
    char word[16] = "quit", name[32] = "";
    int x = 0, y = 0;
    sscanf(line, "%15s %31s", word, name);
    sscanf(line, "%*s %d %d", &x, &y);
    SDL_memset(event, 0, sizeof *event);
    event->type = SDL_QUIT;
    if (!strcmp(word, "down")) button(event, SDL_MOUSEBUTTONDOWN, x, y);
    if (!strcmp(word, "up")) button(event, SDL_MOUSEBUTTONUP, x, y);
    if (!strcmp(word, "move")) motion(event, SDL_BUTTON_LMASK, x, y);
    if (!strcmp(word, "drag")) motion(event, SDL_BUTTON_RMASK, x, y);
    if (!strcmp(word, "wheel")) event->type = SDL_MOUSEWHEEL, event->wheel.y = x;
    if (!strcmp(word, "key")) event->type = SDL_KEYDOWN, event->key.keysym.sym = SDL_GetKeyFromName(name);
}

int SDL_WaitEvent(SDL_Event *event) {
    static FILE *file;
    static Uint64 due;
    char line[64] = "quit";
    if (!file && !(file = fopen(getenv("DRIVE"), "r"))) exit(70);
    while (SDL_GetTicks64() < due) {
        if (SDL_PollEvent(event)) return 1;
        nanosleep(&(struct timespec){0, 100000}, NULL);
    }
    due = SDL_GetTicks64() + each();
    if (!fgets(line, sizeof line, file)) strcpy(line, "quit");
    read_event(event, line);
    return 1;
}
