// What the two files of the scheduler share.
#ifndef SCHED_H
#define SCHED_H

#include <stddef.h>

#pragma GCC visibility push(hidden)

// Of sched.c: whether a thread of the program runs, and not the scheduler.
extern int is_running;

// Lets another thread go on, if the search chooses one. `yields` if the running thread asks for that.
void place(int yields);

// Writes what the running thread does, if that is asked for.
void trace(const char *format, ...);

// Ends the run.
void end_by_signal(int number);

// Copies bytes, also of a program whose `memcpy` looks at shadow memory.
void copy(void *to, const void *from, size_t count);

// Of patch.c: makes each locked instruction of a file a place.
void patch_locked(const char *path);

void catch_signals(void);

// Makes the program call the library's functions.
void redirect_all(void);

// Whether the program has shadow memory for an address sanitizer.
extern int has_shadow;

#pragma GCC visibility pop

#endif
