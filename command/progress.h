/* Progress of long work: shown on a terminal after a second, nothing when standard output or standard error is piped. */
#ifndef PROGRESS_H
#define PROGRESS_H

/* Begins a piece of work; what was begun before it has ended. `doing` and `name` are copied. */
void progress_begin(const char *doing, const char *name);

/* Ends it and clears the line. Nothing where none was begun. */
void progress_end(void);

#endif
