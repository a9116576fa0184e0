/* What the operations and the events of vbits share. */
#ifndef VBITS_H
#define VBITS_H

#define LENGTH(array) (sizeof(array) / sizeof((array)[0]))

/* Ends the program if a client request wasn't answered with success, as outside Memcheck. */
void require(int answer, const char *what);

/* Prints the lines of all events. */
void run_events(void);

#endif
