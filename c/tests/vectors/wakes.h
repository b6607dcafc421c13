/* When an ICE agent or a TURN client wants to be polled, which only a poll reports. A poll that is not of the call
 * would change what the call asks. So it is made of an agent or a client of its own, which has had the same events,
 * and is ended then. */
#ifndef WAKES_H
#define WAKES_H

#include "call.h"

/* Runs the call by this function, from its next word on, until nothing is left to be found. */
void wakes_run(void (*run)(void));

/* Whether the next moment that the call asks for was found in an earlier run: it is *moment. */
bool wakes_next(uint64_t *moment);

/* Keeps the next moment that the call asks for. After that this run has to end. */
void wakes_keep(uint64_t moment);

/* Whether this run has to end. */
bool wakes_has_ended(void);

#endif
