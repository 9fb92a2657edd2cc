/* Conditions. */
#ifndef TICKETS_H
#define TICKETS_H

#include <stdbool.h>
#include <time.h>

#include "shasta_queue.h"

/* Takes a ticket, which is then to be waited for, without the mutex. */
unsigned __shasta_take_ticket(struct shasta_tickets *tickets);
void __shasta_wait_for_ticket(struct shasta_tickets *tickets, unsigned ticket);

/* Waits until something is signalled after it was looked at, or the time is past: then false. */
unsigned __shasta_look_at_signals(struct shasta_tickets *tickets);
bool __shasta_wait_for_signal(struct shasta_tickets *tickets, unsigned before,
                              const struct timespec *until);

/* Serves so many who wait, or all if they are fewer. */
void __shasta_serve(struct shasta_tickets *tickets, unsigned most);

#endif
