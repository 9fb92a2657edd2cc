/* The pages of the processors. */
#include "home.h"

void __shasta_find_home(void)
{
    own.skew = own.count - (size_t)__shasta_homes / PAGE_BYTES % own.count;
    own.home = home_of(own.number);
    own.places = &own.home->places;
}
