/* Which values make a start, a set or a run refused with 5. */
#ifndef BLAME_H
#define BLAME_H

#include "state_shape.h"

/* Each says which fields are at fault: those with which alone, set as after a reset, the library no longer refuses with 5. */
void blame_state(const struct tejborun_state *state);
void blame_start(const struct tejborun_state *state, const uint32_t *call);
void blame_set(const struct tejborun_state *state, const uint32_t *call);

#endif
