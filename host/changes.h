/* What a run changed, in short. */
#ifndef CHANGES_H
#define CHANGES_H

#include "board.h"

/* Prints how many quadwords and instructions of the VIFs that were lent differ and where, and how many entries were added. lent: by VIF. */
void print_changes(const struct board *before, const struct board *after, const bool lent[VIFS]);

#endif
