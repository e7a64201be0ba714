/* What each word of main memory is when a chain is followed: for display only. Nothing depends on it but how the word is written in text. */
#ifndef ROLES_H
#define ROLES_H

#include <stdbool.h>
#include <stddef.h>
#include <stdint.h>

#include "state_shape.h"

enum role {
    ROLE_NONE,         /* not met */
    ROLE_PART,         /* goes with the word before it */
    ROLE_TAG,          /* word 0 of a DMA tag */
    ROLE_VIF0_TAG,     /* the same on channel 0 */
    ROLE_CODE,         /* a code of VIF1 */
    ROLE_VIF0_CODE,    /* a code of VIF0 */
    ROLE_PAYLOAD,      /* payload of a VIF code */
    ROLE_GIF_TAG,      /* word 0 of a GIF tag */
    ROLE_REGLIST,      /* word 0 of two values */
    ROLE_IMAGE,        /* word 0 of image data */
    ROLE_PACKED = 16,  /* word 0 of packed data; the descriptor is added */
};

/* A GIF path: the tag it holds and the quadwords due. */
struct path_place {
    unsigned format, nreg;
    uint64_t descriptors, due, taken;
};

/* A VIF: what is due of the code that waits, and the cycle. */
struct vif_place {
    bool direct;     /* quadwords of DIRECT are due, else words of another code */
    uint64_t due;
    uint64_t cl, wl; /* as STCYCL left them */
};

/* A chain that is followed. */
struct trail {
    const uint32_t *word; /* main memory from address 0; what is not given is zero */
    size_t given, total;  /* words */
    uint8_t *role;        /* of each word given */
    unsigned channel, tte;
    bool ended;
    uint64_t tadr, stack[2];
    unsigned depth;
    struct vif_place vif[2];   /* 0 and 1 */
    struct path_place path[2]; /* 2 and 3 */
    size_t left;               /* words that are still followed */
};

/* A trail over words, from reset on channel 1. */
struct trail new_trail(const uint32_t *word, size_t given, size_t total, uint8_t *role);

/* Takes waiting code, held tags, stack and what is pending from a state, and follows what is pending. */
void trail_from_state(struct trail *trail, const struct tejborun_state *state);

void trail_start(struct trail *trail, uint32_t channel, uint32_t tadr, uint32_t tte);

/* Follows the chain as far as it goes. */
void follow(struct trail *trail);

#endif
