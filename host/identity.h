/* Which software this is. */
#ifndef IDENTITY_H
#define IDENTITY_H

/* What the prover said of the library, in its own words: whether all is proved, and the sum of the logic that the proofs are checked in. */
const char *proof_identity(void);

/* The SHA-256 of the proved library that the command is linked with. */
const char *library_sum(void);

#endif
