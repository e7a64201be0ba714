/* Which software this is; the Makefile writes both texts. */
#include "identity.h"

#include "built.h"

const char *proof_identity(void)
{
    return BUILT_PROOF[0] != 0 ? BUILT_PROOF : "not recorded when this was built";
}

const char *library_sum(void)
{
    return BUILT_LIBRARY_SUM;
}
