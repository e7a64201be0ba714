/* SHA-256, by libmd's code. */
#include "sum.h"

#include "libmd/sha2.h"

void sum_of(const struct bytes *bytes, char text[SUM_TEXT])
{
    uint8_t digest[SHA256_DIGEST_LENGTH];
    SHA2_CTX context;
    SHA256Init(&context);
    SHA256Update(&context, bytes->at, bytes->count);
    SHA256Final(digest, &context);
    for (size_t i = 0; i < sizeof digest; i++)
        snprintf(text + 2 * i, 3, "%02x", digest[i]);
}
