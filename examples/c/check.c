/* Asks what a descriptor in SDDL grants to a user and its groups: check SDDL MASK SID [GROUP..]
 *
 * MASK is hexadecimal, as 0x30; the user comes first. Prints the granted rights in hexadecimal, and ends with 0 where all
 * that was asked for is granted, with 1 where some isn't, and with 2 where something isn't of its form.
 *
 *     cc -Wall -Wextra check.c $(pkg-config --cflags --libs adsd) -o check
 */
#include <adsd.h>
#include <inttypes.h>
#include <stdio.h>
#include <stdlib.h>
#include <string.h>

static int fail(const char *what, uint32_t code)
{
    fprintf(stderr, "check: %s: code %" PRIu32 "\n", what, code);
    return 2;
}

static size_t put_count(uint8_t *into, size_t count)
{
    into[0] = (uint8_t)(count >> 8);
    into[1] = (uint8_t)count;
    return 2;
}

/* The token of a user with groups that are all enabled, or 0 bytes where a text is no identifier's. */
static size_t put_token(uint8_t *token, char **sids, size_t count)
{
    uint8_t user[68];
    size_t length, at = 2;
    token[0] = 2; /* the version */
    token[1] = 0; /* no privileges */
    if (adsd_sid_from_text((const uint8_t *)sids[0], strlen(sids[0]), user, sizeof user, &length) != ADSD_OK)
        return 0;
    for (int i = 0; i < 3; i++, at += length) /* the user, the owner and the primary group */
        memcpy(token + at, user, length);
    at += put_count(token + at, count - 1);
    for (size_t i = 1; i < count; i++, at += length) {
        token[at++] = 0; /* enabled */
        if (adsd_sid_from_text((const uint8_t *)sids[i], strlen(sids[i]), token + at, 68, &length) != ADSD_OK)
            return 0;
    }
    return at + put_count(token + at, 0); /* no restricting identifiers */
}

int main(int count, char **words)
{
    static uint8_t sd[1 << 18], token[2 + 3 * 68 + 2 + 1024 * 69 + 2];
    size_t sd_size, token_size;
    uint32_t code, want, mask;
    if (count < 4 || count > 4 + 1024)
        return fail("it wants SDDL MASK SID [GROUP..]", 0);
    want = (uint32_t)strtoul(words[2], NULL, 16);
    code = adsd_sd_from_sddl((const uint8_t *)words[1], strlen(words[1]), ADSD_NOTHING, 0, sd, sizeof sd, &sd_size);
    if (code != ADSD_OK)
        return fail("the descriptor", code);
    token_size = put_token(token, words + 3, (size_t)count - 3);
    if (token_size == 0)
        return fail("an identifier", ADSD_SID);
    code = adsd_granted(sd, sd_size, token, token_size, ADSD_NOTHING, 0, ADSD_NOTHING, 0, want, &mask);
    if (code != ADSD_OK)
        return fail("the check", code);
    printf("0x%" PRIx32 "\n", mask);
    return mask == want ? 0 : 1;
}
