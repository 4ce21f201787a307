/* Times calls of the library: a check of one right under a list none of whose entries is for the token, and the cost of crossing.
 * Each time is the least of a hundred batches, in nanoseconds a call. */
#include <adsd.h>
#include <stdio.h>
#include <string.h>
#include <time.h>

static uint8_t token[1 << 17], sd[1 << 16], normal[1 << 16];
static size_t token_size, sd_size, normal_size;

static double now(void)
{
    struct timespec at;
    clock_gettime(CLOCK_MONOTONIC, &at);
    return (double)at.tv_sec * 1e9 + (double)at.tv_nsec;
}

static void put_sid(uint8_t *into, size_t *at, unsigned number)
{
    char text[64];
    size_t length;
    sprintf(text, "S-1-5-21-1-2-3-%u", number);
    adsd_sid_from_text((const uint8_t *)text, strlen(text), into + *at, 68, &length);
    *at += length;
}

static void make_token(unsigned identifiers)
{
    unsigned groups = identifiers - 1;
    token[0] = 2, token[1] = 0, token_size = 2;
    for (int i = 0; i < 3; i++)
        put_sid(token, &token_size, 1000);
    token[token_size++] = (uint8_t)(groups >> 8), token[token_size++] = (uint8_t)groups;
    for (unsigned i = 0; i < groups; i++) {
        token[token_size++] = 0;
        put_sid(token, &token_size, 2000 + i);
    }
    token[token_size++] = 0, token[token_size++] = 0;
}

static void make_sd(unsigned entries)
{
    static char text[1 << 15];
    size_t at = (size_t)sprintf(text, "O:BAG:BAD:");
    for (unsigned i = 0; i < entries; i++)
        at += (size_t)sprintf(text + at, "(A;;RP;;;S-1-5-21-1-2-3-%u)", 9000 + i);
    adsd_sd_from_sddl((const uint8_t *)text, at, ADSD_NOTHING, 0, sd, sizeof sd, &sd_size);
    adsd_normal_from_sd(sd, sd_size, normal, sizeof normal, &normal_size);
}

static uint32_t nothing(void)
{
    static const uint8_t guid[16];
    uint8_t out[1];
    size_t size;
    return adsd_guid_to_text(guid, 15, out, 0, &size);
}

static uint32_t of_sd(void)
{
    uint32_t mask;
    return adsd_granted(sd, sd_size, token, token_size, ADSD_NOTHING, 0, ADSD_NOTHING, 0, 16, &mask) + mask;
}

static uint32_t of_normal(void)
{
    uint32_t mask;
    return adsd_granted_normal(normal, normal_size, token, token_size, ADSD_NOTHING, 0, ADSD_NOTHING, 0, 16, &mask) + mask;
}

static double least(uint32_t (*call)(void), int calls)
{
    double best = 1e18;
    uint32_t sum = 0;
    for (int batch = 0; batch < 100; batch++) {
        double begun = now();
        for (int i = 0; i < calls; i++)
            sum += call();
        double took = (now() - begun) / calls;
        best = took < best ? took : best;
    }
    return sum == 1 ? 0 : best;
}

int main(void)
{
    static const unsigned identifiers[] = {10, 100, 1000}, entries[] = {4, 44};
    printf("a call that refuses at once: %.0f ns\n", least(nothing, 1000));
    for (int e = 0; e < 2; e++)
        for (int i = 0; i < 3; i++) {
            make_sd(entries[e]), make_token(identifiers[i]);
            printf("%u entries, %u identifiers: self-relative %.0f ns, normal %.0f ns\n", entries[e], identifiers[i], least(of_sd, 200),
                   least(of_normal, 200));
        }
    return 0;
}
