/* Gives the library each truncation and each flipped bit of descriptors, normal bytes, tokens and texts: hostile [COUNT]
 *
 * Of COUNT descriptors (1,000, if not given). What is given ends where a page begins that can't be read, and answers end there
 * too, so that one byte too many ends the process, whether or not the library is built to notice. Each answer is tried: with any
 * code but ADSD_OK nothing is granted and the buffer stays; what is written reads back. Prints how many calls there
 * were, and ends with 0 where all was as it should be. */
#include <adsd.h>
#include <stdio.h>
#include <stdlib.h>
#include <string.h>
#include <sys/mman.h>
#include <unistd.h>

#define ROOM (1 << 17)
#define FILL 0xa5

static unsigned long calls;
static uint64_t state = 88172645463325252u;

static uint32_t draw(uint32_t below)
{
    state ^= state << 13, state ^= state >> 7, state ^= state << 17;
    return (uint32_t)(state >> 33) % below;
}

static void check(int is_so, const char *what)
{
    if (!is_so) {
        printf("DIFFERS hostile: %s, after %lu calls\n", what, calls);
        exit(1);
    }
}

/* The end of room behind which nothing can be read. */
static uint8_t *guarded(void)
{
    size_t page = (size_t)sysconf(_SC_PAGESIZE);
    uint8_t *at = mmap(NULL, ROOM + page, PROT_READ | PROT_WRITE, MAP_PRIVATE | MAP_ANONYMOUS, -1, 0);
    check(at != MAP_FAILED && mprotect(at + ROOM, page, PROT_NONE) == 0, "no memory");
    return at + ROOM;
}

static uint8_t *in_end, *text_end, *out_end;
static uint8_t token[4096];
static size_t token_size;

typedef uint32_t (*reader)(const uint8_t *, size_t, uint8_t *, size_t, size_t *);

/* Calls with exactly the room that is needed, and with one byte less; the buffer stays where there is no answer. */
static uint32_t read_with(reader call, const uint8_t *bytes, size_t size, uint8_t **answer, size_t *length)
{
    size_t needed, again;
    uint32_t code = call(bytes, size, out_end, 0, &needed), other;
    calls += 3;
    check(code != ADSD_OK || needed == 0, "an answer without room");
    *answer = out_end, *length = 0;
    if (code != ADSD_ROOM)
        return code;
    *answer = out_end - needed, *length = needed;
    memset(*answer, FILL, needed);
    other = call(bytes, size, *answer + 1, needed - 1, &again);
    check(other == ADSD_ROOM && again == needed, "too little room");
    for (size_t i = 0; i < needed; i++)
        check((*answer)[i] == FILL, "a buffer that doesn't stay");
    check(call(bytes, size, *answer, needed, &again) == ADSD_OK && again == needed, "room enough");
    return ADSD_OK;
}

static uint32_t from_sddl(const uint8_t *text, size_t size, uint8_t *out, size_t room, size_t *length)
{
    return adsd_sd_from_sddl(text, size, ADSD_NOTHING, 0, out, room, length);
}

static uint32_t all_of_normal(const uint8_t *normal, size_t size, uint8_t *out, size_t room, size_t *length)
{
    return adsd_sd_from_normal(normal, size, 15, out, room, length);
}

static uint32_t from_itself(const uint8_t *sd, size_t size, uint8_t *out, size_t room, size_t *length)
{
    static const uint8_t class[16] = {1};
    return adsd_inherit(sd, size, sd, size, class, sizeof class, out, room, length);
}

/* What one call writes is what another reads. */
static void reads_back(reader back, const uint8_t *answer, size_t length)
{
    static uint8_t first[ROOM];
    uint8_t *again, *there = text_end - length;
    size_t size;
    memcpy(first, answer, length);
    memcpy(there, first, length);
    check(read_with(back, there, length, &again, &size) == ADSD_OK, "what is written doesn't read back");
}

static void try_sd(const uint8_t *sd, size_t size)
{
    uint8_t *answer;
    size_t length;
    uint32_t mask = 7, code = adsd_granted(sd, size, token, token_size, ADSD_NOTHING, 0, ADSD_NOTHING, 0, 0x02000000 | 0x10f01ff, &mask);
    static const adsd_type_node nodes[3] = {{0, {1}}, {1, {2}}, {1, {3}}};
    uint32_t masks[3] = {7, 7, 7}, at = adsd_check_tree(sd, size, token, token_size, ADSD_NOTHING, 0, nodes, 3, 0xf01ff, masks, 3);
    calls += 2;
    check(code == ADSD_OK || (code == ADSD_SD && mask == 0), "a mask without an answer");
    check(at == code && (code == ADSD_OK || !(masks[0] | masks[1] | masks[2])), "masks without an answer");
    check(read_with(adsd_normal_from_sd, sd, size, &answer, &length) == code, "normal bytes");
    if (code == ADSD_OK) {
        uint32_t same = 7;
        check(adsd_granted_normal(answer, length, token, token_size, ADSD_NOTHING, 0, ADSD_NOTHING, 0, 0x02000000 | 0x10f01ff, &same) == ADSD_OK &&
                  same == mask, "another mask over the normal bytes");
        reads_back(all_of_normal, answer, length);
    }
    code = read_with(adsd_sd_to_sddl, sd, size, &answer, &length);
    check(code == ADSD_OK || code == ADSD_SD, "a code of adsd_sd_to_sddl");
    if (code == ADSD_OK && length > 0)
        reads_back(from_sddl, answer, length);
    code = read_with(from_itself, sd, size, &answer, &length);
    check(code == ADSD_OK || code == ADSD_PARENT || code == ADSD_TOO_LONG, "a code of adsd_inherit");
    read_with(adsd_explicit, sd, size, &answer, &length);
}

static void try_token(const uint8_t *bytes, size_t size)
{
    static const uint8_t none[1];
    uint32_t mask = 7, code = adsd_granted_normal(none, 0, bytes, size, ADSD_NOTHING, 0, ADSD_NOTHING, 0, 1, &mask);
    static uint8_t sd[512];
    static size_t length;
    calls += 2;
    check(code == ADSD_NORMAL && mask == 0, "no normal bytes");
    if (length == 0)
        check(from_sddl((const uint8_t *)"O:BAG:BAD:(A;;GA;;;WD)", 22, sd, sizeof sd, &length) == ADSD_OK, "a descriptor");
    code = adsd_granted(sd, length, bytes, size, ADSD_NOTHING, 0, ADSD_NOTHING, 0, 1, &mask);
    check(code == ADSD_OK || (code == ADSD_TOKEN && mask == 0), "a token");
}

static void try_text(const uint8_t *text, size_t size)
{
    uint8_t *answer;
    size_t length;
    uint32_t code = read_with(from_sddl, text, size, &answer, &length);
    check(code == ADSD_OK || (code >= ADSD_SDDL_PART && code <= ADSD_SDDL_SHAPE), "a code of a text");
    if (code == ADSD_OK)
        reads_back(adsd_sd_to_sddl, answer, length);
}

static void try_normal(const uint8_t *bytes, size_t size)
{
    uint8_t *answer;
    size_t length;
    uint32_t code = read_with(all_of_normal, bytes, size, &answer, &length);
    check(code == ADSD_OK || code == ADSD_NORMAL || code == ADSD_TOO_LONG, "a code of normal bytes");
}

/* Each front of the bytes, and the bytes with each bit the other way, in memory that ends with them. */
static void spoil(const uint8_t *bytes, size_t size, void (*call)(const uint8_t *, size_t))
{
    for (size_t front = 0; front <= size; front++) {
        memcpy(in_end - front, bytes, front);
        call(in_end - front, front);
    }
    for (size_t bit = 0; bit < 8 * size; bit++) {
        memcpy(in_end - size, bytes, size);
        (in_end - size)[bit / 8] ^= (uint8_t)(1 << bit % 8);
        call(in_end - size, size);
    }
}

static size_t sddl_of(char *text)
{
    static const char *sids[] = {"BA", "AU", "CO", "PS", "OW", "S-1-5-21-1-2-3-1104", "S-1-5-32-544", "S-1-1-0"};
    static const char *flags[] = {"", "CI", "OICI", "CIIO", "ID", "CINP"};
    static const char *rights[] = {"GA", "RPWP", "CCDC", "0x10ff", "CR", "RCWDWO"};
    static const char *guid = "bf967aba-0de6-11d0-a285-00aa003049e2";
    size_t at = (size_t)sprintf(text, "O:%sG:%sD:%s", sids[draw(8)], sids[draw(8)], draw(3) ? "" : "P");
    for (uint32_t left = draw(4); left > 0; left--) {
        int object = draw(2);
        at += (size_t)sprintf(text + at, "(%s;%s;%s;%s;%s;%s)", object ? (draw(2) ? "OA" : "OD") : (draw(2) ? "A" : "D"), flags[draw(6)],
                              rights[draw(6)], object && draw(2) ? guid : "", object && draw(2) ? guid : "", sids[draw(8)]);
    }
    if (draw(2))
        at += (size_t)sprintf(text + at, "S:(AU;SAFA;%s;;;%s)", rights[draw(6)], sids[draw(8)]);
    return at;
}

int main(int count, char **words)
{
    static uint8_t sd[ROOM], normal[ROOM];
    static char text[4096];
    long left = count > 1 ? atol(words[1]) : 1000;
    size_t size, length;
    in_end = guarded(), text_end = guarded(), out_end = guarded();
    token[0] = 2, token_size = 2;
    for (int i = 0; i < 3; i++, token_size += length)
        check(adsd_sid_from_text((const uint8_t *)"S-1-5-21-1-2-3-1104", 19, token + token_size, 68, &length) == ADSD_OK, "a user");
    memcpy(token + token_size, "\0\1\0", 3), token_size += 3;
    check(adsd_sid_from_text((const uint8_t *)"S-1-5-11", 8, token + token_size, 68, &length) == ADSD_OK, "a group");
    token_size += length, memcpy(token + token_size, "\0\0", 2), token_size += 2;
    spoil(token, token_size, try_token);
    for (long i = 0; i < left; i++) {
        size = sddl_of(text);
        check(from_sddl((const uint8_t *)text, size, sd, sizeof sd, &length) == ADSD_OK, text);
        spoil(sd, length, try_sd);
        if (i % 10 == 0) {
            spoil((const uint8_t *)text, size, try_text);
            check(adsd_normal_from_sd(sd, length, normal, sizeof normal, &size) == ADSD_OK, "normal bytes of a descriptor");
            spoil(normal, size, try_normal);
        }
    }
    printf("hostile: %lu calls, all as they should be\n", calls);
    return 0;
}
