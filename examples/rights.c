/* A contractor's session, from grant to revoke: it is granted to read and insert in one section, inserts, finds its pair stale
 * after its own insertion, holds it again, and is refused what it was not granted and, once revoked, everything.
 *
 *     ./install PREFIX && export PKG_CONFIG_PATH=PREFIX/lib/pkgconfig
 *     cc examples/rights.c $(pkg-config --cflags --libs vekhturop) -o rights
 */
#include <inttypes.h>
#include <stdio.h>
#include <stdlib.h>
#include <vekhturop.h>

#define MOST 100
#define MOST_GRANTS 3
#define CONTRACTOR 5
#define OTHER 6

static uint32_t words[VK_WORDS(MOST)];
static const size_t len = VK_WORDS(MOST);
static vk_grant grants[MOST_GRANTS];
static size_t count;

static void accept(const char *call, uint32_t refusal)
{
    if (refusal != VK_ACCEPTED) {
        fprintf(stderr, "%s: refused, %" PRIu32 "\n", call, refusal);
        exit(1);
    }
}

static vk_held hold(uint32_t tag)
{
    vk_held pair = vk_hold(tag, words, len);
    accept("hold", pair.refusal);
    printf("pair of %" PRIu32 ": %" PRIu32 " %" PRIu32 "\n", pair.tag, pair.start, pair.end);
    return pair;
}

/* Not every call of this program is allowed. */
static void call(uint32_t party, vk_held pair, const char *what, uint32_t d, uint32_t right)
{
    vk_party reply = vk_party_call(party, pair.book, pair.tag, pair.start, pair.end, d, right, VK_TEXT, grants, MOST_GRANTS,
                                   count, words, len);
    printf("party %" PRIu32 ", %s %" PRIu32 ": ", party, what, d);
    if (reply.refusal != VK_ACCEPTED) {
        printf("refused, %" PRIu32 "\n", reply.refusal);
    } else if (reply.answer == VK_INSERTED) {
        printf("tag %" PRIu32 ", moved %" PRIu32 ", split %" PRIu32 "\n", reply.first, reply.moved, reply.split);
    } else {
        printf("%s\n", reply.answer == VK_YES ? "yes" : "stale");
    }
}

int main(void)
{
    static const uint8_t kinds[] = { VK_BEGIN, VK_BEGIN, VK_END, VK_BEGIN, VK_END, VK_END };
    vk_loaded loaded = vk_load_with_grants(2, 2, 7, kinds, sizeof kinds, words, len, &count);
    vk_granted granted;
    vk_revoked revoked;
    vk_held pair;

    accept("load", loaded.refusal);
    printf("loaded %" PRIu32 " tags, height %" PRIu32 ", %zu grants\n", loaded.tags, loaded.height, count);

    granted = vk_grant_add(CONTRACTOR, 1, VK_READ + VK_INSERT, grants, MOST_GRANTS, &count, words, len);
    accept("grant", granted.refusal);
    printf("party %d may read and insert in 1: %zu grants\n", CONTRACTOR, granted.count);
    pair = hold(1);
    call(CONTRACTOR, pair, "text behind", 1, VK_INSERT);
    call(CONTRACTOR, pair, "read", 6, VK_READ);
    call(CONTRACTOR, pair, "write", 6, VK_WRITE);
    call(OTHER, pair, "read", 6, VK_READ);
    call(CONTRACTOR, pair, "text behind", 1, VK_INSERT);
    call(CONTRACTOR, pair, "read", 6, VK_READ);
    pair = hold(1);
    call(CONTRACTOR, pair, "read", 6, VK_READ);

    revoked = vk_grant_revoke(CONTRACTOR, 1, grants, MOST_GRANTS, &count);
    accept("revoke", revoked.refusal);
    printf("revoked %zu: %zu grants\n", revoked.revoked, count);
    call(CONTRACTOR, pair, "read", 6, VK_READ);
    return 0;
}
