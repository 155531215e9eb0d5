/* A new alloy comes as a sheet of XML text. Its kinds are read, and one call puts all of its tags into a book, inside one of
 * the book's lines: labels as if the tags had come one by one, mates and ups as the sheet nests. The book was read from
 * XML in the same way.
 *
 *     ./install PREFIX && export PKG_CONFIG_PATH=PREFIX/lib/pkgconfig
 *     cc examples/sheet.c $(pkg-config --cflags --libs vekhturop) -o sheet
 */
#include <inttypes.h>
#include <stdio.h>
#include <stdlib.h>
#include <string.h>
#include <vekhturop.h>

#define MOST 100

static uint32_t words[VK_WORDS(MOST)];
static const size_t len = VK_WORDS(MOST);

/* This program makes no call that is refused. */
static void accept(const char *call, uint32_t refusal)
{
    if (refusal != VK_ACCEPTED) {
        fprintf(stderr, "%s: refused, %" PRIu32 "\n", call, refusal);
        exit(1);
    }
}

/* The kinds of a text. A list as long as the text always has room; here MOST of them do. */
static size_t read_kinds(const char *text, uint8_t *kinds)
{
    vk_kinds reply = vk_xml_kinds((const uint8_t *)text, strlen(text), kinds, MOST);
    accept("sheet", reply.refusal);
    printf("%u kinds: %s\n", (unsigned)reply.count, text);
    return reply.count;
}

/* Asks with a pair that is held just before. */
static void ask(uint32_t section, uint32_t d)
{
    static const char *const says[] = { "no", "yes", "stale" };
    vk_held pair = vk_hold(section, words, len);
    vk_answered reply;

    accept("hold", pair.refusal);
    reply = vk_question(pair.book, pair.tag, pair.start, pair.end, d, words, len);
    accept("question", reply.refusal);
    printf("%" PRIu32 " inside %" PRIu32 ": %s\n", d, section, says[reply.answer]);
}

static void list(void)
{
    uint32_t tags[MOST], labels[MOST], i;
    vk_listed reply = vk_list(VK_FRONT, words, len, tags, MOST, labels, MOST);
    accept("list", reply.refusal);
    printf("%" PRIu32 " tags:", reply.count);
    for (i = 0; i < reply.count; i++) {
        printf(" %" PRIu32 "=%" PRIu32, tags[i], labels[i]);
    }
    printf("\n");
}

int main(void)
{
    /* Behind the begin of the first line, so inside it. */
    const uint32_t line = 1;
    uint8_t kinds[MOST];
    size_t count = read_kinds("<book><line></line><line></line></book>", kinds);
    vk_loaded loaded = vk_load(2, 2, 7, kinds, count, words, len);
    vk_inserted reply;

    accept("load", loaded.refusal);
    printf("loaded %" PRIu32 " tags, height %" PRIu32 "\n", loaded.tags, loaded.height);
    list();

    count = read_kinds("<alloy><pass>gap 4</pass>2 passes</alloy>", kinds);
    reply = vk_insert_sheet(kinds, count, line, words, len);
    accept("insert", reply.refusal);
    printf("tags %" PRIu32 " to %" PRIu32 " behind %" PRIu32 ": moved %" PRIu32 ", split %" PRIu32 "\n", reply.first,
           reply.first + (uint32_t)count - 1, line, reply.moved, reply.split);
    list();

    /* Tags 6 and 7 are the begins of the alloy and of its pass, 8 is the text in the pass and 10 the one behind it. */
    ask(line, 6);
    ask(7, 8);
    ask(7, 10);
    return 0;
}
