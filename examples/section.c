/* A session on one section of a book: it holds the section's pair of labels, shows it with a write, finds it stale once the
 * book has been relabelled, and holds it again. Then the book is listed, each tag as far in as it is deep, and once more with a
 * part of it marked. Last it is saved as a file, and read back into other words.
 *
 *     ./install PREFIX && export PKG_CONFIG_PATH=PREFIX/lib/pkgconfig
 *     cc examples/section.c $(pkg-config --cflags --libs vekhturop) -o section
 */
#include <inttypes.h>
#include <stdio.h>
#include <stdlib.h>
#include <string.h>
#include <vekhturop.h>

#define MOST 100

static uint32_t words[VK_WORDS(MOST)];
static const size_t len = VK_WORDS(MOST);

/* This program makes no call that is refused. */
static void accept(const char *call, uint32_t refusal)
{
    if (refusal != VK_ACCEPTED) {
        fprintf(stderr, "%s: refused, %" PRIu32 "\n", call, refusal);
        exit(1);
    }
}

static void insert_text(uint32_t place)
{
    vk_inserted reply = vk_insert(VK_TEXT, place, words, len);
    accept("insert", reply.refusal);
    printf("text %" PRIu32 " behind %" PRIu32 ": moved %" PRIu32 ", split %" PRIu32 "\n", reply.first, place, reply.moved,
           reply.split);
}

static vk_held hold(uint32_t tag)
{
    vk_held pair = vk_hold(tag, words, len);
    accept("hold", pair.refusal);
    printf("pair of %" PRIu32 ": %" PRIu32 " %" PRIu32 "\n", pair.tag, pair.start, pair.end);
    return pair;
}

static void ask(vk_held pair, uint32_t d)
{
    static const char *const says[] = { "no", "yes", "stale" };
    vk_answered reply = vk_question(pair.book, pair.tag, pair.start, pair.end, d, words, len);
    accept("question", reply.refusal);
    printf("%" PRIu32 " inside %" PRIu32 ": %s\n", d, pair.tag, says[reply.answer]);
}

static void list(void)
{
    uint32_t tags[MOST], labels[MOST], i;
    vk_listed reply = vk_list(VK_FRONT, words, len, tags, MOST, labels, MOST);
    accept("list", reply.refusal);
    printf("%" PRIu32 " tags:\n", reply.count);
    for (i = 0; i < reply.count; i++) {
        int depth = (int)words[VK_DEPTH_AT(tags[i])];
        printf("%*s%" PRIu32 "=%" PRIu32 "\n", 2 * (depth + 1), "", tags[i], labels[i]);
    }
}

/* A program that keeps the book writes the file's bytes to disk here, and reads them when it starts again. */
static void save_and_read(void)
{
    static uint8_t file[VK_FILE_BYTES(MOST)];
    static uint32_t again[VK_WORDS(MOST)];
    vk_written written = vk_write_file(words, len, file, sizeof file);
    vk_loaded loaded;
    int same;

    accept("write", written.refusal);
    printf("saved %" PRIu32 " bytes\n", written.bytes);
    loaded = vk_read_file(file, written.bytes, again, len);
    accept("read", loaded.refusal);
    same = memcmp(words, again, VK_WORDS(loaded.tags) * sizeof *words) == 0;
    printf("read %" PRIu32 " tags, height %" PRIu32 ": %s words\n", loaded.tags, loaded.height, same ? "the same" : "other");
}

int main(void)
{
    static const uint8_t kinds[] = { VK_BEGIN, VK_BEGIN, VK_END, VK_BEGIN, VK_END, VK_END };
    vk_loaded loaded = vk_load(2, 2, 7, kinds, sizeof kinds, words, len);
    vk_marked marked;
    vk_held pair;

    accept("load", loaded.refusal);
    printf("loaded %" PRIu32 " tags, height %" PRIu32 "\n", loaded.tags, loaded.height);

    pair = hold(0);
    insert_text(2);
    ask(pair, 6);
    insert_text(2);
    ask(pair, 6);
    pair = hold(0);
    ask(pair, 6);
    list();

    marked = vk_mark(3, words, len);
    accept("mark", marked.refusal);
    printf("marked %" PRIu32 "\n", marked.marked);
    list();
    save_and_read();
    return 0;
}
