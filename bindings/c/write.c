/* write FILE [BYTES]: writes a note file of four documents in two lists, and what a search finds in it.
   BYTES is the room for the file; without it there is enough.
   Exit status: 0 written, 1 refused, 2 wrong usage or a file that cannot be written. */
#include <errno.h>
#include <stdio.h>
#include <stdlib.h>
#include <string.h>

#include "noterank.h"

enum { A_CODE_EACH = 0, SKIPPING = 0, UNION = 0, STEPPED = 1, BEST_K = 1 };
enum { DOCUMENTS = 4, LISTS = 2, POSTINGS = 5 };

static const uint8_t norms[DOCUMENTS] = {5, 9, 5, 14};
static const float weights[LISTS] = {2.5f, 1.0f};
static const uint32_t counts[LISTS] = {2, 3};
static const uint32_t documents[POSTINGS] = {0, 2, /* list 1 */ 0, 1, 3};
static const uint32_t frequencies[POSTINGS] = {1, 2, /* list 1 */ 1, 1, 4};

static void fail(const char *what, const char *why)
{
    fprintf(stderr, "write: %s: %s\n", what, why);
    exit(2);
}

static size_t room(const char *word)
{
    char *end;
    errno = 0;
    unsigned long bytes = strtoul(word, &end, 10);
    if (end == word || *end != '\0' || errno != 0)
        fail(word, "not a number of bytes");
    return bytes;
}

static void save(const char *name, const uint8_t *bytes, size_t length)
{
    FILE *to = fopen(name, "wb");
    if (to == NULL)
        fail(name, strerror(errno));
    size_t written = fwrite(bytes, 1, length, to);
    if (fclose(to) != 0 || written != length)
        fail(name, "not written whole");
}

/* The reports of a search over both lists: a row for each document is always enough. */
static uint32_t search(const uint8_t *file, size_t length)
{
    const uint32_t lists[LISTS] = {0, 1};
    uint32_t found[DOCUMENTS], count;
    float scores[DOCUMENTS];
    uint32_t refusal = noterank_run(file, length, lists, LISTS, SKIPPING, UNION, STEPPED,
                                    BEST_K, 0.0f, DOCUMENTS, NULL, 0,
                                    found, DOCUMENTS, scores, DOCUMENTS, &count);
    for (uint32_t i = 0; i < count; i++)
        printf("document %lu, score %.10f\n", (unsigned long)found[i], scores[i]);
    return refusal;
}

int main(int argc, char **argv)
{
    if (argc < 2 || argc > 3)
        fail("usage", "write FILE [BYTES]");
    /* No file is longer than this. */
    size_t most = argc == 3 ? room(argv[2]) : 9 + 13 * LISTS + DOCUMENTS + 8 * POSTINGS;
    uint8_t *out = malloc(most + 1);
    if (out == NULL)
        fail("memory", "there is no more");
    uint32_t length;
    uint32_t refusal = noterank_write(DOCUMENTS, A_CODE_EACH, 0, norms, DOCUMENTS, 8.0f,
                                      weights, LISTS, counts, LISTS,
                                      documents, POSTINGS, frequencies, POSTINGS,
                                      out, most, &length);
    if (refusal == 0) {
        save(argv[1], out, length);
        printf("%s: %lu bytes\n", argv[1], (unsigned long)length);
        refusal = search(out, length);
    }
    if (refusal != 0)
        fprintf(stderr, "write: refused with %lu\n", (unsigned long)refusal);
    free(out);
    return refusal == 0 ? 0 : 1;
}
