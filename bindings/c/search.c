/* search FILE LIST..: the ten best documents in any of the lists, the best first.
   Exit status: 0 answered, 1 refused, 2 wrong usage or a file that cannot be read. */
#include <errno.h>
#include <stdio.h>
#include <stdlib.h>
#include <string.h>

#include "noterank.h"

enum { SKIPPING = 0, UNION = 0, STEPPED = 1, BEST_K = 1, ROWS_FULL = 12, BEST = 10 };

struct file {
    uint8_t *bytes;
    size_t length;
};

struct rows {
    uint32_t *documents;
    float *scores;
    uint32_t count;
};

struct hit {
    uint32_t document;
    float score;
};

static void fail(const char *what, const char *why)
{
    fprintf(stderr, "search: %s: %s\n", what, why);
    exit(2);
}

static void *grown(void *buffer, size_t bytes)
{
    void *larger = realloc(buffer, bytes);
    if (larger == NULL)
        fail("memory", "there is no more");
    return larger;
}

static struct file read_file(const char *name)
{
    struct file file = {NULL, 0};
    size_t room = 0;
    FILE *from = fopen(name, "rb");
    if (from == NULL)
        fail(name, strerror(errno));
    do {
        room = 2 * room + 4096;
        file.bytes = grown(file.bytes, room);
        file.length += fread(file.bytes + file.length, 1, room - file.length, from);
    } while (file.length == room);
    if (ferror(from))
        fail(name, strerror(errno));
    fclose(from);
    return file;
}

static uint32_t list_number(const char *word)
{
    char *end;
    errno = 0;
    unsigned long number = strtoul(word, &end, 10);
    if (end == word || *end != '\0' || errno != 0 || number > UINT32_MAX)
        fail(word, "not a list number");
    return (uint32_t)number;
}

/* Makes the rows longer until every report has one: at most as many as the file has documents. */
static uint32_t run(struct file file, const uint32_t *lists, size_t list_count, struct rows *rows)
{
    uint32_t refusal;
    size_t length = 64;
    do {
        rows->documents = grown(rows->documents, length * sizeof *rows->documents);
        rows->scores = grown(rows->scores, length * sizeof *rows->scores);
        refusal = noterank_run(file.bytes, file.length, lists, list_count,
                               SKIPPING, UNION, STEPPED,
                               BEST_K, 0.0f, BEST, NULL, 0,
                               rows->documents, length, rows->scores, length, &rows->count);
        length *= 2;
    } while (refusal == ROWS_FULL);
    return refusal;
}

/* The better score first; of equal scores the lower document. */
static int by_rank(const void *left, const void *right)
{
    const struct hit *a = left, *b = right;
    if (a->score != b->score)
        return a->score > b->score ? -1 : 1;
    return a->document < b->document ? -1 : a->document > b->document;
}

/* The rows are every report, in document order: the best are among them. */
static void print_best(const struct rows *rows)
{
    struct hit *hits = grown(NULL, (rows->count + 1) * sizeof *hits);
    for (uint32_t i = 0; i < rows->count; i++) {
        hits[i].document = rows->documents[i];
        hits[i].score = rows->scores[i];
    }
    qsort(hits, rows->count, sizeof *hits, by_rank);
    printf("rank  document            score\n");
    for (uint32_t i = 0; i < rows->count && i < BEST; i++)
        printf("%4lu  %8lu  %15.10f\n", i + 1ul, (unsigned long)hits[i].document, hits[i].score);
    free(hits);
}

int main(int argc, char **argv)
{
    struct rows rows = {NULL, NULL, 0};
    if (argc < 2)
        fail("usage", "search FILE LIST..");
    struct file file = read_file(argv[1]);
    size_t list_count = (size_t)argc - 2;
    uint32_t *lists = grown(NULL, (list_count + 1) * sizeof *lists);
    for (size_t i = 0; i < list_count; i++)
        lists[i] = list_number(argv[i + 2]);
    /* A run checks the file too; asking first parts a bad file from a bad query. */
    uint32_t refusal = noterank_check(file.bytes, file.length);
    const char *what = refusal == 0 ? "query" : "file";
    if (refusal == 0)
        refusal = run(file, lists, list_count, &rows);
    if (refusal == 0)
        print_best(&rows);
    else
        fprintf(stderr, "search: %s refused with %lu\n", what, (unsigned long)refusal);
    free(rows.documents);
    free(rows.scores);
    free(lists);
    free(file.bytes);
    return refusal == 0 ? 0 : 1;
}
