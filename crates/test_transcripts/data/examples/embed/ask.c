/* Asks about plans over a catalog that is read once: ask CATALOG [long|json] takes lines from its standard input, as
 *
 *     check PLAN | check_all PLAN | explain PLAN | explain_json PLAN | explain_dot PLAN | annotate PLAN | derive PLAN
 *     serial PLAN NAME FILE NAME FILE .. | why CODE
 *
 * and prints what volcano prints, with the second word what it prints with --errors, and a line with its status. */
#include <stdio.h>
#include <stdlib.h>
#include <string.h>
#include "volcano.h"

enum { WORDS = 64, ROOM = 1 << 24 };

/* A call that takes a plan and no more. */
typedef uint8_t call(volcano_catalog *, const uint8_t *, size_t, volcano_answer *);

static const struct {
    const char *word;
    call *call;
} CALLS[] = {
    {"check", volcano_catalog_check},
    {"check_all", volcano_catalog_check_all},
    {"explain", volcano_catalog_explain},
    {"explain_json", volcano_catalog_explain_json},
    {"explain_dot", volcano_catalog_explain_dot},
};

/* Puts the bytes of a file behind the first `length` bytes, and returns where they end. */
static size_t put_file(uint8_t *bytes, size_t length, const char *path) {
    FILE *file = fopen(path, "rb");
    if (!file) {
        fprintf(stderr, "cannot read %s\n", path);
        exit(2);
    }
    length += fread(bytes + length, 1, length < ROOM ? ROOM - length : 0, file);
    fclose(file);
    return length;
}

/* Evaluates a plan over the tables that are named by pairs of words: a name and a file. */
static int evaluate(volcano_catalog *catalog, const uint8_t *plan, size_t plan_length, char **words, size_t count,
                    uint8_t *buffer, volcano_answer *answer) {
    volcano_table tables[WORDS];
    size_t length = 0, table_count = 0;
    for (size_t i = 0; i + 1 < count; i += 2) {
        volcano_table *table = &tables[table_count++];
        table->name_start = length;
        memcpy(buffer + length, words[i], strlen(words[i]));
        length += strlen(words[i]);
        table->name_end = table->text_start = length;
        length = put_file(buffer, length, words[i + 1]);
        table->text_end = length;
    }
    return volcano_catalog_evaluate(catalog, plan, plan_length, buffer, length, tables, table_count, answer);
}

/* Does what a line says, and returns the status. */
static int ask(volcano_catalog *catalog, char *line, uint8_t *plan, uint8_t *buffer, volcano_answer *answer) {
    char *words[WORDS];
    size_t count = 0;
    for (char *word = strtok(line, " \n"); word && count < WORDS; word = strtok(NULL, " \n")) words[count++] = word;
    if (count < 2) return 2;
    if (strcmp(words[0], "why") == 0) return volcano_why((const uint8_t *)words[1], strlen(words[1]), answer);
    size_t length = put_file(plan, 0, words[1]);
    for (size_t i = 0; i < sizeof CALLS / sizeof *CALLS; i++)
        if (strcmp(words[0], CALLS[i].word) == 0) return CALLS[i].call(catalog, plan, length, answer);
    if (strcmp(words[0], "annotate") == 0) return volcano_catalog_annotate(catalog, plan, length, false, answer);
    if (strcmp(words[0], "derive") == 0) return volcano_catalog_annotate(catalog, plan, length, true, answer);
    return evaluate(catalog, plan, length, words + 2, count - 2, buffer, answer);
}

/* Prints what a call wrote, and frees it. */
static void print(const volcano_answer *answer, int status) {
    printf("%s%sstatus %d\n", answer->text ? answer->text : "", answer->more ? answer->more : "", status);
    free(answer->text);
    free(answer->more);
}

int main(int count, char **words) {
    static char line[1 << 12];
    uint8_t *plan = malloc(ROOM), *buffer = malloc(ROOM + sizeof line);
    volcano_catalog catalog = {0};
    volcano_answer answer = {0};
    if (count < 2 || count > 3 || !plan || !buffer) return 2;
    uint8_t errors = count == 2 ? VOLCANO_SHORT : strcmp(words[2], "json") == 0 ? VOLCANO_JSON : VOLCANO_LONG;
    answer.errors = errors;
    int status = volcano_catalog_open(buffer, put_file(buffer, 0, words[1]), &catalog, &answer);
    if (status) print(&answer, status);
    while (catalog.is_open && fgets(line, sizeof line, stdin)) {
        answer = (volcano_answer){.errors = errors};
        status = ask(&catalog, line, plan, buffer, &answer);
        print(&answer, status);
    }
    volcano_catalog_close(&catalog);
    free(plan);
    free(buffer);
    return 0;
}
