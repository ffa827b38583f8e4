/* Checks one plan in several threads at the same time: threads CATALOG PLAN [THREADS [TIMES]]. The catalog is read once, and each
 * thread has a handle of its own on it, and an answer of its own. Prints how many answers there were, all alike. */
#include <pthread.h>
#include <stdio.h>
#include <stdlib.h>
#include <string.h>
#include "volcano.h"

enum { MOST = 64, ROOM = 1 << 20 };

static uint8_t plan[ROOM];
static size_t plan_length;
static long times = 1000;
static volcano_answer wanted;
static int wanted_status;

static size_t read_file(const char *path, uint8_t *into) {
    FILE *file = fopen(path, "rb");
    if (!file) exit(2);
    size_t length = fread(into, 1, ROOM, file);
    fclose(file);
    return length;
}

/* Whether a call said what the first one did. */
static bool is_wanted(int status, const volcano_answer *answer) {
    return status == wanted_status && answer->length == wanted.length && memcmp(answer->text, wanted.text, wanted.length) == 0
           && answer->more_length == wanted.more_length
           && (!wanted.more || memcmp(answer->more, wanted.more, wanted.more_length) == 0);
}

/* Checks the plan over a handle of its own, closes it, and returns how many answers were as wanted. */
static void *check(void *handle) {
    long alike = 0;
    for (long i = 0; i < times; i++) {
        volcano_answer answer = {.errors = VOLCANO_LONG};
        int status = volcano_catalog_check(handle, plan, plan_length, &answer);
        alike += is_wanted(status, &answer);
        free(answer.text);
        free(answer.more);
    }
    volcano_catalog_close(handle);
    return (void *)alike;
}

int main(int count, char **words) {
    static uint8_t bytes[ROOM];
    volcano_catalog catalog = {0}, shares[MOST] = {{0}};
    volcano_answer answer = {0};
    pthread_t threads[MOST];
    long many = count > 3 ? atol(words[3]) : 4, alike = 0;
    if (count < 3 || many < 1 || many > MOST) return 2;
    if (count > 4) times = atol(words[4]);
    if (volcano_catalog_open(bytes, read_file(words[1], bytes), &catalog, &answer) != 0) return 3;
    plan_length = read_file(words[2], plan);
    wanted.errors = VOLCANO_LONG;
    wanted_status = volcano_catalog_check(&catalog, plan, plan_length, &wanted);
    for (long i = 0; i < many; i++)
        if (volcano_catalog_share(&catalog, &shares[i]) != 0 || pthread_create(&threads[i], NULL, check, &shares[i]) != 0) return 4;
    volcano_catalog_close(&catalog); /* The threads' handles keep what they share. */
    for (long i = 0; i < many; i++) {
        void *own;
        pthread_join(threads[i], &own);
        alike += (long)own;
    }
    printf("%s: %ld answers of %ld threads\n", words[2], alike, many);
    free(wanted.text);
    free(wanted.more);
    return alike == many * times ? 0 : 1;
}
