/* Measures how long checking a plan takes: measure CATALOG PLAN [TIMES] prints microseconds for each check. The catalog is
 * read once; with a fourth word it is read anew for each check. */
#include <stdio.h>
#include <stdlib.h>
#include <time.h>
#include "volcano.h"

static uint8_t bytes[2][1 << 16];

static size_t read_file(const char *path, uint8_t *into) {
    FILE *file = fopen(path, "rb");
    if (!file) exit(2);
    size_t length = fread(into, 1, sizeof bytes[0], file);
    fclose(file);
    return length;
}

static double seconds_now(void) {
    struct timespec now;
    clock_gettime(CLOCK_PROCESS_CPUTIME_ID, &now);
    return (double)now.tv_sec + (double)now.tv_nsec / 1e9;
}

int main(int count, char **words) {
    if (count < 3) return 2;
    size_t length = read_file(words[1], bytes[0]), plan_length = read_file(words[2], bytes[1]);
    long times = count > 3 ? atol(words[3]) : 10000;
    volcano_catalog catalog = {0};
    volcano_answer answer = {0};
    if (volcano_catalog_open(bytes[0], length, &catalog, &answer) != 0) return 3;
    double from = seconds_now();
    for (long i = 0; i < times; i++) {
        int status = count > 4 ? volcano_check(bytes[0], length, bytes[1], plan_length, &answer)
                               : volcano_catalog_check(&catalog, bytes[1], plan_length, &answer);
        free(answer.text);
        if (status != 0) return 3;
    }
    double seconds = seconds_now() - from;
    volcano_catalog_close(&catalog);
    printf("%s: %.1f microseconds of processor time a check, of %ld\n", words[2], seconds * 1e6 / (double)times, times);
    return 0;
}
