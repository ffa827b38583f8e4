/* Checks plans over a catalog: check CATALOG PLAN.. prints a line for each plan, as `volcano check` does. */
#include <stdio.h>
#include <stdlib.h>
#include "volcano.h"

/* All bytes of a file, which the caller frees. */
static uint8_t *file_bytes(const char *path, size_t *length) {
    FILE *file = fopen(path, "rb");
    uint8_t *bytes = NULL;
    if (file && fseek(file, 0, SEEK_END) == 0) {
        *length = (size_t)ftell(file);
        rewind(file);
        bytes = malloc(*length + 1);
        if (bytes && fread(bytes, 1, *length, file) != *length) *length = 0;
    }
    if (file) fclose(file);
    if (!bytes) fprintf(stderr, "cannot read %s\n", path);
    return bytes;
}

int main(int count, char **words) {
    size_t length = 0;
    volcano_catalog catalog = {0};
    volcano_answer answer = {0};
    uint8_t *bytes = count > 1 ? file_bytes(words[1], &length) : NULL;
    if (!bytes) return 2;
    int worst = volcano_catalog_open(bytes, length, &catalog, &answer);
    if (worst) fprintf(stderr, "%s", answer.text ? answer.text : "no memory\n");
    free(answer.text);
    free(bytes);
    for (int i = 2; i < count && catalog.is_open; i++) {
        bytes = file_bytes(words[i], &length);
        if (!bytes) return 2;
        int status = volcano_catalog_check(&catalog, bytes, length, &answer);
        printf("%s: %s", words[i], answer.text ? answer.text : "no memory\n");
        free(answer.text);
        free(bytes);
        if (status > worst) worst = status;
    }
    volcano_catalog_close(&catalog);
    return worst;
}
