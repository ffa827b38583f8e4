/* The checker and the serial evaluation of volcano, for a program in C or C++: link with libvolcano.a.
 *
 * There are no globals, and the library starts no threads. Calls in several threads may run side by side, each with an answer
 * and a catalog of its own; volcano_catalog_share gives a thread a catalog of its own that was read already.
 *
 * Bytes go in as a pointer and a length. The pointer is never null, not even for no bytes. The library reads the bytes while
 * the call runs, and keeps none of them but a copy of the catalog's text.
 *
 * Each call but volcano_catalog_close returns a status, the one with which the program volcano ends: 0 where it answers; 2
 * for wrong use; 3 where what it was given is refused; 4 where memory ran out or a sum is no number of 64 bits.
 * `volcano_answer` has the text that answers, or says why there is none.
 *
 * Whoever asks about more than one plan over a catalog reads it once:
 *
 *     volcano_catalog catalog = {0};
 *     volcano_answer answer = {0};
 *     int status = volcano_catalog_open(text, text_length, &catalog, &answer);
 *     if (status == 0) status = volcano_catalog_check(&catalog, plan, plan_length, &answer);
 *     free(answer.text);
 *     volcano_catalog_close(&catalog);
 *
 * The library allocates by malloc and realloc and frees by free, of the program that it is linked into.
 */
#ifndef VOLCANO_H
#define VOLCANO_H

#include <stdbool.h>
#include <stddef.h>
#include <stdint.h>

#ifdef __cplusplus
extern "C" {
#endif

/* What `errors` of an answer may be before a call: how much is to be said of a refusal beside its line. Any other number is as
 * VOLCANO_SHORT. */
enum {
    /* Nothing more. */
    VOLCANO_SHORT = 0,
    /* Lines for people: where it is, the plan around it, what was expected and what would help. */
    VOLCANO_LONG = 1,
    /* The same as one line of JSON for programs, an object that begins with the member `refusal`. */
    VOLCANO_JSON = 2
};

/* What a call answers, or why it does not. Let it be all zero before the first call: `volcano_answer answer = {0}`. A call
 * overwrites all of it but `errors`, and does not free the texts that an earlier call put there. */
typedef struct volcano_answer {
    /* After status 0 the text that answers, and null from volcano_catalog_open. Else the line that the program prints, as
     * `volcano: K3 PartNotShown node=2` and a line feed; or the lines of volcano_check_all. A zero byte follows. The caller frees
     * it by free(text). Null after status 2, and null or empty where memory ran out. */
    char *text;
    /* How many bytes the text has, without the zero byte. */
    size_t length;
    /* Where the code (K3) and the name (PartNotShown) stand in the line of a refusal, and how long they are. All are 0 if the
     * text is no such line. */
    size_t code_at;
    size_t code_length;
    size_t name_at;
    size_t name_length;
    /* The node that the refusal names, numbered in preorder from 0, and whether it names one. */
    uint32_t node;
    bool has_node;
    /* After status 0 of a check or an annotation: whether the plan says that its rows come in a total order. */
    bool is_total;
    /* Set by the caller, before the call, and kept: VOLCANO_SHORT, VOLCANO_LONG or VOLCANO_JSON. */
    uint8_t errors;
    /* What was asked for so of a refusal, and a zero byte. The caller frees it by free(more). Null where nothing was asked for,
     * where there is no line of a refusal, and where memory ran out. Files are named `catalog`, `plan` and `tables/NAME.csv`. */
    char *more;
    /* How many bytes it has, without the zero byte. */
    size_t more_length;
} volcano_answer;

/* Where the name and the text of a table stand in a buffer: each from a start up to an end. */
typedef struct volcano_table {
    size_t name_start;
    size_t name_end;
    size_t text_start;
    size_t text_end;
} volcano_table;

/* A catalog that was read. Let it be all zero before the first call: `volcano_catalog catalog = {0}`. Only the calls below
 * change what is in it, and no copy of it is used. It is closed before it is opened and after volcano_catalog_close. Give it to
 * one call at a time; from one call to the next it may go to another thread. For threads that ask at the same time,
 * volcano_catalog_share makes one for each. */
typedef struct volcano_catalog {
    void *session;
    bool is_open;
} volcano_catalog;

/* Reads the catalog that a JSON text is. After status 0 it is open, and holds what the text says; else it is closed. What an
 * open one held before is let go. The answer has no text after status 0. */
uint8_t volcano_catalog_open(const uint8_t *text, size_t text_length, volcano_catalog *catalog, volcano_answer *answer);

/* Checks a plan over the catalog that was read: answers as volcano_check does over the text that was read, for every plan and
 * however many were checked before. Status 2 for a closed one. The catalog stays as it is. */
uint8_t volcano_catalog_check(volcano_catalog *catalog, const uint8_t *plan, size_t plan_length, volcano_answer *answer);

/* Explains a plan over the catalog that was read, as volcano_explain does over the text. Status 2 for a closed one. The
 * catalog stays as it is. */
uint8_t volcano_catalog_explain(volcano_catalog *catalog, const uint8_t *plan, size_t plan_length, volcano_answer *answer);

/* Evaluates a plan without its exchanges over the catalog that was read and tables, as volcano_evaluate does over the text.
 * Status 2 for a closed one. The catalog stays as it is, and keeps no table. */
uint8_t volcano_catalog_evaluate(volcano_catalog *catalog, const uint8_t *plan, size_t plan_length, const uint8_t *buffer,
                                 size_t buffer_length, const volcano_table *tables, size_t table_count,
                                 volcano_answer *answer);

/* Checks all nodes of a plan over the catalog that was read, as volcano_check_all does over the text. The same holds of a closed
 * one, and of the catalog, as above. So do the calls below over a catalog. */
uint8_t volcano_catalog_check_all(volcano_catalog *catalog, const uint8_t *plan, size_t plan_length, volcano_answer *answer);

uint8_t volcano_catalog_explain_json(volcano_catalog *catalog, const uint8_t *plan, size_t plan_length,
                                     volcano_answer *answer);

uint8_t volcano_catalog_explain_dot(volcano_catalog *catalog, const uint8_t *plan, size_t plan_length, volcano_answer *answer);

uint8_t volcano_catalog_annotate(volcano_catalog *catalog, const uint8_t *plan, size_t plan_length, bool derive,
                                 volcano_answer *answer);

/* Makes `another` a catalog of its own that holds what this one holds, without reading or copying it. What `another` held before
 * is let go. They are two different structs. They may then be used in two threads at the same time, and be closed in any order: what they share is only read,
 * and is let go with the last of them. Status 2 for a closed one, and 4 where memory ran out; then `another` is closed. */
uint8_t volcano_catalog_share(volcano_catalog *catalog, volcano_catalog *another);

/* Lets go of the catalog, and of its memory unless it is shared. It is closed afterwards. On a closed one it does nothing. */
void volcano_catalog_close(volcano_catalog *catalog);

/* The calls below read the catalog's text anew each time. */

/* Checks a plan over a catalog, both JSON texts. Status 0 only where the catalog is one and the checker accepts the plan:
 * every claim in it is shown. Of such a plan the status is 0, or 4 where memory ran out. The text is `accepted` or `accepted
 * total`, and a line feed. */
uint8_t volcano_check(const uint8_t *catalog, size_t catalog_length, const uint8_t *plan, size_t plan_length,
                      volcano_answer *answer);

/* Checks all nodes of a plan. Where the checker accepts it, it answers as volcano_check. Where claims do not follow, the status is
 * 3, and the text has a line for each node that fails, as `volcano check --all` prints them. Else it is the line of a refusal. */
uint8_t volcano_check_all(const uint8_t *catalog, size_t catalog_length, const uint8_t *plan, size_t plan_length,
                          volcano_answer *answer);

/* Explains a plan over a catalog that the checker accepts: the text of `volcano explain`. */
uint8_t volcano_explain(const uint8_t *catalog, size_t catalog_length, const uint8_t *plan, size_t plan_length,
                        volcano_answer *answer);

/* The same as a line of JSON (--format json), and as a picture for Graphviz (--format dot). */
uint8_t volcano_explain_json(const uint8_t *catalog, size_t catalog_length, const uint8_t *plan, size_t plan_length,
                             volcano_answer *answer);
uint8_t volcano_explain_dot(const uint8_t *catalog, size_t catalog_length, const uint8_t *plan, size_t plan_length,
                            volcano_answer *answer);

/* Writes the plan as a line of JSON with the claims that follow in place of its own, as `volcano annotate`; with `derive`, as
 * `volcano annotate --derive`. The checker accepts what it writes. */
uint8_t volcano_annotate(const uint8_t *catalog, size_t catalog_length, const uint8_t *plan, size_t plan_length, bool derive,
                         volcano_answer *answer);

/* Evaluates a plan without its exchanges over a catalog and tables: the rows as CSV, as `volcano serial` prints them. The
 * tables' names and their CSV texts stand anywhere in `buffer`, and each entry of `tables` says where. Of two texts of one
 * table the first counts. Status 2 for an entry that is not within the buffer. The checker is not asked. */
uint8_t volcano_evaluate(const uint8_t *catalog, size_t catalog_length, const uint8_t *plan, size_t plan_length,
                         const uint8_t *buffer, size_t buffer_length, const volcano_table *tables, size_t table_count,
                         volcano_answer *answer);

/* Says what a code (K3) or the name of one (PartNotShown) means, in any case, as `volcano why`. Status 2 for a word that is
 * neither. */
uint8_t volcano_why(const uint8_t *code, size_t code_length, volcano_answer *answer);

#ifdef __cplusplus
}
#endif

#endif
