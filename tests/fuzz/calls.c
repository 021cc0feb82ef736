/* The table of the functions, which bindings/generate writes: rows.h.
 *
 * Buffers: T a store, of which c->count entries are in use, R a registry, V one validator, S slashings, B roots, F a file, P a registry
 * of which only the length is tested, M marks, Q the first buffer's numbers with other balances, H files one behind another and L their
 * lengths, O a list of orders, K credentials, D deposits, E consolidations, X any numbers. Behind '>' those that are written: R, S, F and
 * X whole, A amounts, which are zeros after 4 and 5, W the same at the front, C the closed files, Y of which the front is written and the
 * rest stays, Z a list to work in; r, v, u, s, a, o, m, x a registry, a validator, a store, slashings, amounts, orders, their answers and
 * any numbers changed in place.
 *
 * How long each must be stands in the table too. Numbers that are tested: s the settings, k fork and pair, b the pair and Electra's five,
 * B the pair alone, m Deneb's number, f the finality, q the exit queue's pair, t the slot, z the finalized epoch, i an index, l the numbers at an index in every buffer, o a
 * stop, which is c->index, g a flag index of 0 to 2, G one of 0 to 7, h credentials, which are c->number, e a participation epoch, n a
 * new start, which is c->epoch, x the epoch of a read, which is c->epoch too, p that an order can be taken, d a total to divide by, c the
 * clock, w a second, which is c->number, j a step's number, which is c->number, in the turn of c->running, y the same of the ninth call,
 * with its period in c->number. After the first call of a close by steps f and q are those of c->running. ? says that tests 2 and 3 have
 * no model here: the number must be one that the function names, and 1 where altair_why_.. names an argument. */
#include "fuzz.h"

#include <string.h>

#define IN(k) c->in[k].at, c->in[k].length
#define OUT(k) c->out[k].at, c->out[k].length
#define LIST(...) {__VA_ARGS__}

#define ANY(size) ((called_for){ANY_LENGTH, size, 0})
#define EXACT(size, number) ((called_for){EXACT_LENGTH, size, number})
#define LEAST(size, number) ((called_for){LEAST_LENGTH, size, number})
/* what a setting calls for is not asked by a store without entries */
#define OF_STORE(size, number) (c->count == 0 ? ANY(size) : EXACT(size, number))

/* the largest number of a list */
static uint64_t longest(const buffer *list) {
    uint64_t most = 0;
    for (size_t i = 0; i < list->length; i++)
        most = most < ((const uint64_t *)list->at)[i] ? ((const uint64_t *)list->at)[i] : most;
    return most;
}

bool as_called_for(called_for length, buffer b) {
    return length.kind == ANY_LENGTH || (length.kind == LEAST_LENGTH ? b.length >= length.length : b.length == length.length);
}

/* for a function that is never refused with 1 */
#define nothing_wrong(...) ((altair_fault){NULL, NULL, 0})

#define X(name, kind, type, lends, tests, refuses, opening, lengths, beside, why, ...)                                          \
    static void beside_##name(const lent *c, void *answer) {                                                             \
        (void)c;                                                                                                         \
        *(type *)answer = (type)beside;                                                                                  \
    }                                                                                                                    \
    static void lengths_##name(const lent *c, called_for *all) {                                                         \
        (void)c;                                                                                                         \
        const called_for each[] = lengths;                                                                               \
        memcpy(all, each, sizeof each);                                                                                  \
    }                                                                                                                    \
    static altair_fault call_##name(const lent *c, void *answer) {                                                       \
        (void)c;                                                                                                         \
        if (answer != NULL)                                                                                              \
            *(type *)answer = name(__VA_ARGS__);                                                                         \
        return answer == NULL ? why(__VA_ARGS__) : (altair_fault){NULL, NULL, 0};                                        \
    }
#include "rows.h"
#undef X

#define X(name, kind, type, lends, tests, refuses, opening, lengths, beside, why, ...)                                          \
    {#name, kind, sizeof(type), lends, tests, refuses, opening, lengths_##name, beside_##name, call_##name},
const row rows[] = {
#include "rows.h"
};
#undef X
const size_t row_count = sizeof rows / sizeof *rows;

const char *written_letters(const row *row) {
    const char *bar = strchr(row->lends, '>');
    return bar == NULL ? "" : bar + 1;
}
