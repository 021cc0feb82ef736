/* What libaltair has besides the proved functions: words for a refusal, presets by name, calls that refuse buffers which no proof can
 * speak of, and what was wrong where a call was refused with 1. It is plain C and proved by nobody; tests/fuzz holds it to what altair.h
 * says. checked.h has what bindings/generate writes of it. */
#include "altair.h"

#include <string.h>

/* -- The checked calls: each lists its buffers, and is the proved function where they are apart ------------------------- */

typedef struct lent {
    const void *at;
    size_t length, size;
    int written;
} lent;

#define READ(name) {name, name##_length, sizeof *name, 0}
#define WRITTEN(name) {name, name##_length, sizeof *name, 1}
#define APART(...) apart((const lent[]){__VA_ARGS__}, sizeof((const lent[]){__VA_ARGS__}) / sizeof(lent))

/* Whether each is NULL with length 0, or aligned and within the address space, and none that is written overlaps another. */
static int apart(const lent *buffers, size_t count) {
    for (size_t i = 0; i < count; i++) {
        const lent a = buffers[i];
        const uintptr_t start = (uintptr_t)a.at;
        if (a.length == 0)
            continue;
        if (a.at == NULL || start % a.size != 0 || a.length > (UINTPTR_MAX - start) / a.size)
            return 0;
        for (size_t j = 0; j < i; j++) {
            const lent b = buffers[j];
            const uintptr_t other = (uintptr_t)b.at;
            const int clear = b.length == 0 || other + b.length * b.size <= start || start + a.length * a.size <= other;
            if ((a.written || b.written) && !clear)
                return 0;
        }
    }
    return 1;
}

/* -- Why a call was refused with 1 -------------------------------------------------------------------------------------- */

static const altair_fault fine = {NULL, NULL, 0};

#define FAULT(condition, argument, number, words)                                                                        \
    if (condition)                                                                                                       \
    return (altair_fault){argument, words, number}
#define ASK(asked)                                                                                                       \
    do {                                                                                                                 \
        const altair_fault fault = asked;                                                                                \
        if (fault.argument != NULL)                                                                                      \
            return fault;                                                                                                \
    } while (0)
#define VECTOR(number) (1 <= (number) && (number) <= ALTAIR_LONGEST_VECTOR)
/* whether slots_per_epoch, S and L are those of an entry */
#define SAME(settings, entry) (memcmp(&(settings), (entry) + ALTAIR_ENTRY_SETTINGS, 3 * sizeof(uint64_t)) == 0)
/* whether a number of a list, the one at this place of every row, reaches a bound */
#define REACHES(list, row, place, bound) reaches(list, list##_length, row, place, bound)
#define SUM(list) sum(list, list##_length)
#define LONGEST(list) longest(list, list##_length)

/* the sum, or 2^64 - 1 where it is above that, which no buffer has */
static uint64_t sum(const uint64_t *numbers, size_t count) {
    uint64_t all = 0;
    for (size_t i = 0; i < count; i++)
        all = all + numbers[i] < all ? UINT64_MAX : all + numbers[i];
    return all;
}

static int reaches(const uint64_t *numbers, size_t count, size_t row, size_t place, uint64_t bound) {
    for (size_t i = place; i < count; i += row)
        if (numbers[i] >= bound)
            return 1;
    return 0;
}

static uint64_t longest(const uint64_t *numbers, size_t count) {
    uint64_t most = 0;
    for (size_t i = 0; i < count; i++)
        most = most < numbers[i] ? numbers[i] : most;
    return most;
}

static altair_fault store_fault(const uint64_t *store, size_t length, uint64_t count) {
    FAULT(length % ALTAIR_ENTRY_LENGTH != 0, "store", length / ALTAIR_ENTRY_LENGTH * ALTAIR_ENTRY_LENGTH, "23 numbers an entry");
    FAULT(count > length / ALTAIR_ENTRY_LENGTH, "count", length / ALTAIR_ENTRY_LENGTH, "at most as many entries as the store has");
    for (uint64_t i = 0; i < count; i++, store += ALTAIR_ENTRY_LENGTH) {
        const uint64_t *settings = store + ALTAIR_ENTRY_SETTINGS;
        FAULT(store[ALTAIR_ENTRY_FORK] > 1, "store", 1, "entries whose fork is 0 or 1");
        FAULT(!VECTOR(settings[1]), "store", ALTAIR_LONGEST_VECTOR, "slots_per_historical_root from 1 to 65536");
        FAULT(!VECTOR(settings[2]), "store", ALTAIR_LONGEST_VECTOR, "epochs_per_slashings_vector from 1 to 65536");
        FAULT(i > 0 && store[0] <= *(store - ALTAIR_ENTRY_LENGTH), "store", *(store - ALTAIR_ENTRY_LENGTH) + 1, "starts that rise strictly");
        FAULT(i > 0 && memcmp(settings, settings - ALTAIR_ENTRY_LENGTH, 24) != 0, "store", *(settings - ALTAIR_ENTRY_LENGTH),
              "entries of the same slots_per_epoch, slots_per_historical_root and epochs_per_slashings_vector");
    }
    return fine;
}

/* of a file whose header is good; 6 comes before 1 */
static altair_fault file_fault(const uint8_t *file, size_t length, size_t registry_length, size_t slashings_length) {
    const altair_header held = altair_read_header(file, length);
    altair_settings s;
    if (held.refusal != 0)
        return fine;
    memcpy(&s, file + 80, sizeof s);
    FAULT(held.validators > ALTAIR_MOST_VALIDATORS, "file", ALTAIR_MOST_VALIDATORS, "at most 2^24 validators");
    FAULT(!VECTOR(held.roots), "file", ALTAIR_LONGEST_VECTOR, "roots from 1 to 65536");
    FAULT(!VECTOR(held.slashings), "file", ALTAIR_LONGEST_VECTOR, "slashings from 1 to 65536");
    FAULT(held.roots != s.slots_per_historical_root, "file", s.slots_per_historical_root, "as many roots as slots_per_historical_root");
    FAULT(held.slashings != s.epochs_per_slashings_vector, "file", s.epochs_per_slashings_vector,
          "as many slashings as epochs_per_slashings_vector");
    FAULT(registry_length != 10 * held.validators, "registry", 10 * held.validators, "ten numbers a validator of the file");
    FAULT(slashings_length != held.slashings, "slashings", held.slashings, "as many numbers as the file has");
    return fine;
}

#include "checked.h"

/* -- Words, presets, rules and entries ----------------------------------------------------------------------------------- */

const char *altair_refusal_text(uint64_t number) {
    const int known = number < sizeof refusal_words / sizeof *refusal_words && refusal_words[number][0] != '\0';
    return known ? refusal_words[number] : "no refusal has this number";
}

const altair_settings *altair_preset(const char *name) {
    static const struct {
        char name[8];
        altair_settings settings;
    } presets[] = {{"mainnet", ALTAIR_MAINNET}, {"minimal", ALTAIR_MINIMAL}};
    for (size_t i = 0; name != NULL && i < sizeof presets / sizeof *presets; i++)
        if (strcmp(name, presets[i].name) == 0)
            return &presets[i].settings;
    return NULL;
}

altair_rules altair_under_altair(altair_settings settings) {
    return (altair_rules){settings, ALTAIR_FORK_ALTAIR, {0, 0}};
}

altair_rules altair_under_bellatrix(altair_settings settings, altair_bellatrix bellatrix) {
    return (altair_rules){settings, ALTAIR_FORK_BELLATRIX, bellatrix};
}

void altair_put_entry(uint64_t *entry, uint64_t start, altair_rules rules) {
    entry[ALTAIR_ENTRY_START] = start;
    entry[ALTAIR_ENTRY_FORK] = rules.fork;
    memcpy(entry + ALTAIR_ENTRY_SETTINGS, &rules.settings, sizeof rules.settings);
    memcpy(entry + ALTAIR_ENTRY_BELLATRIX, &rules.bellatrix, sizeof rules.bellatrix);
}
