/* altair-close: closes a record file of any size and prints the listing. It is thin over libaltair: what is refused,
 * and every figure, is the library's. docs/RECORD_FILE.md has the file's form. */
#define _XOPEN_SOURCE 700
#include "altair.h"

#include <errno.h>
#include <fcntl.h>
#include <inttypes.h>
#include <signal.h>
#include <stdarg.h>
#include <stdio.h>
#include <stdlib.h>
#include <string.h>
#include <sys/stat.h>
#include <unistd.h>

#define NAME "altair-close"
#define U64 "%" PRIu64
#define I64 "%" PRId64
enum { CLOSED = 0, REFUSED = 1, TROUBLE = 2 };

static const char help[] =
    "altair-close [--amounts] [--json | --csv] [--fork FORK | --store FILE] [--out FILE] RECORD\n"
    "\n"
    "Closes the epoch of a record file ('-' is standard input) and prints the listing: epoch, justified and finalized "
    "epoch,\n"
    "bits, charged, and whether the active, previous and current total was raised, 1 or 0 each; then for each validator\n"
    "its index, opening and closing balance, effective balance and score after,\n"
    "and its net change, closing minus opening.\n"
    "\n"
    "  --amounts     the statement by rule: which of the four finality tests, 1 to 4, set the finalized checkpoint, or 0; and for\n"
    "                each validator its opening balance, the reward and the amount taken for source, target, head and\n"
    "                inactivity, the amount taken by slashing, and its closing balance; of an Electra close before that what deposits\n"
    "                added and what consolidations took out and brought in; with --json or --csv beside the listing\n"
    "  --json        the listing as one JSON object; numbers are whole, up to 2^64 - 1; a loss has a minus sign\n"
    "  --csv         the listing as lines of comma separated values, the epoch's figures on each line\n"
    "  --store FILE  closes by a store of settings by starting epoch (altair-store), in place of the record's own as Altair\n"
    "  --fork FORK   closes by the rules of altair (as it does where nothing is said), bellatrix, capella, whose rules are Bellatrix's,\n"
    "                deneb, electra, or fulu, whose rules are Electra's. Of these two RECORD has Electra's settings and queues behind it\n"
    "                (altair-record, altair-state), and the listing has a line for each validator that there is after the close. What\n"
    "                another fork adds is mainnet's or minimal's where the record's settings are; else it must be said:\n"
    "  --bellatrix QUOTIENT,MULTIPLIER\n"
    "                inactivity_penalty_quotient_bellatrix and proportional_slashing_multiplier_bellatrix\n"
    "  --activation-limit NUMBER\n"
    "                max_per_epoch_activation_churn_limit, of a Deneb close\n"
    "  --out FILE    the closed record, written as a record file of version 2; it is there whole, or not at all, and once all is\n"
    "                printed. FILE may be RECORD. A link is followed, and one to a file that is not there is refused. The deposits that an\n"
    "                Electra close leaves have keys by the closed record's validators, so that it can be closed again\n"
    "  --help        this text\n"
    "  --version     the version\n"
    "\n"
    "Exit status: 0 closed; 1 refused, with the number and its words on standard error, and then nothing is written or "
    "printed;\n"
    "2 could not read or write.\n";

/* the largest file that any record makes; input beyond it has one byte more than is read, and is refused */
#define LONGEST ALTAIR_FILE_LENGTH(ALTAIR_MOST_VALIDATORS, ALTAIR_LONGEST_VECTOR, ALTAIR_LONGEST_VECTOR)

/* Electra's part, which stands behind a record file: its version, how many deposits and consolidations it has, Bellatrix's pair, Electra's
 * five settings and the queues' five numbers; then compounding, deposits and consolidations. */
enum { PART_VERSION = 1, PART_HEAD = 15 };
#define PART_LENGTH(validators, deposits, consolidations) \
    (8 * (PART_HEAD + (validators) + ALTAIR_DEPOSIT_LENGTH * (deposits) + ALTAIR_CONSOLIDATION_LENGTH * (consolidations)))

/* A file that is written beside its name, to be moved there once all is printed, so that a failure leaves what stood there. */
typedef struct pending {
    const char *path; /* as it was given */
    char *name;       /* where it will stand; a link stays a link */
    char beside[];
} pending;

static pending *volatile made; /* written, and not yet in its place */

static _Noreturn void trouble(const char *form, ...) {
    if (made != NULL)
        unlink(made->beside);
    va_list words;
    va_start(words, form);
    fputs(NAME ": ", stderr);
    vfprintf(stderr, form, words);
    fputc('\n', stderr);
    va_end(words);
    exit(TROUBLE);
}

static void *room(size_t count, size_t size) {
    void *p = calloc(count + 1, size);
    if (p == NULL)
        trouble("no memory for %zu numbers", count);
    return p;
}

/* -- Reading ------------------------------------------------------------------------------------------------------- */

typedef struct record {
    uint8_t *file;
    size_t length; /* of the record; Electra's part stands behind it */
    size_t numbers, slashings_length, roots_length;
    altair_settings settings;
    altair_finality finality;
    altair_queue queue;
    uint64_t *registry, *slashings;
    const uint8_t *roots;
} record;

static uint64_t number_at(const uint8_t *bytes) {
    uint64_t n = 0;
    for (int i = 7; i >= 0; i--)
        n = n << 8 | bytes[i];
    return n;
}

static size_t least(uint64_t a, uint64_t b) { return (size_t)(a < b ? a : b); }

/* How many bytes of the input matter, as far as those that are held say it: one more than the record's header names, or than Electra's
 * part does where that is wanted. Of another version the header alone is looked at. */
static size_t wanted_length(const uint8_t *bytes, size_t held, int electra) {
    if (held < 80)
        return 80;
    const uint64_t version = number_at(bytes);
    if (version < 1 || version > 2)
        return 80;
    const size_t record = least(number_at(bytes + 8), LONGEST);
    if (!electra)
        return record < 80 ? 80 : record + 1;
    if (held < record + 8 * PART_HEAD)
        return record + 8 * PART_HEAD;
    const uint8_t *part = bytes + record;
    const uint64_t most = ALTAIR_MOST_VALIDATORS;
    return record + 1 + PART_LENGTH(least(number_at(bytes + 16), most), least(number_at(part + 8), most), least(number_at(part + 16), most));
}

/* The input, but no more than one byte beyond the length that its header names: it is refused whatever follows. */
static uint8_t *read_all(const char *path, int electra, size_t *length) {
    FILE *in = strcmp(path, "-") == 0 ? stdin : fopen(path, "rb");
    if (in == NULL)
        trouble("%s: %s", path, strerror(errno));
    size_t held = 0, size = 65536, wanted = size;
    uint8_t *bytes = room(size, 1);
    for (size_t got; held < wanted && (got = fread(bytes + held, 1, (size < wanted ? size : wanted) - held, in)) > 0;) {
        held += got;
        wanted = wanted_length(bytes, held, electra);
        if (held == size && held < wanted) {
            size = size < wanted / 2 ? 2 * size : wanted;
            bytes = realloc(bytes, size);
            if (bytes == NULL)
                trouble("%s: no memory for %zu bytes", path, size);
        }
    }
    if (ferror(in))
        trouble("%s: %s", path, strerror(errno));
    if (in != stdin)
        fclose(in);
    *length = held;
    return bytes;
}

static int refused(const char *path, uint64_t number, const char *where) {
    fprintf(stderr, NAME ": %s: refused " U64 ": %s%s\n", path, number, altair_refusal_text(number), where);
    return REFUSED;
}

/* The place in the file at which reading stopped, in words. The validators of a file of version 2 stand behind the pair. */
static const char *place(uint64_t number, uint64_t position, uint64_t version) {
    static const char *const fields[] = {
        "effective_balance",
        "slashed",
        "activation_eligibility_epoch",
        "activation_epoch",
        "exit_epoch",
        "withdrawable_epoch",
        "balance",
        "previous_epoch_participation",
        "current_epoch_participation",
        "inactivity_score",
    };
    static char words[96];
    if (number == ALTAIR_BAD_FILE)
        return position == 0 ? " (it is under 80 bytes long)" : " (the header)";
    if (number == ALTAIR_BAD_SHAPE)
        return " (the header's sizes, or the settings')";
    if (number == ALTAIR_BAD_SETTINGS)
        return " (settings)";
    if (number == ALTAIR_WRONG_QUEUE)
        return " (exit_queue, at byte 368)";
    if (position == 368)
        return " (slot, justification_bits or a checkpoint's epoch)";
    const uint64_t at = position - ALTAIR_ROOTS_AT(version, 0);
    snprintf(words, sizeof words, " (validators[" U64 "].%s, at byte " U64 ")", at / 80, fields[at % 80 / 8], position);
    return words;
}

/* The numbers of a store file and how many entries it has, all of them in use; NULL where it has no whole number of them, or too
 * many. What else is no store the close refuses. */
static uint64_t *read_store(const char *path, size_t *numbers) {
    enum { MOST = 1 << 16 };
    FILE *in = fopen(path, "rb");
    if (in == NULL)
        trouble("%s: %s", path, strerror(errno));
    uint8_t *bytes = room(8 * ALTAIR_ENTRY_LENGTH * MOST + 1, 1);
    const size_t held = fread(bytes, 1, 8 * ALTAIR_ENTRY_LENGTH * MOST + 1, in);
    if (ferror(in))
        trouble("%s: %s", path, strerror(errno));
    fclose(in);
    if (held % (8 * ALTAIR_ENTRY_LENGTH) != 0) {
        free(bytes);
        return NULL;
    }
    *numbers = held / 8;
    uint64_t *store = room(*numbers, sizeof *store);
    for (size_t i = 0; i < *numbers; i++)
        store[i] = number_at(bytes + 8 * i);
    free(bytes);
    return store;
}

/* -- Writing ------------------------------------------------------------------------------------------------------- */

static void finish(FILE *out, const char *path) {
    if (ferror(out) || fflush(out) != 0 || fclose(out) != 0)
        trouble("%s: %s", path, strerror(errno));
}

/* The numbers of a close: amounts, so many a validator, is NULL where they are not asked for. */
typedef struct shown {
    altair_head head;
    uint64_t test;
    const uint64_t *amounts;
    size_t columns;
} shown;

static const char *const rules[ALTAIR_ELECTRA_AMOUNTS_LENGTH] = {
    "source_reward",    "source_taken",   "target_reward", "target_taken",     "head_reward",     "head_taken", "inactivity_reward",
    "inactivity_taken", "slashing_taken", "deposited",     "consolidated_out", "consolidated_in",
};

static const uint64_t *amounts_of(const shown *all, uint64_t index) { return all->amounts + all->columns * index; }

/* How a close is printed: what stands first, a line for each validator, and what stands last. */
typedef struct form {
    void (*first)(const shown *all, size_t validators);
    void (*line)(const shown *all, const altair_line *line);
    const char *last;
} form;

static void listing_first(const shown *all, size_t validators) {
    (void)validators;
    const altair_head *head = &all->head;
    printf("epoch " U64 " justified " U64 " finalized " U64 " bits " U64 " charged " U64 " " U64 " " U64 " " U64,
           head->epoch, head->justified_epoch, head->finalized_epoch, head->justification_bits, head->charged,
           head->raised.active, head->raised.previous, head->raised.current);
    if (all->amounts == NULL) {
        putchar('\n');
        return;
    }
    printf(" test " U64 "\nindex opening_balance", all->test);
    for (size_t i = 0; i < all->columns; i++)
        printf(" %s", rules[i]);
    puts(" closing_balance");
}

static void listing_line(const shown *all, const altair_line *line) {
    if (all->amounts == NULL) {
        printf(U64 " " U64 " " U64 " " U64 " " U64 " " I64 "\n", line->index, line->opening_balance,
               line->closing_balance, line->effective_balance, line->inactivity_score, line->net_change);
        return;
    }
    printf(U64 " " U64, line->index, line->opening_balance);
    for (size_t i = 0; i < all->columns; i++)
        printf(" " U64, amounts_of(all, line->index)[i]);
    printf(" " U64 "\n", line->closing_balance);
}

static void json_first(const shown *all, size_t validators) {
    (void)validators;
    const altair_head *head = &all->head;
    printf("{\"epoch\": " U64 ", \"justified_epoch\": " U64 ", \"finalized_epoch\": " U64
           ", \"justification_bits\": " U64 ", \"charged\": " U64 ",\n \"raised_active\": " U64
           ", \"raised_previous\": " U64 ", \"raised_current\": " U64,
           head->epoch, head->justified_epoch, head->finalized_epoch, head->justification_bits, head->charged,
           head->raised.active, head->raised.previous, head->raised.current);
    if (all->amounts != NULL)
        printf(", \"finalizing_test\": " U64, all->test);
    printf(",\n \"validators\": [");
}

static void json_line(const shown *all, const altair_line *line) {
    printf("%s\n  {\"index\": " U64 ", \"opening_balance\": " U64 ", \"closing_balance\": " U64
           ", \"effective_balance\": " U64 ", \"inactivity_score\": " U64 ", \"net_change\": " I64,
           line->index == 0 ? "" : ",", line->index, line->opening_balance, line->closing_balance,
           line->effective_balance, line->inactivity_score, line->net_change);
    for (size_t i = 0; all->amounts != NULL && i < all->columns; i++)
        printf(", \"%s\": " U64, rules[i], amounts_of(all, line->index)[i]);
    putchar('}');
}

static void csv_epoch(const shown *all) {
    const altair_head *head = &all->head;
    printf(U64 "," U64 "," U64 "," U64 "," U64 "," U64 "," U64 "," U64 ",", head->epoch, head->justified_epoch,
           head->finalized_epoch, head->justification_bits, head->charged, head->raised.active, head->raised.previous,
           head->raised.current);
    if (all->amounts != NULL)
        printf(U64 ",", all->test);
}

/* with no validators one line stands for the epoch, and the validator's columns are empty */
static void csv_first(const shown *all, size_t validators) {
    printf("epoch,justified_epoch,finalized_epoch,justification_bits,charged,raised_active,raised_previous,raised_current,"
           "%sindex,opening_balance,closing_balance,effective_balance,inactivity_score,net_change",
           all->amounts != NULL ? "finalizing_test," : "");
    for (size_t i = 0; all->amounts != NULL && i < all->columns; i++)
        printf(",%s", rules[i]);
    putchar('\n');
    if (validators == 0) {
        csv_epoch(all);
        puts(&",,,,,,,,,,,,,,,,,"[all->amounts != NULL ? ALTAIR_ELECTRA_AMOUNTS_LENGTH - all->columns : ALTAIR_ELECTRA_AMOUNTS_LENGTH]);
    }
}

static void csv_line(const shown *all, const altair_line *line) {
    csv_epoch(all);
    printf(U64 "," U64 "," U64 "," U64 "," U64 "," I64, line->index, line->opening_balance, line->closing_balance,
           line->effective_balance, line->inactivity_score, line->net_change);
    for (size_t i = 0; all->amounts != NULL && i < all->columns; i++)
        printf("," U64, amounts_of(all, line->index)[i]);
    putchar('\n');
}

static const form listing = {listing_first, listing_line, ""};
static const form json = {json_first, json_line, "]}\n"};
static const form csv = {csv_first, csv_line, ""};

/* The registries of a listing, as many numbers each: one that the close has added opens with zeros. */
typedef struct registries {
    const uint64_t *opening, *closing;
    size_t numbers;
} registries;

/* The first refusal of a validator's line, with the line's index; or 0. */
static uint64_t unprintable(const registries *r, uint64_t *index) {
    for (*index = 0; *index < r->numbers / ALTAIR_VALIDATOR_LENGTH; ++*index) {
        const uint64_t number = altair_listing_line(r->opening, r->numbers, r->closing, r->numbers, *index).refusal;
        if (number != 0)
            return number;
    }
    return 0;
}

static void print(const form *as, const shown *all, const registries *r) {
    const size_t validators = r->numbers / ALTAIR_VALIDATOR_LENGTH;
    as->first(all, validators);
    for (uint64_t i = 0; i < validators && !ferror(stdout); i++) {
        const altair_line line = altair_listing_line(r->opening, r->numbers, r->closing, r->numbers, i);
        as->line(all, &line);
    }
    fputs(as->last, stdout);
    finish(stdout, "standard output");
}

/* A signal that ends the command leaves no file behind. */
static void remove_made(int number) {
    if (made != NULL)
        unlink(made->beside);
    signal(number, SIG_DFL);
    raise(number);
}

static const int ending[] = {SIGINT, SIGTERM, SIGHUP};

static void catch_signals(void) {
    for (size_t i = 0; i < sizeof ending / sizeof *ending; i++)
        if (signal(ending[i], remove_made) == SIG_IGN)
            signal(ending[i], SIG_IGN);
}

static void with_signals(int how) {
    sigset_t set;
    sigemptyset(&set);
    for (size_t i = 0; i < sizeof ending / sizeof *ending; i++)
        sigaddset(&set, ending[i]);
    sigprocmask(how, &set, NULL);
}

/* Where the path names a pipe or a device, that, opened; NULL where it is a plain file, or, with a mode of 0, none. */
static FILE *device(const char *path, struct stat *found) {
    struct stat link;
    FILE *out = NULL;
    if (stat(path, found) == 0) {
        if (!S_ISREG(found->st_mode) && (out = fopen(path, "wb")) == NULL)
            trouble("%s: %s", path, strerror(errno));
    } else if (errno != ENOENT) {
        trouble("%s: %s", path, strerror(errno));
    } else if (lstat(path, &link) == 0) {
        trouble("%s: a link to a file that is not there", path);
    } else {
        found->st_mode = 0;
    }
    return out;
}

/* How long the folder's part of a name is: all up to the last slash. */
static size_t folder_length(const char *name) {
    const char *slash = strrchr(name, '/');
    return slash == NULL ? 0 : (size_t)(slash - name) + 1;
}

static void write_beside(const char *path, const struct stat *found, const uint8_t *bytes, size_t length) {
    static const char own[] = ".altair-XXXXXX";
    char *name = found->st_mode != 0 ? realpath(path, NULL) : strdup(path);
    if (name == NULL)
        trouble("%s: %s", path, strerror(errno));
    pending *file = room(1, sizeof *file + folder_length(name) + sizeof own);
    file->path = path, file->name = name;
    memcpy(file->beside, name, folder_length(name));
    memcpy(file->beside + folder_length(name), own, sizeof own);
    with_signals(SIG_BLOCK);
    const int handle = mkstemp(file->beside);
    if (handle < 0)
        trouble("%s: %s", path, strerror(errno));
    made = file;
    with_signals(SIG_UNBLOCK);
    mode_t mode = found->st_mode & 07777;
    if (found->st_mode == 0) {
        const mode_t mask = umask(0);
        umask(mask);
        mode = 0666 & ~mask;
    } else if (fchown(handle, found->st_uid, found->st_gid) != 0 && errno != EPERM) {
        trouble("%s: %s", path, strerror(errno));
    }
    FILE *out = fdopen(handle, "wb");
    if (out == NULL || fchmod(handle, mode) != 0 || fwrite(bytes, 1, length, out) != length || fflush(out) != 0 ||
        fsync(handle) != 0 || fclose(out) != 0)
        trouble("%s: %s", path, strerror(errno));
}

static void move_into_place(void) {
    with_signals(SIG_BLOCK);
    pending *file = made;
    if (rename(file->beside, file->name) != 0)
        trouble("%s: %s", file->path, strerror(errno));
    made = NULL;
    with_signals(SIG_UNBLOCK);
    /* the new name survives a loss of power, where the file system can say so */
    file->name[folder_length(file->name)] = '\0';
    const int folder = open(*file->name ? file->name : ".", O_RDONLY | O_DIRECTORY);
    if (folder >= 0)
        fsync(folder), close(folder);
    free(file->name), free(file);
}

/* -- The command --------------------------------------------------------------------------------------------------- */

static _Noreturn void misused(const char *what, const char *word) {
    fprintf(stderr, NAME ": %s%s%s\n\n%s", what, *word ? ": " : "", word, help);
    exit(TROUBLE);
}

enum fork { ALTAIR, BELLATRIX, CAPELLA, DENEB, ELECTRA, FULU };

/* What a close goes by besides the record's settings: a store, or a fork and what it adds; NULL where it was not said. */
typedef struct how {
    const char *store;
    enum fork fork;
    int told;
    const char *pair, *limit;
} how;

static enum fork fork_named(const char *word) {
    static const char *const names[] = {"altair", "bellatrix", "capella", "deneb", "electra", "fulu"};
    for (size_t i = 0; i < sizeof names / sizeof *names; i++)
        if (strcmp(word, names[i]) == 0)
            return (enum fork)i;
    misused("--fork wants altair, bellatrix, capella, deneb, electra or fulu, not", word);
}

/* A number below 2^64, and what stands behind it; NULL where there is none. */
static const char *number_in(const char *word, uint64_t *number) {
    const char *at = word;
    for (*number = 0; *at >= '0' && *at <= '9'; at++) {
        const uint64_t digit = (uint64_t)(*at - '0');
        if (*number > (UINT64_MAX - digit) / 10)
            return NULL;
        *number = 10 * *number + digit;
    }
    return at == word ? NULL : at;
}

/* Whether the settings are a preset's, with Altair's pair or with Bellatrix's in its place. */
static int is_preset(altair_settings settings, const altair_deneb_rules *preset) {
    const altair_settings *wanted = &preset->settings;
    const altair_bellatrix *pair = &preset->bellatrix;
    if (settings.inactivity_penalty_quotient_altair == pair->inactivity_penalty_quotient_bellatrix &&
        settings.proportional_slashing_multiplier_altair == pair->proportional_slashing_multiplier_bellatrix) {
        settings.inactivity_penalty_quotient_altair = wanted->inactivity_penalty_quotient_altair;
        settings.proportional_slashing_multiplier_altair = wanted->proportional_slashing_multiplier_altair;
    }
    return memcmp(&settings, wanted, sizeof settings) == 0;
}

/* The rules of a fork behind Altair: what was said, else the preset's that the settings are. */
static altair_deneb_rules later_rules(const char *path, altair_settings settings, const how *told) {
    static const altair_deneb_rules presets[] = {ALTAIR_MAINNET_DENEB, ALTAIR_MINIMAL_DENEB};
    altair_deneb_rules rules = {settings, {0, 0}, 0};
    int known = 0;
    for (size_t i = 0; i < sizeof presets / sizeof *presets; i++)
        if (is_preset(settings, &presets[i]))
            known = 1, rules = presets[i], rules.settings = settings;
    if (told->pair != NULL) {
        const char *rest = number_in(told->pair, &rules.bellatrix.inactivity_penalty_quotient_bellatrix);
        rest = rest != NULL && *rest == ',' ? number_in(rest + 1, &rules.bellatrix.proportional_slashing_multiplier_bellatrix) : NULL;
        if (rest == NULL || *rest != '\0')
            misused("--bellatrix wants two numbers with a comma between, not", told->pair);
    } else if (!known) {
        trouble("%s: its settings are neither mainnet's nor minimal's: --bellatrix must say the pair", path);
    }
    if (told->limit != NULL) {
        const char *rest = number_in(told->limit, &rules.max_per_epoch_activation_churn_limit);
        if (rest == NULL || *rest != '\0')
            misused("--activation-limit wants a number, not", told->limit);
    } else if (!known && told->fork == DENEB) {
        trouble("%s: its settings are neither mainnet's nor minimal's: --activation-limit must say the number", path);
    }
    return rules;
}

/* What a close has left: 0, or that of a refusal, which is told; and the closed record's file, where one is asked for. */
typedef struct outcome {
    uint64_t refusal;
    char where[160]; /* of a refusal, in words */
    altair_finality finality;
    uint64_t test;
    altair_settings settings; /* which the close went by */
    uint64_t *closing, *slashings, *amounts;
    size_t numbers, columns;
    uint8_t *file;
    size_t length;
} outcome;

static void write_record(const record *r, outcome *o, altair_queue queue, size_t behind) {
    const size_t length = ALTAIR_FILE_LENGTH(o->numbers / ALTAIR_VALIDATOR_LENGTH, r->roots_length / 32, r->slashings_length);
    o->length = length + behind;
    o->file = room(o->length, 1);
    o->refusal = altair_write_file(r->settings, o->finality, queue, o->closing, o->numbers, r->roots, r->roots_length, o->slashings,
                                   r->slashings_length, o->file, length);
    if (o->refusal != 0)
        strcpy(o->where, " (the closed record)");
}

/* A close up to Deneb, by a store or by the record's settings under a fork. */
static void close_up_to_deneb(const char *path, const record *r, const how *told, int wanted, outcome *o) {
    const size_t validators = r->numbers / ALTAIR_VALIDATOR_LENGTH;
    o->columns = ALTAIR_AMOUNTS_LENGTH, o->numbers = r->numbers;
    o->closing = room(r->numbers, sizeof *o->closing);
    o->amounts = room(o->columns * validators, sizeof *o->amounts);
    size_t store_length = ALTAIR_ENTRY_LENGTH;
    uint64_t *store = told->store != NULL ? read_store(told->store, &store_length) : room(store_length, sizeof *store);
    if (store == NULL)
        exit(refused(told->store, ALTAIR_BAD_SHAPE, " (a store file has 184 bytes an entry, and at most 65536 entries)"));
    altair_deneb_rules later = {r->settings, {0, 0}, 0};
    if (told->fork != ALTAIR)
        later = later_rules(path, r->settings, told);
    if (told->store == NULL) /* of one entry: the file's settings, under a fork, from epoch 0 on */
        altair_put_entry(store, 0, told->fork == ALTAIR ? altair_under_altair(r->settings) : altair_under_bellatrix(r->settings, later.bellatrix));
    const altair_full_answer closed =
        told->fork == DENEB
            ? deneb_close(later, r->finality, r->queue, r->registry, r->numbers, r->slashings, r->slashings_length, r->roots, r->roots_length,
                          o->closing, r->numbers, o->slashings, r->slashings_length, o->amounts, o->columns * validators)
            : altair_close(store, store_length, store_length / ALTAIR_ENTRY_LENGTH, r->finality, r->queue, r->registry, r->numbers,
                           r->slashings, r->slashings_length, r->roots, r->roots_length, o->closing, r->numbers, o->slashings,
                           r->slashings_length, o->amounts, o->columns * validators);
    o->refusal = closed.refusal, o->finality = closed.finality, o->test = closed.test;
    if (closed.refusal == 0) {
        /* the entries of a store, of which there is one, have the same slots_per_epoch */
        const uint64_t epoch = r->finality.slot / store[ALTAIR_ENTRY_SETTINGS];
        o->settings = altair_read_rules(store, store_length, store_length / ALTAIR_ENTRY_LENGTH, epoch).rules.settings;
        if (wanted)
            write_record(r, o, closed.queue, 0);
    }
    free(store);
}

/* Electra's part as it is read. */
typedef struct electra {
    altair_electra_rules rules;
    altair_exit_churn churn;
    altair_deposit_numbers numbers;
    size_t deposits, consolidations;
    uint64_t *compounding, *deposit, *consolidation;
} electra;

static uint64_t *numbers_at(const uint8_t **at, size_t count) {
    uint64_t *numbers = room(count, sizeof *numbers);
    for (size_t i = 0; i < count; i++, *at += 8)
        numbers[i] = number_at(*at);
    return numbers;
}

/* What is wrong with Electra's part, of which so many bytes are there, or NULL. */
static const char *part_fault(const record *r, size_t bytes) {
    const uint8_t *at = r->file + r->length;
    if (bytes == 0)
        return " (Electra's part is missing: nothing follows the record)";
    if (bytes < 8 * PART_HEAD || number_at(at) != PART_VERSION || number_at(at + 8) > ALTAIR_MOST_VALIDATORS ||
        number_at(at + 16) > ALTAIR_MOST_VALIDATORS ||
        bytes != PART_LENGTH(r->numbers / ALTAIR_VALIDATOR_LENGTH, number_at(at + 8), number_at(at + 16)))
        return " (Electra's part, behind the record)";
    return NULL;
}

/* Reads Electra's part, with which nothing is wrong. */
static void read_part(const record *r, electra *e) {
    const uint8_t *at = r->file + r->length;
    uint64_t *head = numbers_at(&at, PART_HEAD);
    e->deposits = head[1], e->consolidations = head[2];
    e->rules = (altair_electra_rules){r->settings, {head[3], head[4]}, {head[5], head[6], head[7], head[8], head[9]}};
    e->churn = (altair_exit_churn){head[10], head[11]};
    e->numbers = (altair_deposit_numbers){head[12], head[13], head[14]};
    e->compounding = numbers_at(&at, r->numbers / ALTAIR_VALIDATOR_LENGTH);
    e->deposit = numbers_at(&at, ALTAIR_DEPOSIT_LENGTH * e->deposits);
    e->consolidation = numbers_at(&at, ALTAIR_CONSOLIDATION_LENGTH * e->consolidations);
    free(head);
}

/* The keys of the deposits that are left, by the closed record's validators: those that deposits made are numbered in the order of their first
 * valid deposits, and behind all validators come the keys that none has. */
static void renumber(const electra *e, uint64_t opened, uint64_t validators, uint64_t *left, size_t count) {
    uint64_t *named = room(e->deposits, sizeof *named), next = opened; /* by a key less those of the opening's; 0 where it has none */
    for (size_t i = 0; i < e->deposits && next < validators; i++) {
        const uint64_t *d = e->deposit + ALTAIR_DEPOSIT_LENGTH * i;
        if (d[ALTAIR_DEPOSIT_PUBKEY] >= opened && d[ALTAIR_DEPOSIT_VALID] == 1 && named[d[ALTAIR_DEPOSIT_PUBKEY] - opened] == 0)
            named[d[ALTAIR_DEPOSIT_PUBKEY] - opened] = ++next;
    }
    for (size_t i = 0; i < count; i++) {
        uint64_t *key = left + ALTAIR_DEPOSIT_LENGTH * i + ALTAIR_DEPOSIT_PUBKEY;
        if (*key < opened)
            continue;
        if (named[*key - opened] == 0)
            named[*key - opened] = ++next;
        *key = named[*key - opened] - 1;
    }
    free(named);
}

static uint8_t *put_numbers(uint8_t *at, const uint64_t *numbers, size_t count) {
    for (size_t i = 0; i < count; i++)
        for (int k = 0; k < 64; k += 8)
            *at++ = (uint8_t)(numbers[i] >> k);
    return at;
}

/* A close of Electra or Fulu; r's registry has zeros behind it, for as many as deposits can add. */
static void close_electra(const record *r, const electra *e, int wanted, outcome *o) {
    const size_t opened = r->numbers / ALTAIR_VALIDATOR_LENGTH, most = opened + e->deposits, deposits = ALTAIR_DEPOSIT_LENGTH * e->deposits,
                 pairs = ALTAIR_CONSOLIDATION_LENGTH * e->consolidations;
    o->columns = ALTAIR_ELECTRA_AMOUNTS_LENGTH, o->settings = r->settings;
    o->closing = room(ALTAIR_VALIDATOR_LENGTH * most, sizeof *o->closing);
    o->amounts = room(o->columns * most, sizeof *o->amounts);
    uint64_t *compounding = room(most, sizeof *compounding), *left = room(deposits, sizeof *left), *rest = room(pairs, sizeof *rest),
             *places = room(e->deposits, sizeof *places);
#define CALL(name)                                                                                                                             \
    name(e->rules, r->finality, e->churn, e->numbers, r->registry, r->numbers, e->compounding, opened, r->slashings, r->slashings_length,      \
         r->roots, r->roots_length, e->deposit, deposits, e->consolidation, pairs, o->closing, ALTAIR_VALIDATOR_LENGTH * most, compounding,    \
         most, o->slashings, r->slashings_length, left, deposits, rest, pairs, o->amounts, o->columns * most, places, e->deposits)
    const altair_electra_answer closed = CALL(electra_close);
    o->refusal = closed.refusal, o->finality = closed.finality, o->test = closed.test;
    o->numbers = ALTAIR_VALIDATOR_LENGTH * closed.validators;
    const altair_fault fault = closed.refusal == ALTAIR_BAD_SHAPE ? CALL(altair_why_electra_close) : (altair_fault){NULL, NULL, 0};
#undef CALL
    if (fault.argument != NULL)
        snprintf(o->where, sizeof o->where, " (%s: %s, " U64 ")", fault.argument, fault.wanted, fault.number);
    if (closed.refusal == 0 && wanted) {
        const size_t part = PART_LENGTH(closed.validators, closed.deposits, closed.consolidations);
        write_record(r, o, altair_exit_queue(o->closing, o->numbers).queue, part);
        renumber(e, opened, closed.validators, left, closed.deposits);
        const uint64_t head[] = {PART_VERSION, closed.deposits, closed.consolidations}, later[] = {
            closed.churn.exit_balance_to_consume, closed.churn.earliest_exit_epoch, closed.deposit_balance_to_consume,
            e->numbers.eth1_deposit_index, e->numbers.deposit_requests_start_index};
        uint8_t *at = put_numbers(o->file + o->length - part, head, 3);
        memcpy(at, r->file + r->length + 24, 56); /* the seven settings stay */
        at = put_numbers(put_numbers(at + 56, later, 5), compounding, closed.validators);
        at = put_numbers(at, left, ALTAIR_DEPOSIT_LENGTH * closed.deposits);
        put_numbers(at, rest, ALTAIR_CONSOLIDATION_LENGTH * closed.consolidations);
    }
    free(compounding), free(left), free(rest), free(places);
}

static int close_record(const char *path, const how *told, const form *as, int booked, const char *target) {
    record r;
    electra e = {.deposits = 0};
    size_t held;
    const int by_electra = told->fork >= ELECTRA;
    r.file = read_all(path, by_electra, &held);
    r.length = by_electra && held >= 80 && number_at(r.file + 8) >= 80 ? least(held, number_at(r.file + 8)) : held;
    const altair_header header = altair_read_header(r.file, r.length);
    if (header.refusal != 0)
        return refused(path, header.refusal, place(header.refusal, r.length < 80 ? 0 : 80, 1));

    /* the header's counts are below the file's length */
    r.numbers = ALTAIR_VALIDATOR_LENGTH * header.validators;
    r.slashings_length = header.slashings;
    r.roots = r.file + ALTAIR_ROOTS_AT(r.file[0], header.validators);
    r.roots_length = 32 * header.roots;
    r.slashings = room(r.slashings_length, sizeof *r.slashings);
    const char *wrong = by_electra ? part_fault(&r, held - r.length) : NULL;
    const size_t added = by_electra && wrong == NULL ? number_at(r.file + r.length + 8) : 0; /* at most */
    r.registry = room(r.numbers + ALTAIR_VALIDATOR_LENGTH * added, sizeof *r.registry);
    const altair_read_answer read =
        altair_read_file(r.file, r.length, r.registry, r.numbers, r.slashings, r.slashings_length);
    if (read.refusal != 0)
        return refused(path, read.refusal, place(read.refusal, read.position, r.file[0]));
    r.settings = read.settings;
    r.finality = read.finality;
    r.queue = read.queue;
    if (wrong != NULL)
        return refused(path, ALTAIR_BAD_FILE, wrong);
    if (by_electra)
        read_part(&r, &e);

    outcome o = {.where = "", .slashings = room(r.slashings_length, sizeof *o.slashings)};
    if (by_electra)
        close_electra(&r, &e, target != NULL, &o);
    else
        close_up_to_deneb(path, &r, told, target != NULL, &o);
    if (o.refusal != 0)
        return refused(path, o.refusal, o.where);
    const shown all = {altair_listing_head(o.settings, r.finality.slot, o.finality, r.registry, r.numbers), o.test, booked ? o.amounts : NULL,
                       o.columns};
    if (all.head.refusal != 0)
        return refused(path, all.head.refusal, " (the closed record)");
    const registries both = {r.registry, o.closing, o.numbers};
    uint64_t index;
    const uint64_t number = unprintable(&both, &index);
    if (number != 0) {
        char words[48];
        snprintf(words, sizeof words, " (validators[" U64 "])", index);
        return refused(path, number, words);
    }

    FILE *out = NULL;
    if (target != NULL) {
        struct stat found;
        out = device(target, &found);
        if (out == NULL)
            write_beside(target, &found, o.file, o.length);
    }
    print(as, &all, &both);
    if (made != NULL)
        move_into_place();
    if (out != NULL) {
        fwrite(o.file, 1, o.length, out);
        finish(out, target);
    }
    free(o.file), free(r.file), free(r.registry), free(r.slashings), free(o.closing), free(o.slashings), free(o.amounts);
    free(e.compounding), free(e.deposit), free(e.consolidation);
    return CLOSED;
}

/* A standard stream that was closed stays so: no file that is opened later gets its number, or is printed into. */
static void hold_closed_streams(void) {
    for (int i = 0; i < 3; i++)
        if (fcntl(i, F_GETFD) < 0)
            open("/dev/null", i == 0 ? O_WRONLY : O_RDONLY); /* the lowest number that is free, which is this one */
}

int main(int count, char **words) {
    const char *path = NULL, *target = NULL;
    how told = {NULL, ALTAIR, 0, NULL, NULL};
    const form *as = &listing;
    int ended = 0, booked = 0;
    /* a closed pipe and a file beyond its limit are then errors of writing, and exit 2 */
    signal(SIGPIPE, SIG_IGN);
    signal(SIGXFSZ, SIG_IGN);
    hold_closed_streams();
    catch_signals();
    for (int i = 1; i < count; i++) {
        const char *word = words[i];
        if (ended || word[0] != '-' || strcmp(word, "-") == 0) {
            if (path != NULL)
                misused("one record file is wanted, and not also", word);
            path = word;
        } else if (strcmp(word, "--") == 0) {
            ended = 1;
        } else if (strcmp(word, "--json") == 0 || strcmp(word, "--csv") == 0) {
            const form *wanted = strcmp(word, "--json") == 0 ? &json : &csv;
            if (as != &listing && as != wanted)
                misused("--json or --csv, not both", "");
            as = wanted;
        } else if (strcmp(word, "--amounts") == 0) {
            booked = 1;
        } else if (strcmp(word, "--store") == 0) {
            if (++i == count)
                misused("--store wants a file", "");
            told.store = words[i];
        } else if (strcmp(word, "--fork") == 0) {
            if (++i == count)
                misused("--fork wants a name", "");
            told.fork = fork_named(words[i]), told.told = 1;
        } else if (strcmp(word, "--bellatrix") == 0) {
            if (++i == count)
                misused("--bellatrix wants two numbers", "");
            told.pair = words[i];
        } else if (strcmp(word, "--activation-limit") == 0) {
            if (++i == count)
                misused("--activation-limit wants a number", "");
            told.limit = words[i];
        } else if (strcmp(word, "--out") == 0) {
            if (++i == count)
                misused("--out wants a file", "");
            target = words[i];
        } else if (strcmp(word, "--help") == 0) {
            fputs(help, stdout);
            finish(stdout, "standard output");
            return 0;
        } else if (strcmp(word, "--version") == 0) {
            printf(NAME " " VERSION ", interface " U64 "\n", altair_version());
            finish(stdout, "standard output");
            return 0;
        } else {
            misused("no such option", word);
        }
    }
    if (path == NULL)
        misused("a record file is wanted", "");
    if (told.store != NULL && told.told)
        misused("--fork or --store, not both", "");
    if (told.pair != NULL && (told.fork == ALTAIR || told.fork >= ELECTRA))
        misused("--bellatrix goes with --fork bellatrix, capella or deneb", "");
    if (told.limit != NULL && told.fork != DENEB)
        misused("--activation-limit goes with --fork deneb", "");
    return close_record(path, &told, as, booked, target);
}
