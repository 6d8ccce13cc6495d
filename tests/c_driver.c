/* Runs a script over a policy as `brokerd run` does, by the library's calls alone: driver POLICY NEXT.. AUDIT, the further policies
   in between. It knows the lines that are one of these calls, and `submit` and `serve`, whose ring it keeps itself; any other is a bad
   request, with which it ends as `run` does, and so are the faults of policies. What it can't answer for want of a whole ring, or what
   shouldn't come, ends it with status 64. Where JOURNAL names a file, it writes the journal there. */
#include <inttypes.h>
#include <stdio.h>
#include <stdlib.h>
#include <string.h>

#include "hobbydresser.h"

enum { WORDS = 64, LONGEST = 16384 };

static hd_broker broker = HD_BROKER;

/* The further policies, and the journal. */
static char **further;
static int further_count;
static FILE *journal;
static hd_chain chain;
static unsigned long line_number;

/* The ring of each queue that is open, by its number: what was published and not yet retired. */
typedef struct ring {
    uint64_t size, producers, write, read;
    uint8_t *packets;
} ring;
static ring *rings;
static uint64_t ring_count;

static const char *const refusals[] = {
    "OutOfMemory", "UnknownClient", "UnknownQueue", "Denied", "Busy", "NotAllowed", "OutOfStep", "QueueDown", "NotInFlight",
    "NotFinished", "AuditFull", "BadSize", "TooMany", "UnknownObject", "", "", "OtherObjects",
};
static const char *const rules[] = {
    "", "L1", "L2", "L3", "L4", "L5", "L6", "L7", "L8", "L9", "L10", "A1", "A2", "A3", "A4", "A5", "A6", "A7", "B1",
};
static const char *const rights[] = { "USE", "READ", "WRITE", "WAIT", "CHANGE", "LAUNCH" };
static const char *const kinds[] = { "agent", "region", "signal", "kernel" };
static const char *const conditions[] = { "EQ", "NE", "LT", "GTE" };
static const char *const changes[] = { "store", "add", "subtract", "and", "or", "xor", "exchange", "cas" };

static void stop(const char *why)
{
    fflush(stdout);
    fprintf(stderr, "%s\n", why);
    exit(64);
}

/* A line of no form ends the run. */
static void bad_request(void)
{
    fflush(stdout);
    fprintf(stderr, "line %lu: bad request\n", line_number);
    exit(1);
}

static void *memory(size_t size)
{
    void *at = malloc(size ? size : 1);
    if (!at) stop("no memory");
    return at;
}

static uint8_t *file(const char *path, size_t *length)
{
    FILE *in = fopen(path, "rb");
    if (!in) stop(path);
    fseek(in, 0, SEEK_END);
    *length = (size_t)ftell(in);
    rewind(in);
    uint8_t *bytes = memory(*length);
    if (fread(bytes, 1, *length, in) != *length) stop(path);
    fclose(in);
    return bytes;
}

/* Which of some words a word is. */
static uint32_t place(const char *const *words, uint32_t count, const char *word)
{
    for (uint32_t i = 0; i < count; i++)
        if (strcmp(words[i], word) == 0) return i;
    bad_request();
    return 0;
}

/* A number of digits alone, below 2^64. */
static uint64_t decimal(const char *word)
{
    uint64_t value = 0;
    if (!*word) bad_request();
    for (; *word; word++) {
        if (*word < '0' || *word > '9' || value > UINT64_MAX / 10 || value * 10 > UINT64_MAX - (uint64_t)(*word - '0')) bad_request();
        value = value * 10 + (uint64_t)(*word - '0');
    }
    return value;
}

/* A number of 64 bits with a sign. */
static int64_t signed_decimal(const char *word)
{
    int is_less = *word == '-';
    uint64_t value = decimal(word + is_less);
    if (value > (uint64_t)INT64_MAX + (uint64_t)is_less) bad_request();
    return is_less ? (int64_t)(0 - value) : (int64_t)value;
}

static void must_be_digits(const char *word)
{
    if (strspn(word, "0123456789abcdefABCDEF") != strlen(word)) bad_request();
}

static uint64_t address_in(const char *word)
{
    must_be_digits(word);
    if (strlen(word) != 16) bad_request();
    return strtoull(word, NULL, 16);
}

static uint32_t number(uint32_t kind, const char *name)
{
    uint64_t found;
    if (hd_number(&broker, kind, name, strlen(name), &found) != HD_OK) stop("hd_number");
    return (uint32_t)found;
}

static uint32_t rights_in(char *word)
{
    uint32_t bits = 0;
    if (strcmp(word, "-") == 0) return 0;
    for (char *comma; (comma = strchr(word, ',')); word = comma + 1) {
        *comma = 0;
        bits |= 1u << place(rights, 6, word);
    }
    return bits | 1u << place(rights, 6, word);
}

/* The bytes of a word in hexadecimal. */
static uint8_t *bytes_in(const char *word, size_t *length)
{
    must_be_digits(word);
    if (strlen(word) % 2) bad_request();
    *length = strlen(word) / 2;
    uint8_t *bytes = memory(*length);
    for (size_t i = 0; i < *length; i++) {
        char digits[3] = { word[2 * i], word[2 * i + 1], 0 };
        bytes[i] = (uint8_t)strtoul(digits, NULL, 16);
    }
    return bytes;
}

/* The right that the call before lacked, which asked for this one. */
static void tell_lacking(const char *right)
{
    hd_held lacking;
    if (hd_lacking(&broker, &lacking) != HD_OK) stop("hd_lacking");
    for (int i = 0; i < 6; i++)
        if (lacking.rights == 1u << i && strcmp(rights[i], right) == 0) printf(" %s", rights[i]);
}

/* A refusal, and the right that its call lacks. */
static void refuse(hd_status status, const char *right)
{
    hd_held none;
    if (status < 1 || status > 17 || !refusals[status - 1][0]) {
        char why[64];
        snprintf(why, sizeof why, "status %" PRIu32, status);
        stop(why);
    }
    printf("refused %" PRIu32 " %s", status - 1, refusals[status - 1]);
    if (status == HD_DENIED) tell_lacking(right);
    else if (hd_lacking(&broker, &none) != HD_NO_SUCH) stop("hd_lacking");
}

static void answer(hd_status status, const char *right)
{
    if (status == HD_OK) printf("ok");
    else refuse(status, right);
    printf("\n");
}

static void tell_error(const hd_error *error)
{
    printf("queue %" PRIu64 " packet %" PRIu64 " rule %s", error->queue, error->packet, rules[error->rule]);
    if (error->has_place) printf(" group %" PRIu32 " item %" PRIu32 " line %" PRIu32, error->group, error->item, error->line);
}

/* A call that was made or refused, and the packet that stands against it. */
static void answer_holder(hd_status status, uint64_t queue, uint64_t packet)
{
    if (status != HD_BUSY) {
        answer(status, "");
        return;
    }
    refuse(status, "");
    printf(" queue %" PRIu64 " packet %" PRIu64 "\n", queue, packet);
}

static void change_rights(int is_grant, char **words)
{
    uint32_t kind = place(kinds, 4, words[2]);
    uint32_t client = number(HD_CLIENT, words[1]), object = number(kind, words[3]), bits = rights_in(words[4]);
    uint64_t queue = 0, packet = 0;
    if (is_grant) {
        answer(hd_grant(&broker, client, kind, object, bits), "");
        return;
    }
    hd_status status = hd_revoke(&broker, client, kind, object, bits, &queue, &packet);
    answer_holder(status, queue, packet);
}

static void reload(char **words)
{
    uint64_t queue = 0, packet = 0, next = decimal(words[1]);
    hd_fault fault;
    size_t length;
    if (next < 1 || next > (uint64_t)further_count) bad_request();
    uint8_t *policy = file(further[next - 1], &length);
    hd_status status = hd_reload(&broker, policy, length, &fault, &queue, &packet);
    free(policy);
    answer_holder(status, queue, packet);
}

static void tell_rights(uint32_t bits)
{
    const char *comma = "";
    for (int i = 0; i < 6; i++) {
        if (!(bits >> i & 1)) continue;
        printf("%s%s", comma, rights[i]);
        comma = ",";
    }
}

static void list(char **words)
{
    uint32_t client = number(HD_CLIENT, words[1]), bits;
    uint64_t count, needed;
    hd_held none[1], *held = none;
    hd_status status = hd_list(&broker, client, held, 0, &count);
    if (status == HD_TOO_SHORT) {
        held = memory(count * sizeof *held);
        status = hd_list(&broker, client, held, count, &count);
    }
    if (status != HD_OK) {
        answer(status, "");
        return;
    }
    printf("list %" PRIu64 "\n", count);
    for (uint64_t i = 0; i < count; i++) {
        char name[256];
        if (hd_name(&broker, held[i].kind, (uint32_t)held[i].number, name, sizeof name, &needed) != HD_OK) stop("hd_name");
        if (hd_rights(&broker, client, held[i].kind, (uint32_t)held[i].number, &bits) != HD_OK || bits != held[i].rights) stop("hd_rights");
        printf("%s %" PRIu64 " %.*s ", kinds[held[i].kind], held[i].number, (int)needed, name);
        tell_rights(bits);
        printf("\n");
    }
    if (held != none) free(held);
}

static void errors(char **words)
{
    uint64_t queue = decimal(words[1]), count;
    hd_error none[1], *told = none;
    hd_status status = hd_errors(&broker, queue, told, 0, &count);
    if (status == HD_TOO_SHORT) {
        told = memory(count * sizeof *told);
        status = hd_errors(&broker, queue, told, count, &count);
    }
    if (status != HD_OK) {
        answer(status, "");
        return;
    }
    printf("errors %" PRIu64 "\n", count);
    for (uint64_t i = 0; i < count; i++) {
        tell_error(&told[i]);
        printf("\n");
    }
    if (told != none) free(told);
}

/* Room for a line of so many bytes. */
static char *line_room(uint64_t needed, size_t *length)
{
    static char *room;
    static size_t has;
    if (!room || has < needed) {
        free(room);
        room = memory(has = needed + 256);
    }
    *length = has;
    return room;
}

/* The audit's entries, as an `audit` or a `rotate` tells them. */
static void tell_entries(const char *word)
{
    uint64_t before, count, needed = 0;
    size_t length;
    if (hd_audit_count(&broker, &before, &count) != HD_OK) stop("hd_audit_count");
    printf("%s %" PRIu64 "\n", word, count);
    for (uint64_t number = before + 1; number <= before + count; number++) {
        char *line = line_room(0, &length);
        hd_status status = hd_audit_line(&broker, number, line, length, &needed);
        if (status == HD_TOO_SHORT) {
            line = line_room(needed, &length);
            status = hd_audit_line(&broker, number, line, length, &needed);
        }
        if (status != HD_OK) stop("hd_audit_line");
        fwrite(line, 1, needed, stdout);
    }
}

/* Writes what the journal has not yet. */
static void go_on(void)
{
    uint64_t needed;
    size_t length;
    hd_status status = HD_OK;
    while (journal && status == HD_OK) {
        char *line = line_room(0, &length);
        status = hd_journal_line(&broker, line, length, &needed, &chain);
        if (status == HD_TOO_SHORT) {
            line = line_room(needed, &length);
            status = hd_journal_line(&broker, line, length, &needed, &chain);
        }
        if (status != HD_OK && status != HD_NO_SUCH) stop("hd_journal_line");
        if (status == HD_OK) fwrite(line, 1, needed, journal);
    }
}

static void rotate(void)
{
    go_on();
    tell_entries("rotated");
    if (hd_rotate(&broker) != HD_OK) stop("hd_rotate");
}

/* The journal's first line, over all policies. */
static void begin_journal(void)
{
    hd_digest none[1], *digests = further_count ? memory((size_t)further_count * sizeof *digests) : none;
    char *line;
    uint64_t needed;
    size_t length;
    for (int i = 0; i < further_count; i++) {
        uint8_t *policy = file(further[i], &length);
        if (hd_digest_of(policy, length, &digests[i]) != HD_OK) stop("hd_digest_of");
        free(policy);
    }
    line = line_room(0, &length);
    hd_status status = hd_journal_head(&broker, digests, (size_t)further_count, line, length, &needed, &chain);
    if (status == HD_TOO_SHORT) {
        line = line_room(needed, &length);
        status = hd_journal_head(&broker, digests, (size_t)further_count, line, length, &needed, &chain);
    }
    if (status != HD_OK) stop("hd_journal_head");
    fwrite(line, 1, needed, journal);
    if (digests != none) free(digests);
}

static void end_journal(void)
{
    char line[256];
    uint64_t needed;
    if (hd_journal_end(&chain, line, sizeof line, &needed) != HD_OK) stop("hd_journal_end");
    fwrite(line, 1, needed, journal);
    fclose(journal);
}

static void open_queue(char **words)
{
    uint64_t queue, size = decimal(words[3]), producers = decimal(words[4]);
    /* (a number of producers that a ring can't have is refused as a wrong size is) */
    if (producers == 0 || producers > 16) size = 0;
    hd_status status = hd_open_queue(&broker, number(HD_CLIENT, words[1]), number(HD_AGENT, words[2]), size, &queue);
    if (status != HD_OK) {
        answer(status, "USE");
        return;
    }
    if (queue != ring_count + 1) stop("another number");
    rings = realloc(rings, ++ring_count * sizeof *rings);
    if (!rings) stop("no memory");
    rings[queue - 1] = (ring){ .size = size, .producers = producers, .packets = memory(size * 64) };
    printf("queue %" PRIu64 "\n", queue);
}

/* The ring of a queue, if it is open. */
static ring *ring_of(uint64_t queue)
{
    return queue && queue <= ring_count && rings[queue - 1].packets ? &rings[queue - 1] : NULL;
}

static void close_queue(char **words)
{
    uint64_t queue = decimal(words[1]);
    hd_status status = hd_close_queue(&broker, queue);
    ring *of = ring_of(queue);
    if (status == HD_OK) {
        if (!of) stop("a queue that isn't open");
        free(of->packets);
        of->packets = NULL;
    }
    answer(status, "");
}

/* The answer to a packet of a queue that isn't open. */
static void answer_unknown(uint64_t queue)
{
    static const uint8_t none[64];
    hd_taken taken;
    uint64_t next;
    answer(hd_take(&broker, queue, 0, none, &taken, &next), "");
}

static void submit(char **words)
{
    size_t length;
    uint64_t queue = decimal(words[1]), producer = decimal(words[2]);
    uint8_t *bytes = bytes_in(words[3], &length);
    ring *of = ring_of(queue);
    if (length != 64) bad_request();
    if (of) {
        if (producer == 0 || producer > of->producers) stop("a ring's refusal");
        if (of->write - of->read >= of->size) stop("a full ring");
        if (bytes[0] == 1) stop("a packet of type INVALID");
        memcpy(of->packets + of->write % of->size * 64, bytes, 64);
        printf("published %" PRIu64 "\n", of->write++);
    } else {
        answer_unknown(queue);
    }
    free(bytes);
}

static void serve(char **words)
{
    static const char *const causes[] = { "Barrier", "Active", "Slots" };
    uint64_t queue = decimal(words[1]), next;
    hd_taken taken;
    ring *of = ring_of(queue);
    if (!of) {
        answer_unknown(queue);
        return;
    }
    uint64_t id = of->read;
    if (id == of->write) {
        printf("empty\n");
        return;
    }
    hd_status status = hd_take(&broker, queue, id, of->packets + id % of->size * 64, &taken, &next);
    if (status != HD_OK) {
        answer(status, "");
        return;
    }
    if (taken.became >= HD_AWAITS_BARRIER) {
        printf("waiting %" PRIu64 " %s\n", id, causes[taken.became - HD_AWAITS_BARRIER]);
        return;
    }
    of->read++;
    if (taken.became == HD_LAUNCHED) {
        printf("launched %" PRIu64 "\n", id);
        return;
    }
    printf("denied ");
    tell_error(&taken.error);
    printf("\n");
}

static void run(char **words)
{
    hd_worked worked;
    hd_status status = hd_run(&broker, decimal(words[1]), decimal(words[2]), &worked);
    if (status != HD_OK) {
        answer(status, "");
    } else if (worked.became == HD_RAN) {
        printf("ran %" PRIu32 " left %" PRIu32 "\n", worked.group, worked.left);
    } else if (worked.became == HD_DONE) {
        printf("done\n");
    } else {
        printf("faulted ");
        tell_error(&worked.error);
        printf("\n");
    }
}

static void poll_packet(char **words)
{
    hd_polled polled;
    hd_status status = hd_poll(&broker, decimal(words[1]), decimal(words[2]), &polled);
    if (status != HD_OK) {
        answer(status, "");
    } else if (polled.became == HD_FAILED) {
        printf("failed ");
        tell_error(&polled.error);
        printf("\n");
    } else {
        printf(polled.became == HD_READY ? "ready\n" : "pending\n");
    }
}

static void write_memory(char **words)
{
    size_t length;
    uint8_t *bytes = bytes_in(words[3], &length);
    answer(hd_write(&broker, number(HD_CLIENT, words[1]), address_in(words[2]), bytes, length), "WRITE");
    free(bytes);
}

static void read_memory(char **words)
{
    uint64_t asked = decimal(words[3]);
    /* (a range that no call may read needs no buffer of its size) */
    size_t length = asked > 65537 ? 65537 : (size_t)asked;
    uint8_t *bytes = memory(length);
    hd_status status = hd_read(&broker, number(HD_CLIENT, words[1]), address_in(words[2]), bytes, length);
    if (status != HD_OK) {
        answer(status, "READ");
    } else {
        printf("bytes ");
        for (size_t i = 0; i < length; i++) printf("%02x", bytes[i]);
        printf("\n");
    }
    free(bytes);
}

static void change_signal(char **words, int count)
{
    uint32_t change = place(changes, 8, words[3]);
    int is_cas = change == HD_CAS;
    if (count != (is_cas ? 6 : 5)) bad_request();
    int64_t old, value = signed_decimal(words[is_cas ? 5 : 4]), expected = is_cas ? signed_decimal(words[4]) : 0;
    hd_status status = hd_signal(&broker, number(HD_CLIENT, words[1]), number(HD_SIGNAL, words[2]), change, value, expected, &old);
    if (status != HD_OK || change < HD_EXCHANGE) answer(status, "CHANGE");
    else printf("old %" PRId64 "\n", old);
}

static void load(char **words)
{
    int64_t value;
    hd_status status = hd_load(&broker, number(HD_CLIENT, words[1]), number(HD_SIGNAL, words[2]), &value);
    if (status != HD_OK) answer(status, "WAIT");
    else printf("value %" PRId64 "\n", value);
}

static void test(char **words)
{
    uint32_t held;
    hd_status status = hd_test(&broker, number(HD_CLIENT, words[1]), number(HD_SIGNAL, words[2]), place(conditions, 4, words[3]),
                               signed_decimal(words[4]), &held);
    if (status != HD_OK) answer(status, "WAIT");
    else printf(held ? "true\n" : "false\n");
}

/* How many entries there are, with those that came before the audit's. */
static uint64_t entries(void)
{
    uint64_t before, count;
    if (hd_audit_count(&broker, &before, &count) != HD_OK) stop("hd_audit_count");
    return before + count;
}

/* Whether a change of all is the one that is told by itself, bytes and all. */
static int is_one(size_t index, const hd_effect *effect, const uint8_t *bytes)
{
    hd_effect one;
    uint64_t needed;
    if (hd_effect_at(&broker, index, &one) != HD_OK || one.kind != effect->kind || memcmp(&one.address, &effect->address, sizeof one - offsetof(hd_effect, address)) != 0) return 0;
    if (one.kind != HD_WROTE) return one.length == 0;
    uint8_t *alone = memory(one.length);
    int is_same = hd_effect_bytes(&broker, index, alone, one.length, &needed) == HD_OK && needed == one.length && memcmp(alone, bytes, needed) == 0;
    free(alone);
    return is_same;
}

/* Holds what the last call of a line left against the changes one by one: all of its entry's, or none where it left no entry. */
static void hold_effects(uint64_t entries_before)
{
    static uint8_t none[1];
    uint64_t needed, number, again, same, count = 0, index = 0;
    hd_status status = hd_effects(&broker, none, 0, &needed, &number);
    if (status != (needed ? HD_TOO_SHORT : HD_OK)) stop("hd_effects");
    uint8_t *buffer = memory(needed);
    if (hd_effects(&broker, buffer, needed, &again, &same) != HD_OK || again != needed || same != number) stop("hd_effects");
    if (number && hd_effect_count(&broker, &count) != HD_OK) stop("hd_effect_count");
    for (uint64_t place = 0; place < needed; index++) {
        hd_effect effect;
        const uint8_t *bytes;
        place = hd_effect_in(buffer, place, &effect, &bytes);
        if (!is_one(index, &effect, bytes)) stop("an effect");
    }
    free(buffer);
    if (index != count || number != (entries() > entries_before ? entries() : 0)) stop("the effects");
}

/* Makes the call that a line is. */
static void ask(char **words, int count)
{
    const char *verb = words[0];
    if (strcmp(verb, "grant") == 0 && count == 5) change_rights(1, words);
    else if (strcmp(verb, "revoke") == 0 && count == 5) change_rights(0, words);
    else if (strcmp(verb, "queue") == 0 && count == 5) open_queue(words);
    else if (strcmp(verb, "stop") == 0 && count == 2) answer(hd_stop(&broker, decimal(words[1])), "");
    else if (strcmp(verb, "close") == 0 && count == 2) close_queue(words);
    else if (strcmp(verb, "submit") == 0 && count == 4) submit(words);
    else if (strcmp(verb, "serve") == 0 && count == 2) serve(words);
    else if (strcmp(verb, "run") == 0 && count == 3) run(words);
    else if (strcmp(verb, "poll") == 0 && count == 3) poll_packet(words);
    else if (strcmp(verb, "finish") == 0 && count == 3)
        answer(hd_finish(&broker, decimal(words[1]), decimal(words[2])), "");
    else if (strcmp(verb, "write") == 0 && count == 4) write_memory(words);
    else if (strcmp(verb, "read") == 0 && count == 4) read_memory(words);
    else if (strcmp(verb, "signal") == 0 && count >= 5) change_signal(words, count);
    else if (strcmp(verb, "load") == 0 && count == 3) load(words);
    else if (strcmp(verb, "test") == 0 && count == 5) test(words);
    else if (strcmp(verb, "list") == 0 && count == 2) list(words);
    else if (strcmp(verb, "errors") == 0 && count == 2) errors(words);
    else if (strcmp(verb, "audit") == 0 && count == 1) tell_entries("audit");
    else if (strcmp(verb, "rotate") == 0 && count == 1) rotate();
    else if (strcmp(verb, "reload") == 0 && count == 2) reload(words);
    else bad_request();
}

/* Tells what is wrong with a policy or with what it is opened with, as `run` does, and ends. */
static void tell_fault(hd_status status, const hd_fault *fault)
{
    static const char *const causes[] = { "NotToml", "MissingKey", "BadValue", "UnknownName", "DoubleName", "TooMany" };
    static const char *const sections[] = { "", "client", "agent", "region", "signal", "kernel", "allow", "deny" };
    if (status >= HD_NOT_TOML && status <= HD_TOO_LONG) {
        fprintf(stderr, "policy: %" PRIu32 " %s", status - 100, causes[status - HD_NOT_TOML]);
        if (fault->section) fprintf(stderr, " %s %" PRIu32, sections[fault->section], fault->row);
    } else if (status >= HD_READ_LEXEME && status <= HD_READ_TOO_LONG) {
        fprintf(stderr, "kernel %" PRIu64 ": read %" PRIu32 " line %" PRIu32 " column %" PRIu32, fault->kernel, status - 200, fault->line, fault->column);
    } else if (status >= HD_CHECK_LABEL && status <= HD_CHECK_ADDRESS) {
        fprintf(stderr, "kernel %" PRIu64 ": check %" PRIu32 " line %" PRIu32, fault->kernel, status - 300, fault->line);
    } else if (status == HD_NO_ENTRY) {
        fprintf(stderr, "kernel %" PRIu64 ": no entry", fault->kernel);
    } else if (status == HD_BAD_PLACES) {
        fprintf(stderr, "audit: 1 to 1048576 entries");
    } else {
        stop("hd_open");
    }
    fprintf(stderr, "\n");
    exit(1);
}

/* The further policies are read before the first line: the first fault of one ends the run. Their kernels aren't. */
static void read_further(void)
{
    for (int i = 0; i < further_count; i++) {
        hd_broker other = HD_BROKER;
        hd_fault fault = { 0 };
        size_t length;
        uint8_t *policy = file(further[i], &length);
        hd_status status = hd_open(&other, policy, length, 1, &fault);
        free(policy);
        if (status >= HD_NOT_TOML && status <= HD_TOO_LONG) tell_fault(status, &fault);
        if (status == HD_OK && hd_close(&other) != HD_OK) stop("hd_close");
    }
}

int main(int count, char **arguments)
{
    static char line[1 << 20];
    hd_fault fault = { 0 };
    size_t length;
    if (count < 3) stop("driver POLICY NEXT.. AUDIT");
    further = arguments + 2;
    further_count = count - 3;
    uint8_t *policy = file(arguments[1], &length);
    hd_status status = hd_open(&broker, policy, length, decimal(arguments[count - 1]), &fault);
    free(policy);
    if (status != HD_OK) tell_fault(status, &fault);
    read_further();
    if (getenv("JOURNAL")) {
        journal = fopen(getenv("JOURNAL"), "wb");
        if (!journal) stop("the journal");
        begin_journal();
    }
    while (fgets(line, sizeof line, stdin)) {
        char *words[WORDS];
        int found = 0;
        line_number++;
        if (strcspn(line, "\n") > LONGEST) bad_request();
        if (line[0] == '#') continue;
        for (char *word = strtok(line, " \t\r\n"); word && found < WORDS; word = strtok(NULL, " \t\r\n")) words[found++] = word;
        uint64_t entries_before = entries();
        if (found) ask(words, found);
        if (found) hold_effects(entries_before);
        go_on();
    }
    if (journal) end_journal();
    free(line_room(0, &length));
    for (uint64_t i = 0; i < ring_count; i++) free(rings[i].packets);
    free(rings);
    return hd_close(&broker) == HD_OK && hd_close(&broker) == HD_CLOSED ? 0 : 65;
}
