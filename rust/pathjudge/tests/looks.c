/* How often the compiled library loads lent bytes, held to docs/BOUNDS.md. Usage: looks ROOT ISSUER SERVER, the certificates of tests/chain. Prints a line
 * for each fact, and then `ok`; or what does not hold.
 *
 * What is lent, but for the table and the lists, lies in pages that are closed while a function of the library runs. A load from them is a fault: it is
 * counted, the pages are opened for that one instruction, and closed again by the trap behind it. Any other fault or trap ends the program. */
#define _GNU_SOURCE
#include "common/given.h"

#include <signal.h>
#include <string.h>
#include <sys/mman.h>
#include <ucontext.h>

enum { PAGES = 4 * 4096, TRAP_FLAG = 0x100, ANCHORS = 1, DISTRUSTED = 1, EXTENSIONS_USED_UP = 70 };

static uint8_t *pages;
static size_t used;
static volatile sig_atomic_t loads[PAGES]; /* of each byte */
static volatile sig_atomic_t opened;       /* for one instruction of the library */

static void protect(int how) {
    if (mprotect(pages, PAGES, how) != 0)
        abort();
}

/* Whether an instruction loads a single byte: a move that extends it, or a byte's move, comparison or other arithmetic. The library loads lent bytes by
 * these alone. Another one ends the program: it may load more than is counted. */
static int loads_a_byte(const uint8_t *code) {
    if ((code[0] & 0xf0) == 0x40) /* REX */
        code++;
    if (code[0] == 0x0f)
        return code[1] == 0xb6 || code[1] == 0xbe;
    return code[0] == 0x80 || code[0] == 0x84 || code[0] == 0x8a || code[0] == 0xf6 || (code[0] < 0x40 && (code[0] & 5) == 0);
}

static void on_fault(int number, siginfo_t *about, void *context) {
    (void)number;
    greg_t *registers = ((ucontext_t *)context)->uc_mcontext.gregs;
    size_t at = (uintptr_t)about->si_addr - (uintptr_t)pages;
    if (at >= used || opened || !loads_a_byte((const uint8_t *)registers[REG_RIP]))
        abort();
    loads[at]++;
    opened = 1;
    protect(PROT_READ);
    registers[REG_EFL] |= TRAP_FLAG;
}

static void on_trap(int number, siginfo_t *about, void *context) {
    (void)number, (void)about;
    if (!opened)
        abort();
    ((ucontext_t *)context)->uc_mcontext.gregs[REG_EFL] &= ~TRAP_FLAG;
    opened = 0;
    protect(PROT_NONE);
}

static void handle(int number, void (*handler)(int, siginfo_t *, void *)) {
    struct sigaction action = {.sa_sigaction = handler, .sa_flags = SA_SIGINFO};
    HOLDS(sigaction(number, &action, NULL) == 0);
}

/* What a call gives, with the pages closed. */
#define COUNTED(result, call)            \
    do {                                 \
        protect(PROT_NONE);              \
        result = call;                   \
        protect(PROT_READ | PROT_WRITE); \
    } while (0)

static pathjudge_bytes lend(const void *bytes, size_t length) {
    HOLDS(length <= PAGES - used);
    uint8_t *start = memcpy(pages + used, bytes, length);
    used += length;
    return (pathjudge_bytes){start, length};
}

static pathjudge_bytes lend_file(const char *name) {
    pathjudge_bytes file = contents(name), lent = lend(file.start, file.length);
    free((void *)file.start);
    return lent;
}

static void forget_loads(void) {
    for (size_t i = 0; i < PAGES; i++)
        loads[i] = 0;
}

static size_t all_loads(void) {
    size_t sum = 0;
    for (size_t i = 0; i < used; i++)
        sum += (size_t)loads[i];
    return sum;
}

/* The first byte of a certificate is looked at where the certificate is read, and nowhere else. */
static size_t readings(pathjudge_bytes certificate) { return (size_t)loads[certificate.start - pages]; }

/* ---- one reading: the inputs of crates/looks/proofs/Examples.antt, and how often the model looks at their bytes */

static const uint8_t nearly_empty[] = {48, 2, 48, 0}, cut_short[] = {48, 130, 1, 0};
static const uint8_t version_only[] = {48, 12, 48, 5, 160, 3, 2, 1, 2, 48, 0, 3, 1, 0};
static const uint8_t small_certificate[] = {48, 52, 48, 43, 160, 3,  2,  1, 2, 2,  0,  48, 2, 5, 0,   48, 0, 48, 0, 48, 0, 48, 0, 163, 22, 48, 20,
                                            48, 4,  6,  0,  4,   0,  48, 12, 6, 3, 85, 29, 19, 1, 1, 255, 4, 2, 48, 0, 48, 2, 5, 0,   3,  1,  0};

/* Every byte is loaded. Where the model looks at one again, the compiler may have kept it. */
static void reads(const char *what, const uint8_t *bytes, size_t length, int accepted, size_t looks) {
    used = 0;
    forget_loads();
    pathjudge_bytes s = lend(bytes, length);
    uint16_t refusal;
    COUNTED(refusal, pathjudge_read(s.start, s.length));
    printf("%s, %zu bytes: %zu loads, at most %zu\n", what, length, all_loads(), looks);
    HOLDS((refusal == 0) == accepted);
    HOLDS(all_loads() <= looks);
    for (size_t i = 0; i < length; i++)
        HOLDS(loads[i] > 0);
}

/* ---- whole runs */

typedef struct {
    pathjudge_bytes certificates[PATHJUDGE_MOST_CERTIFICATES]; /* the intermediates, and then the end entity */
    pathjudge_bytes subject, key, constraints, distrusted, purpose, name; /* with no byte of constraints the anchor has none */
    size_t issuers;
    uint8_t kind;
    uint64_t signatures, extensions;
    uint16_t answer, content; /* to every question, and to every offer */
} request;

/* The bounds of docs/BOUNDS.md are sums over the paths that are entered: number k has at most min(k, 6) + 1 certificates. */
static size_t entered(const request *r, size_t (*level)(const request *, size_t)) {
    size_t sum = 0;
    for (uint64_t k = 0; k <= r->extensions; k++)
        sum += level(r, (size_t)(k < 6 ? k : 6) + 1);
    return sum;
}

static size_t level_looks(const request *r, size_t d) {
    return (2 + 2 * DISTRUSTED + d + d * (d + 1) / 2) * ANCHORS + (2 + 4 * d) * r->issuers;
}

static size_t level_lookups(const request *r, size_t d) { return (2 * d + d * (d - 1) / 2) * ANCHORS + (d + 2) * r->issuers; }

/* On the bytes that a run looks at, where there is a row for each certificate and no name is wanted. */
static size_t bound(const request *r) {
    const pathjudge_bytes others[] = {r->subject, r->key, r->distrusted, r->purpose};
    size_t longest = 0, total = 0;
    for (size_t i = 0; i < LENGTH(others); i++)
        longest = others[i].length > longest ? others[i].length : longest;
    for (size_t i = 0; i <= r->issuers; i++) {
        longest = r->certificates[i].length > longest ? r->certificates[i].length : longest;
        total += r->certificates[i].length;
    }
    return 7 * total / 6 + (entered(r, level_looks) + (3 + 2 * DISTRUSTED) * (r->extensions + 1)) * longest + 2 * r->signatures * longest;
}

/* On how often a certificate is looked up: each time is a reading where there are no rows. */
static size_t lookups(const request *r) { return entered(r, level_lookups) + r->extensions + 3 * r->signatures + 3; }

/* A run over a table of so many rows, to its end. */
static pathjudge_step run(const request *r, size_t rows) {
#define LENT                                                                                                                                    \
    r->certificates, r->issuers, end.start, end.length, &r->subject, ANCHORS, &r->key, ANCHORS, &constraints, ANCHORS, &bound_by_them, ANCHORS, \
        &r->distrusted, DISTRUSTED, TIME, r->purpose.start, r->purpose.length, 0, r->kind, r->name.start, r->name.length
    static pathjudge_row table[PATHJUDGE_MOST_CERTIFICATES];
    const pathjudge_bytes end = r->certificates[r->issuers], none = {r->key.start, 0}, constraints = r->constraints.length > 0 ? r->constraints : none;
    const uint8_t bound_by_them = constraints.length > 0;
    pathjudge_step step;
    forget_loads();
    COUNTED(step, pathjudge_begin(LENT, r->signatures, r->extensions, PATHJUDGE_COMPARISONS, table, rows));
    while (step.phase == PATHJUDGE_ASK || step.phase == PATHJUDGE_OFFER) {
        uint16_t answer = r->content;
        if (step.phase == PATHJUDGE_ASK) {
            pathjudge_asked asked;
            COUNTED(asked, pathjudge_question(r->certificates, r->issuers, end.start, end.length, &r->key, ANCHORS, ANCHORS, table, rows, step));
            HOLDS(asked.refusal == 0 && asked.key_refusal == 0);
            answer = r->answer;
        }
        COUNTED(step, pathjudge_answer(LENT, table, rows, step, answer));
    }
    return step;
#undef LENT
}

static size_t readings_of_issuers(const request *r) {
    size_t sum = 0;
    for (size_t i = 0; i < r->issuers; i++)
        sum += readings(r->certificates[i]);
    return sum;
}

static void issuers_are_read_once(const request *r) {
    for (size_t i = 0; i < r->issuers; i++)
        HOLDS(readings(r->certificates[i]) == 1);
}

static pathjudge_step runs(const char *what, const request *r) {
    const pathjudge_bytes end = r->certificates[r->issuers];
    printf("%s: intermediates %zu, extensions %u, answers %d, to offers %d\n", what, r->issuers, (unsigned)r->extensions, r->answer, r->content);
    pathjudge_step step = run(r, r->issuers + 1);
    printf("  a row for each: %zu readings; %zu loads\n", readings_of_issuers(r) + readings(end), all_loads());
    issuers_are_read_once(r);
    HOLDS(readings(end) == 1);
    if (r->kind == PATHJUDGE_NO_NAME) {
        printf("  which are at most %zu\n", bound(r));
        HOLDS(all_loads() <= bound(r));
    }
    run(r, r->issuers);
    printf("  a row fewer: %zu readings of the end entity, %zu beside; %zu loads\n", readings(end), readings_of_issuers(r), all_loads());
    issuers_are_read_once(r);
    HOLDS(readings(end) > 1);
    run(r, 0);
    printf("  no rows: %zu readings, at most %zu; %zu loads\n", readings_of_issuers(r) + readings(end), lookups(r), all_loads());
    HOLDS(readings_of_issuers(r) + readings(end) <= lookups(r));
    return step;
}

/* The anchor of the chain is taken from the root; the path is found. */
static void chain(char **names, uint8_t kind, const char *name) {
    used = 0;
    forget_loads();
    pathjudge_bytes root = lend_file(names[1]);
    pathjudge_trusted trusted;
    COUNTED(trusted, pathjudge_anchor(root.start, root.length));
    printf("root, %zu bytes: %zu loads, at most %zu\n", root.length, all_loads(), 7 * root.length / 6);
    HOLDS(trusted.refusal == 0 && readings(root) == 1);
    HOLDS(all_loads() <= 7 * root.length / 6);
    request r = {.issuers = 1, .kind = kind, .signatures = PATHJUDGE_SIGNATURES, .extensions = 5, .answer = PATHJUDGE_YES, .content = PATHJUDGE_YES};
    r.certificates[0] = lend_file(names[2]);
    r.certificates[1] = lend_file(names[3]);
    r.subject = part(root, trusted.subject);
    r.key = r.distrusted = part(root, trusted.key);
    r.distrusted.length--;
    r.purpose = lend(server_authentication, sizeof server_authentication);
    r.name = lend(name, strlen(name));
    HOLDS(runs("chain", &r).phase == PATHJUDGE_FOUND);
}

/* ---- a forest: a single name, which is every issuer's and every subject's, and a key for each */

#define NAME "Name"
#define KEY "\x30\x00\x03\x02\x00" /* and a byte that tells it from the others */
#define SUBJECT "\x30\x04" NAME
#define VALIDITY "\x30\x1e\x17\x0d" "200101000000Z" "\x17\x0d" "400101000000Z"
#define FIELDS "\xa0\x03\x02\x01\x02\x02\x00\x30\x02\x05\x00" SUBJECT VALIDITY SUBJECT "\x30\x06" KEY
#define UP_TO_KEY "\x30\x5a\x30\x51" FIELDS
#define UP_TO_AUTHORITY UP_TO_KEY "?" "\xa3\x10\x30\x0e\x30\x0c\x06\x03\x55\x1d\x13\x04\x05\x30\x03\x01\x01"
#define SIGNED "\x30\x02\x05\x00\x03\x01\x00"
#define CERTIFICATE UP_TO_AUTHORITY "?" SIGNED

static pathjudge_bytes lend_key(char which) {
    char key[] = KEY "?";
    key[sizeof KEY - 1] = which;
    return lend(key, sizeof key - 1);
}

static pathjudge_bytes lend_certificate(char which, int authority) {
    char certificate[] = CERTIFICATE;
    certificate[sizeof UP_TO_KEY - 1] = which;
    certificate[sizeof UP_TO_AUTHORITY - 1] = authority ? '\xff' : 0;
    return lend(certificate, sizeof certificate - 1);
}

/* How many paths there are above the end entity: some of n, in any order. */
static size_t paths(size_t n) {
    size_t sum = 0, product = 1;
    for (size_t left = n; left > 0; left--)
        sum += product *= left;
    return sum;
}

/* Signatures are wrong, or offers are refused: so every path is tried, up to the budget. */
static void forest(size_t issuers, uint64_t extensions, uint16_t answer) {
    used = 0;
    request r = {.issuers = issuers, .kind = PATHJUDGE_NO_NAME, .extensions = extensions, .answer = answer, .content = CERT_NOT_VALID_FOR_NAME};
    r.signatures = (answer == PATHJUDGE_WRONG ? 1 : PATHJUDGE_MOST_CERTIFICATES) * (extensions + 1); /* enough: a wrong one is the last of its path */
    for (size_t i = 0; i <= issuers; i++)
        r.certificates[i] = lend_certificate((char)i, i < issuers);
    r.subject = lend(NAME, sizeof NAME - 1);
    r.key = lend_key('a');
    r.distrusted = lend_key('d');
    r.purpose = lend(server_authentication, sizeof server_authentication);
    r.name = lend("", 0);
    pathjudge_step step = runs("forest", &r);
    uint64_t wanted = paths(issuers);
    HOLDS(step.extensions == (extensions < wanted ? 0 : extensions - wanted));
    HOLDS(step.refusal == (extensions < wanted ? EXTENSIONS_USED_UP : answer == PATHJUDGE_WRONG ? INVALID_SIGNATURE : CERT_NOT_VALID_FOR_NAME));
}

/* ---- names: the inputs of crates/compared/proofs/Examples.antt, and how often the model looks at their bytes */

#define A7 "aaaaaaa"
#define LABEL A7 A7 A7 A7 A7 A7 A7 A7 A7
#define LABELS LABEL "." LABEL "." LABEL "." A7 A7 A7 A7 A7 A7 A7 A7 "aa"

typedef struct {
    size_t length;
    uint8_t bytes[1024];
} text;

static text before(text t, const void *bytes, size_t length) {
    HOLDS(length <= sizeof t.bytes - t.length);
    memmove(t.bytes + length, t.bytes, t.length);
    memcpy(t.bytes, bytes, length);
    t.length += length;
    return t;
}

static text headed(uint8_t tag, text t) {
    const uint8_t high = (uint8_t)(t.length >> 8), low = (uint8_t)t.length;
    const uint8_t small[] = {tag, low}, middle[] = {tag, 0x81, low}, large[] = {tag, 0x82, high, low};
    return t.length < 128 ? before(t, small, sizeof small) : t.length < 256 ? before(t, middle, sizeof middle) : before(t, large, sizeof large);
}

/* An end entity with these alternative names. */
static pathjudge_bytes lend_named(const text *names) {
    text t = before(headed(0x04, headed(0x30, *names)), "\x06\x03\x55\x1d\x11", 5);
    t = before(headed(0xa3, headed(0x30, headed(0x30, t))), FIELDS "e", sizeof FIELDS);
    t = headed(0x30, t);
    text end = before((text){.length = 0}, SIGNED, sizeof SIGNED - 1);
    end = headed(0x30, before(end, t.bytes, t.length));
    return lend(end.bytes, end.length);
}

/* The loads of a run in which the anchor has a list of so many times the same entry. Each is compared twice: with the name, and with the subject. */
static size_t loads_with(const text *name, uint8_t list, const text *entry, size_t times) {
    used = 0;
    request r = {.kind = PATHJUDGE_NO_NAME, .signatures = PATHJUDGE_SIGNATURES, .answer = PATHJUDGE_YES, .content = PATHJUDGE_YES};
    r.certificates[0] = lend_named(name);
    r.subject = lend(NAME, sizeof NAME - 1);
    r.key = lend_key('a');
    r.distrusted = lend_key('d');
    r.purpose = lend(server_authentication, sizeof server_authentication);
    r.name = lend("", 0);
    text constraints = {.length = 0};
    for (size_t i = 0; i < times; i++)
        constraints = before(constraints, entry->bytes, entry->length);
    constraints = headed(list, constraints);
    r.constraints = lend(constraints.bytes, constraints.length);
    pathjudge_step step = run(&r, 1);
    HOLDS(step.phase == PATHJUDGE_FOUND && step.comparisons == PATHJUDGE_COMPARISONS - 2 * times);
    return all_loads();
}

/* The subject is of another kind: so only the headers of an entry are looked at for it. */
static void compares(const char *what, text name, uint8_t list, text entry, size_t looks, size_t headers) {
    size_t loaded = loads_with(&name, list, &entry, 2) - loads_with(&name, list, &entry, 1);
    printf("%s: %zu loads for one entry more, at most %zu\n", what, loaded, looks + headers);
    HOLDS(loaded <= looks + headers);
}

/* What a name costs beside the reading of the certificate. */
static void wants(const char *what, text names, uint8_t kind, const char *wanted, int good, size_t looks) {
    used = 0;
    forget_loads();
    pathjudge_bytes end = lend_named(&names), name = lend(wanted, strlen(wanted));
    uint16_t refusal;
    COUNTED(refusal, pathjudge_read(end.start, end.length));
    HOLDS(refusal == 0);
    size_t reading = all_loads();
    forget_loads();
    COUNTED(refusal, pathjudge_name(end.start, end.length, kind, name.start, name.length));
    printf("%s: %zu loads for the wanted name, at most %zu\n", what, all_loads() - reading, looks);
    HOLDS(refusal == (good ? 0 : CERT_NOT_VALID_FOR_NAME));
    HOLDS(all_loads() - reading <= looks);
}

#define TEXT(bytes) before((text){.length = 0}, bytes, sizeof(bytes) - 1)

static void names_are_compared(void) {
    enum { PERMITTED = 0xa0, EXCLUDED = 0xa1 };
    compares("longest name", TEXT("\x82\x81\xfd*." LABELS "a"), EXCLUDED, TEXT("\x30\x81\xff\x82\x81\xfc." LABELS "b"), 1145, 6);
    compares("a, and b excluded", TEXT("\x82\x01" "a"), EXCLUDED, TEXT("\x30\x03\x82\x01" "b"), 11, 4);
    compares("a, and a permitted", TEXT("\x82\x01" "a"), PERMITTED, TEXT("\x30\x03\x82\x01" "a"), 10, 4);
    compares("address", TEXT("\x87\x04\1\2\3\4"), PERMITTED, TEXT("\x30\x0a\x87\x08\0\0\0\0\0\0\0\0"), 16, 4);
    wants("a and a, and b wanted", TEXT("\x82\x01" "a" "\x82\x01" "a"), PATHJUDGE_DNS, "b", 0, 22);
    wants("address", TEXT("\x87\x04\1\2\3\4"), PATHJUDGE_IP, "\1\2\3\4", 1, 10);
}

int main(int count, char **names) {
    HOLDS(count == 4 && setvbuf(stdout, NULL, _IOLBF, BUFSIZ) == 0);
    pages = mmap(NULL, PAGES, PROT_READ | PROT_WRITE, MAP_PRIVATE | MAP_ANONYMOUS, -1, 0);
    HOLDS(pages != MAP_FAILED);
    handle(SIGSEGV, on_fault);
    handle(SIGTRAP, on_trap);

    reads("nearly empty", nearly_empty, sizeof nearly_empty, 0, 4);
    reads("cut short", cut_short, sizeof cut_short, 0, 4);
    reads("version only", version_only, sizeof version_only, 0, 16);
    reads("small certificate", small_certificate, sizeof small_certificate, 1, 58);
    chain(names, PATHJUDGE_NO_NAME, "");
    chain(names, PATHJUDGE_DNS, "www.example.com");
    static const size_t issuers[] = {0, 1, 3, 6};
    static const uint64_t extensions[] = {0, 5, 50};
    for (size_t i = 0; i < LENGTH(issuers); i++)
        for (size_t j = 0; j < LENGTH(extensions); j++) {
            forest(issuers[i], extensions[j], PATHJUDGE_YES);
            forest(issuers[i], extensions[j], PATHJUDGE_WRONG);
        }
    names_are_compared();
    puts("ok");
    return EXIT_SUCCESS;
}
