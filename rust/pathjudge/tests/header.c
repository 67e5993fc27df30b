/* One decision through include/pathjudge.h. Usage: header ROOT ISSUER SERVER, the certificates of tests/chain. Prints `ok`, or what does not hold. */
#include "common/given.h"

#include <string.h>

enum { ANCHORS = 1, ISSUERS = 1, CERT_EXPIRED = 2 };

static const pathjudge_bytes none[1]; /* the list of no distrusted keys: its address, with length 0 */

static int same(pathjudge_bytes a, pathjudge_bytes b) {
    return a.length == b.length && memcmp(a.start, b.start, a.length) == 0;
}

typedef struct {
    pathjudge_bytes subject, key, constraints, issuer, server;
    uint64_t time;
    const char *name;
    size_t rows; /* of the table, at most ISSUERS + 1 */
    pathjudge_row *table;
} request;

static pathjudge_step begun(const request *r) {
    uint8_t bound = 0;
    return pathjudge_begin(&r->issuer, ISSUERS, r->server.start, r->server.length, &r->subject, ANCHORS, &r->key, ANCHORS, &r->constraints,
                           ANCHORS, &bound, ANCHORS, none, 0, r->time, server_authentication, LENGTH(server_authentication), 0, PATHJUDGE_DNS,
                           (const uint8_t *)r->name, strlen(r->name), PATHJUDGE_SIGNATURES, PATHJUDGE_EXTENSIONS, PATHJUDGE_COMPARISONS,
                           r->table, r->rows);
}

static pathjudge_step answered(const request *r, pathjudge_step step, uint16_t answer) {
    uint8_t bound = 0;
    return pathjudge_answer(&r->issuer, ISSUERS, r->server.start, r->server.length, &r->subject, ANCHORS, &r->key, ANCHORS, &r->constraints,
                            ANCHORS, &bound, ANCHORS, none, 0, r->time, server_authentication, LENGTH(server_authentication), 0, PATHJUDGE_DNS,
                            (const uint8_t *)r->name, strlen(r->name), r->table, r->rows, step, answer);
}

/* The whole of it at once, over answers that are known. */
static pathjudge_step run(const request *r, const uint16_t *answers, size_t count) {
    uint8_t bound = 0;
    return pathjudge_judge(&r->issuer, ISSUERS, r->server.start, r->server.length, &r->subject, ANCHORS, &r->key, ANCHORS, &r->constraints,
                           ANCHORS, &bound, ANCHORS, none, 0, r->time, server_authentication, LENGTH(server_authentication), 0, PATHJUDGE_DNS,
                           (const uint8_t *)r->name, strlen(r->name), PATHJUDGE_SIGNATURES, PATHJUDGE_EXTENSIONS, PATHJUDGE_COMPARISONS,
                           r->table, r->rows, answers, count);
}

static pathjudge_bytes certificate(const request *r, size_t number) {
    return number == ANCHORS ? r->issuer : r->server;
}

/* The toy scheme: a signature is right if it is the key's own bits. */
static uint16_t checked(const request *r, pathjudge_step step) {
    pathjudge_asked asked =
        pathjudge_question(&r->issuer, ISSUERS, r->server.start, r->server.length, &r->key, ANCHORS, ANCHORS, r->table, r->rows, step);
    HOLDS(asked.refusal == 0 && asked.key_refusal == 0);
    pathjudge_bytes holder = asked.key < ANCHORS ? r->key : certificate(r, asked.key);
    pathjudge_bytes signed_by = certificate(r, asked.certificate);
    HOLDS(same(part(holder, asked.key_algorithm), part(signed_by, asked.algorithm)));
    HOLDS(part(signed_by, asked.signed_part).length > 0);
    return same(part(holder, asked.key_bits), part(signed_by, asked.signature)) ? PATHJUDGE_YES : PATHJUDGE_WRONG;
}

static pathjudge_step judged(const request *r) {
    pathjudge_step step = begun(r);
    while (step.phase == PATHJUDGE_ASK || step.phase == PATHJUDGE_OFFER)
        step = answered(r, step, step.phase == PATHJUDGE_ASK ? checked(r, step) : PATHJUDGE_YES);
    pathjudge_step again = answered(r, step, PATHJUDGE_WRONG);
    HOLDS(again.phase == step.phase && again.refusal == step.refusal);
    return step;
}

static void refuses(request r, uint16_t refusal) {
    pathjudge_step step = judged(&r);
    HOLDS(step.phase == PATHJUDGE_REFUSED);
    HOLDS(step.refusal == refusal);
}

int main(int count, char **names) {
    HOLDS(count == 4);
    pathjudge_bytes root = contents(names[1]), issuer = contents(names[2]), server = contents(names[3]);

    HOLDS(pathjudge_read(server.start, server.length) == 0);
    HOLDS(pathjudge_read(server.start, 0) != 0);
    pathjudge_trusted trusted = pathjudge_anchor(root.start, root.length);
    HOLDS(trusted.refusal == 0 && trusted.bound == 0);
    HOLDS(pathjudge_anchor(root.start, root.length - 1).refusal != 0);

    request good = {part(root, trusted.subject), part(root, trusted.key), {root.start, 0}, issuer, server, TIME, "www.example.com", 0, malloc((ISSUERS + 1) * sizeof(pathjudge_row))};
    HOLDS(good.table);
    pathjudge_step without = judged(&good);
    good.rows = ISSUERS + 1;
    pathjudge_step step = judged(&good);
    HOLDS(memcmp(&without, &step, offsetof(pathjudge_step, refusal) + sizeof step.refusal) == 0);
    HOLDS(step.phase == PATHJUDGE_FOUND && step.refusal == 0);
    HOLDS(step.anchor == 0 && step.depth == 1 && step.path[1] == ANCHORS);
    HOLDS(step.signatures == PATHJUDGE_SIGNATURES - 2 && step.extensions == PATHJUDGE_EXTENSIONS - 1);
    HOLDS(step.comparisons == PATHJUDGE_COMPARISONS);

    static const uint16_t yes[] = {PATHJUDGE_YES, PATHJUDGE_YES, PATHJUDGE_YES, PATHJUDGE_YES};
    HOLDS(run(&good, yes, 0).phase == PATHJUDGE_ASK);
    HOLDS(run(&good, yes, 2).phase == PATHJUDGE_OFFER);
    for (size_t count = 3; count <= LENGTH(yes); count++) { /* two questions and an offer; then it is over */
        pathjudge_step end = run(&good, yes, count);
        HOLDS(memcmp(&end, &step, offsetof(pathjudge_step, refusal) + sizeof end.refusal) == 0);
    }

    request late = good;
    late.time = UINT64_MAX;
    refuses(late, CERT_EXPIRED);

    request elsewhere = good;
    elsewhere.name = "example.org";
    refuses(elsewhere, CERT_NOT_VALID_FOR_NAME);
    HOLDS(pathjudge_name(server.start, server.length, PATHJUDGE_DNS, (const uint8_t *)"example.org", strlen("example.org")) ==
          CERT_NOT_VALID_FOR_NAME);
    static const uint8_t address[] = {192, 0, 2, 1};
    HOLDS(pathjudge_name(server.start, server.length, PATHJUDGE_IP, address, LENGTH(address)) == 0);

    pathjudge_bytes forged = contents(names[3]);
    ((uint8_t *)forged.start)[forged.length - 1] ^= 1;
    request wrong = good;
    wrong.server = forged;
    refuses(wrong, INVALID_SIGNATURE);

    /* a step that no search has is harmless */
    pathjudge_step made_up;
    memset(&made_up, 0xff, sizeof made_up);
    HOLDS(answered(&good, made_up, PATHJUDGE_YES).phase == PATHJUDGE_REFUSED);
    /* what was in a table before it is filled does not matter, and one that nobody filled is harmless */
    memset(good.table, 0xff, good.rows * sizeof(pathjudge_row));
    HOLDS(judged(&good).phase == PATHJUDGE_FOUND);
    memset(good.table, 0xff, good.rows * sizeof(pathjudge_row));
    HOLDS(answered(&good, step, PATHJUDGE_YES).phase == PATHJUDGE_REFUSED);

    free(good.table);
    free((void *)root.start);
    free((void *)issuer.start);
    free((void *)server.start);
    free((void *)forged.start);
    puts("ok");
    return EXIT_SUCCESS;
}
