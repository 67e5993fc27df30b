/* The certificate path decision, for C: what libjudge.a exports, on x86-64.
 *
 * A search is a dialogue. `pathjudge_begin` gives the first step; a step is a question, an offer or an end (`phase`), and `pathjudge_answer`
 * gives the step after it. Nothing is allocated, kept or shared: the step and a table of rows are all there is, and what a request lends has to
 * be the same in every call of one search. Any step and any table is safe to hand over, also one that no search has, and so are lists whose
 * lengths do not go together.
 *
 * The table is room for what is read of each certificate, so that it is read once: a row for each intermediate, and one more for the end entity.
 * `pathjudge_begin` and `pathjudge_judge` fill it, whatever was in it; `pathjudge_answer` and `pathjudge_question` take it as `pathjudge_begin` left
 * it. It may have fewer rows, or none: a certificate without a row is read again each time it is looked at, and the answers are the same. It must
 * share no memory with anything else that is lent.
 *
 * A slice is a pointer and a number of elements, and a list of slices one of `pathjudge_bytes`. Nothing is read through the pointer of an empty
 * one, but it must not be NULL. Places are numbers of bytes from the start of the slice that they are about; an end is the first that is not in.
 *
 * Refusals are the numbers of docs/REFUSALS.md; 0 is none.
 */
#ifndef PATHJUDGE_H
#define PATHJUDGE_H

#include <stddef.h>
#include <stdint.h>

#ifdef __cplusplus
#define PATHJUDGE_ASSERT(fact) static_assert(fact, #fact)
extern "C" {
#else
#define PATHJUDGE_ASSERT(fact) _Static_assert(fact, #fact)
#endif

/* What a step is. */
enum {
    PATHJUDGE_ASK = 1,     /* did a key sign a certificate? see pathjudge_question */
    PATHJUDGE_OFFER = 2,   /* a path that meets every condition but the wanted name, which is checked after this: is the caller content? */
    PATHJUDGE_FOUND = 3,   /* an end: there is a path */
    PATHJUDGE_REFUSED = 4, /* an end: there is none, and `refusal` says why */
    PATHJUDGE_SPENT = 5    /* an end: `refusal` says which budget was used up, and nothing is said about paths that were not looked at */
};

/* What may be answered to a question. An offer is answered with 0, or with the refusal to go on with. */
enum {
    PATHJUDGE_YES = 0,
    PATHJUDGE_WRONG = 1,             /* the signature is wrong */
    PATHJUDGE_UNKNOWN_ALGORITHM = 2, /* no such signature algorithm is known; this is looked at before the key is */
    PATHJUDGE_NOT_FOR_THIS_KEY = 3,  /* the algorithm is known, but not for a key of this kind */
    PATHJUDGE_KEY_UNREADABLE = 4     /* the key cannot be read */
};

/* The kinds of wanted name. */
enum {
    PATHJUDGE_NO_NAME = 0,
    PATHJUDGE_DNS = 1, /* text, without a zero at its end */
    PATHJUDGE_IP = 2   /* an address of 4 or 16 bytes */
};

/* The budgets that rustls-webpki has. */
enum {
    PATHJUDGE_SIGNATURES = 100,
    PATHJUDGE_EXTENSIONS = 200000,
    PATHJUDGE_COMPARISONS = 250000
};

/* The end entity and six intermediates. */
enum { PATHJUDGE_MOST_CERTIFICATES = 7 };

typedef struct {
    const uint8_t *start;
    size_t length;
} pathjudge_bytes;

typedef struct {
    size_t start;
    size_t end;
} pathjudge_place;

/* What was read of one certificate. */
typedef struct {
    size_t numbers[37];
} pathjudge_row;

/* A search between two calls. Anchors, intermediates and the end entity are numbered in this order, in one row. */
typedef struct {
    size_t path[PATHJUDGE_MOST_CERTIFICATES]; /* the end entity, and `depth` intermediates from there up */
    size_t next[PATHJUDGE_MOST_CERTIFICATES]; /* which candidate comes next, above each of them */
    size_t depth;
    size_t at;     /* the place in the path of the certificate that is asked about */
    size_t list;   /* 0: the question is about that certificate. No search asks about anything else */
    size_t anchor; /* the anchor that is tried, or was found */
    uint64_t signatures; /* what is left of the budgets */
    uint64_t extensions;
    uint64_t comparisons;
    uint16_t best; /* the refusal that says most so far */
    uint16_t phase;
    uint16_t refusal;
} pathjudge_step;

/* What a question is about. Places are in the certificate; those of the key are in the anchor's key, or in the certificate whose key it is. */
typedef struct {
    size_t key;         /* whose key it is, and whose certificate, by number */
    size_t certificate;
    pathjudge_place signed_part;
    pathjudge_place algorithm;
    pathjudge_place signature;
    pathjudge_place key_algorithm;
    pathjudge_place key_bits;
    uint16_t refusal;     /* why there is no such certificate: never in a question that a search asks */
    uint16_t key_refusal; /* why the key cannot be read */
} pathjudge_asked;

/* What is taken of a certificate that is trusted: places in it. */
typedef struct {
    pathjudge_place subject;
    pathjudge_place key;
    pathjudge_place constraints;
    uint16_t refusal; /* why it is no anchor */
    uint8_t bound;    /* whether it has name constraints */
} pathjudge_trusted;

PATHJUDGE_ASSERT(sizeof(size_t) == 8);
PATHJUDGE_ASSERT(sizeof(pathjudge_bytes) == 16);
PATHJUDGE_ASSERT(offsetof(pathjudge_bytes, length) == 8);
PATHJUDGE_ASSERT(sizeof(pathjudge_row) == 296);
PATHJUDGE_ASSERT(sizeof(pathjudge_step) == 176);
PATHJUDGE_ASSERT(offsetof(pathjudge_step, depth) == 112);
PATHJUDGE_ASSERT(offsetof(pathjudge_step, signatures) == 144);
PATHJUDGE_ASSERT(offsetof(pathjudge_step, best) == 168);
PATHJUDGE_ASSERT(offsetof(pathjudge_step, refusal) == 172);
PATHJUDGE_ASSERT(sizeof(pathjudge_asked) == 104);
PATHJUDGE_ASSERT(offsetof(pathjudge_asked, signed_part) == 16);
PATHJUDGE_ASSERT(offsetof(pathjudge_asked, key_bits) == 80);
PATHJUDGE_ASSERT(offsetof(pathjudge_asked, key_refusal) == 98);
PATHJUDGE_ASSERT(sizeof(pathjudge_trusted) == 56);
PATHJUDGE_ASSERT(offsetof(pathjudge_trusted, constraints) == 32);
PATHJUDGE_ASSERT(offsetof(pathjudge_trusted, bound) == 50);

/* What a request lends, in every function that leads to a step:
 * - intermediates, in the order in which they are tried, and the end entity: certificates, as DER;
 * - anchors in columns, in the order in which they are tried: subjects, keys (each the content of its SEQUENCE), name constraints, and for each
 *   anchor whether it has such (0: none). There are as many anchors as subjects. Where another column is shorter: an anchor without a key is never
 *   used, nor is one that is said to have name constraints and has no entry for them; one of which nothing is said has none;
 * - keys that may occur nowhere, as contents;
 * - the time that counts, in seconds since 1970;
 * - the wanted purpose, an object identifier's content, and whether (not 0) a certificate that lists no purpose is refused;
 * - the kind of the wanted name, and the name.
 */
#define PATHJUDGE_LENT                                                                                                                          \
    const pathjudge_bytes *issuers, size_t issuers_length, const uint8_t *end, size_t end_length, const pathjudge_bytes *subjects,              \
        size_t subjects_length, const pathjudge_bytes *keys, size_t keys_length, const pathjudge_bytes *constraints, size_t constraints_length, \
        const uint8_t *bound, size_t bound_length, const pathjudge_bytes *distrusted, size_t distrusted_length, uint64_t time,                  \
        const uint8_t *purpose, size_t purpose_length, uint8_t demanded, uint8_t kind, const uint8_t *name, size_t name_length

/* The first step, with so much of the three budgets. */
pathjudge_step pathjudge_begin(PATHJUDGE_LENT, uint64_t signatures, uint64_t extensions, uint64_t comparisons, pathjudge_row *table,
                               size_t table_length);

/* The step after an answer. An end stays what it is. */
pathjudge_step pathjudge_answer(PATHJUDGE_LENT, const pathjudge_row *table, size_t table_length, pathjudge_step step, uint16_t answer);

/* The step that answers, one after the other, lead to. */
pathjudge_step pathjudge_judge(PATHJUDGE_LENT, uint64_t signatures, uint64_t extensions, uint64_t comparisons, pathjudge_row *table,
                               size_t table_length, const uint16_t *answers, size_t answers_length);

/* What the question of a step is about. `anchors`: how many there are, the `subjects_length` of the request. */
pathjudge_asked pathjudge_question(const pathjudge_bytes *issuers, size_t issuers_length, const uint8_t *end, size_t end_length,
                                   const pathjudge_bytes *keys, size_t keys_length, size_t anchors, const pathjudge_row *table,
                                   size_t table_length, pathjudge_step step);

/* 0, or why the bytes are no certificate that can stand in a path. */
uint16_t pathjudge_read(const uint8_t *certificate, size_t length);

/* The anchor that a trusted certificate is. */
pathjudge_trusted pathjudge_anchor(const uint8_t *certificate, size_t length);

/* 0, or why an end entity is not good for a name. */
uint16_t pathjudge_name(const uint8_t *end, size_t end_length, uint8_t kind, const uint8_t *name, size_t name_length);

#undef PATHJUDGE_LENT
#undef PATHJUDGE_ASSERT

#ifdef __cplusplus
}
#endif

#endif
