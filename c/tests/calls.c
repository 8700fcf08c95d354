/*
 * Calls the library as sdjwt.h says: calls VECTORS [THREADS [small]]
 *
 * VECTORS is what vectors.py writes. Each vector is run with a room that just fits, with one that is larger, with one
 * that is too small, and with none; those that verify, behind a handle too. Then the same on several threads at once.
 * The status is 0 where all went as it should.
 */
#include "sdjwt.h"

#include <pthread.h>
#include <stdio.h>
#include <stdlib.h>
#include <string.h>

enum { ISSUE, PRESENT, VERIFY, SHOW, SPLIT, CONVERT, AUDIT, WALLET };

#define NO_FILE UINT64_MAX
#define FILES 16
#define RUNS 16
#define READ (1 + SDJWT_TOKENS)
#define BEHIND 8
#define OWN_STACK (32 * 1024)
#define FILL 0xA5
/* A signature with which no token is short enough. */
#define TOO_LONG ((size_t)13 << 20)

struct text {
    const uint8_t *bytes;
    size_t len;
};

struct run {
    uint64_t command, form, count, read[READ], kept, now;
};

struct vector {
    struct text name, files[FILES], written;
    struct run runs[RUNS];
    uint64_t file_count, run_count, status, due;
};

static struct vector *vectors;
static size_t vector_count;

#define CHECK(so, what)                                                              \
    do {                                                                             \
        if (!(so)) {                                                                 \
            fprintf(stderr, "calls.c:%d: %s: %s\n", __LINE__, (what), #so);          \
            exit(1);                                                                 \
        }                                                                            \
    } while (0)

static void *room_of(size_t size) {
    void *room = malloc(size ? size : 1);
    CHECK(room != NULL, "malloc");
    return room;
}

/* The wallet over its query and its tokens, which are laid one behind the other. */
static sdjwt_status ask_wallet(const struct run *run, const struct text *files, uint8_t *out, size_t room, size_t *len) {
    struct text query = files[run->read[0]];
    size_t lengths[SDJWT_TOKENS], count = run->count - 1, whole = 0;
    for (size_t i = 0; i < count; i++) whole += lengths[i] = files[run->read[i + 1]].len;
    uint8_t *tokens = room_of(whole);
    size_t *just = room_of(count * sizeof *just);
    memcpy(just, lengths, count * sizeof *just);
    for (size_t i = 0, at = 0; i < count; at += lengths[i++]) memcpy(tokens + at, files[run->read[i + 1]].bytes, lengths[i]);
    sdjwt_status status = sdjwt_wallet(query.bytes, query.len, tokens, whole, just, count, out, room, len);
    free(tokens);
    free(just);
    return status;
}

static sdjwt_status call(const struct run *run, const struct text *files, uint8_t *out, size_t room, size_t *len) {
    struct text a = files[run->read[0]];
    struct text b = files[run->read[run->count - 1]];
    switch (run->command) {
    case ISSUE: return sdjwt_issue(a.bytes, a.len, b.bytes, b.len, out, room, len);
    case PRESENT: return sdjwt_present(a.bytes, a.len, b.bytes, b.len, run->now, out, room, len);
    case VERIFY: return sdjwt_verify(a.bytes, a.len, b.bytes, b.len, run->now, out, room, len);
    case SHOW: return sdjwt_show(a.bytes, a.len, out, room, len);
    case SPLIT: return sdjwt_split(a.bytes, a.len, out, room, len);
    case AUDIT: return sdjwt_audit(a.bytes, a.len, b.bytes, b.len, out, room, len);
    case WALLET: return ask_wallet(run, files, out, room, len);
    default: return sdjwt_convert((uint8_t)run->form, a.bytes, a.len, out, room, len);
    }
}

/* The answer in a room that just fits, which the caller frees. */
static sdjwt_status whole(const struct run *run, const struct text *files, struct text *answer) {
    uint8_t none;
    size_t len;
    sdjwt_status status = call(run, files, &none, 0, &len);
    if (status == SDJWT_UNWRITTEN) {
        size_t room = len;
        uint8_t *out = room_of(room);
        status = call(run, files, out, room, &len);
        CHECK(status != SDJWT_UNWRITTEN && len == room, "a room of the length that was told");
        answer->bytes = out;
    } else {
        CHECK(len == 0, "nothing is written");
        answer->bytes = room_of(0);
    }
    answer->len = len;
    return status;
}

static int is_filled(const uint8_t *bytes, size_t from, size_t to) {
    for (size_t i = from; i < to; i++)
        if (bytes[i] != FILL) return 0;
    return 1;
}

/* The same call with rooms that do not just fit. */
static void other_rooms(const char *name, const struct run *run, const struct text *files, sdjwt_status due, struct text answer) {
    size_t sizes[] = {answer.len + BEHIND, answer.len ? answer.len - 1 : 0, answer.len / 2};
    for (size_t i = 0; i < sizeof sizes / sizeof *sizes; i++) {
        size_t room = sizes[i], len = 12345;
        uint8_t *out = room_of(room);
        memset(out, FILL, room);
        sdjwt_status status = call(run, files, out, room, &len);
        CHECK(len == answer.len, name);
        if (room >= answer.len) {
            CHECK(status == due && memcmp(out, answer.bytes, len) == 0 && is_filled(out, len, room), name);
        } else {
            CHECK(status == SDJWT_UNWRITTEN && is_filled(out, 0, room), name);
        }
        free(out);
    }
}

/* The same verification behind a handle, twice. */
static void behind_handle(const char *name, const struct run *run, const struct text *files, sdjwt_status due, struct text answer) {
    sdjwt_policy handle = SDJWT_POLICY_INIT;
    struct text policy = files[run->read[0]], token = files[run->read[1]];
    size_t room = answer.len, len;
    uint8_t *out = room_of(room);
    sdjwt_status status = sdjwt_policy_new(&handle, policy.bytes, policy.len, out, room, &len);
    if (status == SDJWT_DONE) {
        CHECK(len == 0, name);
        for (int i = 0; i < 2; i++) {
            status = sdjwt_policy_verify(&handle, token.bytes, token.len, run->now, out, room, &len);
            CHECK(status == due && len == answer.len && memcmp(out, answer.bytes, len) == 0, name);
        }
    } else {
        CHECK(status == SDJWT_UNREADABLE && due == status && len == answer.len && memcmp(out, answer.bytes, len) == 0, name);
        CHECK(handle.held == NULL, name);
    }
    sdjwt_policy_free(&handle);
    free(out);
}

static void run_vector(const struct vector *vector) {
    char name[200];
    struct text files[FILES], answer = {NULL, 0};
    uint8_t *kept[RUNS];
    size_t kept_count = 0;
    sdjwt_status status = 0;
    snprintf(name, sizeof name, "%.*s", (int)vector->name.len, (const char *)vector->name.bytes);
    memcpy(files, vector->files, sizeof files);
    for (uint64_t i = 0; i < vector->run_count; i++) {
        const struct run *run = &vector->runs[i];
        status = whole(run, files, &answer);
        other_rooms(name, run, files, status, answer);
        if (run->command == VERIFY) behind_handle(name, run, files, status, answer);
        kept[kept_count++] = (uint8_t *)answer.bytes;
        if (run->kept != NO_FILE) {
            files[run->kept].bytes = status == SDJWT_DONE ? answer.bytes : (const uint8_t *)"";
            files[run->kept].len = status == SDJWT_DONE ? answer.len : 0;
        }
    }
    CHECK(status == vector->status, name);
    if (vector->due == NO_FILE) {
        CHECK(answer.len == vector->written.len && memcmp(answer.bytes, vector->written.bytes, answer.len) == 0, name);
    } else {
        struct text due = files[vector->due];
        CHECK(answer.len == due.len + 1 && memcmp(answer.bytes, due.bytes, due.len) == 0 && answer.bytes[due.len] == '\n', name);
    }
    while (kept_count > 0) free(kept[--kept_count]);
}

static void *run_vectors(void *stride) {
    size_t first = *(size_t *)stride;
    for (size_t i = 0; i < vector_count; i++) run_vector(&vectors[(i + first) % vector_count]);
    return NULL;
}

/* Each input of no bytes, and each length that is told. */
static void empty_inputs(void) {
    static const uint8_t none[1] = {0};
    struct text files[2] = {{none, 0}, {none, 0}};
    for (uint64_t command = ISSUE; command <= WALLET; command++) {
        int of_two = command < SHOW || command > CONVERT;
        struct run run = {command, 0, of_two ? 2 : 1, {0, 1}, NO_FILE, 0};
        struct text answer;
        sdjwt_status status = whole(&run, files, &answer);
        CHECK(status == (of_two ? SDJWT_UNREADABLE : SDJWT_REFUSED), "no bytes");
        other_rooms("no bytes", &run, files, status, answer);
        free((void *)answer.bytes);
    }
}

/* Lengths that are not those of 1 to 64 tokens, or not of all of the text. */
static void rules_of_lengths(void) {
    static const size_t bad[][3] = {{3, 3, 0}, {4, 4, 0}, {SIZE_MAX, 8, 0}, {8, 0, SIZE_MAX}, {0, 0, 0}, {7, 1, SIZE_MAX}};
    const uint8_t *query = (const uint8_t *)"{}", *tokens = (const uint8_t *)"a.b.c~d";
    size_t many[SDJWT_TOKENS + 1] = {7}, len;
    uint8_t line[128];
    for (size_t i = 0; i < sizeof bad / sizeof *bad; i++) {
        len = 1;
        CHECK(sdjwt_wallet(query, 2, tokens, 7, bad[i], 3, line, sizeof line, &len) == SDJWT_USAGE && len == 0, "other lengths");
    }
    CHECK(sdjwt_wallet(query, 2, tokens, 7, many, SDJWT_TOKENS + 1, line, sizeof line, &len) == SDJWT_USAGE && len == 0, "too many");
    CHECK(sdjwt_wallet(query, 2, tokens, 7, many, 0, line, sizeof line, &len) == SDJWT_USAGE && len == 0, "none");
    CHECK(sdjwt_wallet(query, 2, tokens, 0, many, 0, line, sizeof line, &len) == SDJWT_USAGE && len == 0, "none of nothing");
    CHECK(sdjwt_wallet(query, 2, tokens, 7, many, SDJWT_TOKENS, line, sizeof line, &len) == SDJWT_UNREADABLE, "as many as may be");
}

/* What breaks a rule, and what a handle holds. */
static void rules_of_handles(const struct text policy, const struct text token, uint64_t now) {
    struct { sdjwt_policy handle; uint8_t behind[BEHIND]; } guarded;
    uint8_t line[128], other[128];
    size_t len, other_len;
    memset(&guarded, FILL, sizeof guarded);
    guarded.handle = (sdjwt_policy)SDJWT_POLICY_INIT;
    sdjwt_policy *handle = &guarded.handle;
    for (int form = 3; form < 256; form++) {
        len = 1;
        CHECK(sdjwt_convert((uint8_t)form, token.bytes, token.len, line, sizeof line, &len) == SDJWT_USAGE && len == 0, "no form");
    }
    CHECK(sdjwt_policy_verify(handle, token.bytes, token.len, now, line, sizeof line, &len) == SDJWT_USAGE && len == 0, "no policy");
    sdjwt_policy_free(handle);
    CHECK(sdjwt_policy_new(handle, (const uint8_t *)"{", 1, line, sizeof line, &len) == SDJWT_UNREADABLE, "no policy is read");
    CHECK(len == strlen("unreadable 1 notJson\n") && memcmp(line, "unreadable 1 notJson\n", len) == 0, "its line");
    CHECK(handle->held == NULL, "it holds none");
    CHECK(sdjwt_policy_new(handle, (const uint8_t *)"{", 1, line, 3, &len) == SDJWT_UNWRITTEN && handle->held == NULL, "no room");
    for (int i = 0; i < 3; i++) CHECK(sdjwt_policy_new(handle, policy.bytes, policy.len, line, 0, &len) == SDJWT_DONE && len == 0, "read again");
    void *held = handle->held;
    CHECK(sdjwt_policy_new(handle, (const uint8_t *)"[]", 2, line, sizeof line, &len) == SDJWT_UNREADABLE && handle->held == held, "it keeps what it held");
    sdjwt_policy moved = *handle;
    memset(handle, 0, sizeof *handle);
    sdjwt_status status = sdjwt_policy_verify(&moved, token.bytes, token.len, now, line, sizeof line, &len);
    sdjwt_status again = sdjwt_verify(policy.bytes, policy.len, token.bytes, token.len, now, other, sizeof other, &other_len);
    CHECK(status == again && len == other_len, "a handle that is moved");
    sdjwt_policy_free(&moved);
    sdjwt_policy_free(&moved);
    CHECK(moved.held == NULL && is_filled(guarded.behind, 0, BEHIND), "it is one pointer");
}

/* A token of ES256, whose signature is one byte of 0, and what is asked about it. */
static const char judged_policy[] = "{\"keys\":{\"keys\":[]},\"algs\":[\"ES256\",\"HS256\"]}";
static const char judged_token[] = "eyJhbGciOiJFUzI1NiJ9.eyJhIjoxfQ.AA~";
static const char judged_question[] = "{\"alg\":\"ES256\",\"ask\":\"issuer\",\"signature\":\"AA\",\"text\":\"eyJhbGciOiJFUzI1NiJ9.eyJhIjoxfQ\"}\n";

/* What is said, and what is told: on a question with the status and the text of it. */
static const struct { const char *algs; uint8_t issuer, holder; sdjwt_status status; const char *text; } judgements[] = {
    {"", SDJWT_UNSAID, SDJWT_UNSAID, SDJWT_ASKS, judged_question},
    {"[]", SDJWT_UNSAID, SDJWT_UNSAID, SDJWT_ASKS, judged_question},
    {"", SDJWT_UNKNOWN, SDJWT_UNSAID, SDJWT_REFUSED, "refused 9 issuerKeyUnknown\n"},
    {"", SDJWT_BAD, SDJWT_UNSAID, SDJWT_REFUSED, "refused 10 badSignature\n"},
    {"", SDJWT_GOOD, SDJWT_UNSAID, SDJWT_DONE, "{\"a\":1}\n"},
    {"", SDJWT_GOOD, SDJWT_GOOD, SDJWT_NOT_ASKED, "notAsked\n"},
    {"", SDJWT_GOOD, SDJWT_BAD, SDJWT_NOT_ASKED, "notAsked\n"},
    {"", SDJWT_UNSAID, SDJWT_GOOD, SDJWT_USAGE, ""},
    {"", SDJWT_BAD, SDJWT_GOOD, SDJWT_USAGE, ""},
    {"", 4, SDJWT_UNSAID, SDJWT_USAGE, ""},
    {"", SDJWT_GOOD, 255, SDJWT_USAGE, ""},
    {"{}", SDJWT_UNSAID, SDJWT_UNSAID, SDJWT_UNREADABLE, "unreadable 2 wrong algs\n"},
    {"[1]", SDJWT_GOOD, SDJWT_UNSAID, SDJWT_UNREADABLE, "unreadable 2 wrong algs\n"},
    {"[\"ES256\"", SDJWT_UNSAID, SDJWT_UNSAID, SDJWT_UNREADABLE, "unreadable 2 wrong algs\n"},
};

/* Each judgement with a room that just fits, one that is larger and those that are too small, by a policy and by a handle. */
static void judging(void) {
    sdjwt_policy handle = SDJWT_POLICY_INIT, none = SDJWT_POLICY_INIT;
    const uint8_t *policy = (const uint8_t *)judged_policy, *token = (const uint8_t *)judged_token;
    size_t policy_len = strlen(judged_policy), token_len = strlen(judged_token), len;
    uint8_t out[256];
    CHECK(sdjwt_policy_new(&handle, policy, policy_len, out, 0, &len) == SDJWT_DONE, "a policy");
    for (size_t i = 0; i < sizeof judgements / sizeof *judgements; i++) {
        const char *text = judgements[i].text, *said = judgements[i].algs;
        size_t due = strlen(text), sizes[] = {due, due + BEHIND, due ? due - 1 : 0, 0};
        const uint8_t *algs = (const uint8_t *)said;
        uint8_t issuer = judgements[i].issuer, holder = judgements[i].holder;
        for (int which = 0; which < 8; which++) {
            size_t room = sizes[which / 2];
            memset(out, FILL, sizeof out);
            len = 12345;
            sdjwt_status status = which % 2
                ? sdjwt_policy_judge(&handle, algs, strlen(said), token, token_len, 0, issuer, holder, out, room, &len)
                : sdjwt_judge(policy, policy_len, algs, strlen(said), token, token_len, 0, issuer, holder, out, room, &len);
            CHECK(len == due, text);
            if (room < due) CHECK(status == SDJWT_UNWRITTEN && is_filled(out, 0, sizeof out), text);
            else CHECK(status == judgements[i].status && memcmp(out, text, due) == 0 && is_filled(out, due, sizeof out), text);
        }
    }
    CHECK(sdjwt_policy_judge(&none, token, 0, token, token_len, 0, 0, 0, out, sizeof out, &len) == SDJWT_USAGE && len == 0, "no policy");
    CHECK(sdjwt_judge(token, 1, token, 0, token, token_len, 0, 0, 0, out, sizeof out, &len) == SDJWT_UNREADABLE, "no policy is read");
    CHECK(len == strlen("unreadable 1 notJson\n") && memcmp(out, "unreadable 1 notJson\n", len) == 0, "its line");
    CHECK(sdjwt_policy_judge(&handle, token, 0, token, 0, 0, 3, 0, out, sizeof out, &len) == SDJWT_NOT_ASKED, "no token");
    CHECK(sdjwt_policy_judge(&handle, token, 0, token, 0, 0, 0, 0, out, sizeof out, &len) == SDJWT_REFUSED, "no token");
    sdjwt_policy_free(&handle);
}

/* Two tokens with key binding tokens of HS256, of which one is of HS256 and the other of none. */
#define BY_SHARED "eyJhbGciOiJIUzI1NiJ9.eyJhIjoxfQ.AA~eyJhbGciOiJIUzI1NiIsInR5cCI6ImtiK2p3dCJ9.e30.AA"
#define BY_NONE "eyJhbGciOiJub25lIn0.eyJhIjoxfQ.AA~eyJhbGciOiJIUzI1NiIsInR5cCI6ImtiK2p3dCJ9.e30.AA"
#define SHARED_QUESTION "{\"alg\":\"HS256\",\"ask\":\"issuer\",\"signature\":\"AA\",\"text\":\"eyJhbGciOiJIUzI1NiJ9.eyJhIjoxfQ\"}\n"
#define HOLDER_QUESTION "{\"alg\":\"HS256\",\"ask\":\"holder\",\"signature\":\"AA\"," \
    "\"text\":\"eyJhbGciOiJIUzI1NiIsInR5cCI6ImtiK2p3dCJ9.e30\",\"typ\":\"kb+jwt\",\"payload\":{\"a\":1}}\n"
#define DOOR(words) "{\"keys\":{\"keys\":[]}" words ",\"binding\":{\"aud\":\"v\",\"nonce\":\"n\",\"max_age\":0,\"keys\":{\"keys\":[]}}}"

/* What is told of them: a list has to name HS256, as one that is missing does, and none can name none. */
static const struct { const char *policy, *algs, *token; uint8_t issuer; sdjwt_status status; const char *text; } listings[] = {
    {DOOR(""), "", BY_SHARED, SDJWT_UNSAID, SDJWT_ASKS, SHARED_QUESTION},
    {DOOR(",\"algs\":[\"ES256\",\"HS256\"]"), "[]", BY_SHARED, SDJWT_UNSAID, SDJWT_ASKS, SHARED_QUESTION},
    {DOOR(",\"algs\":[\"ES256\"]"), "[\"HS256\"]", BY_SHARED, SDJWT_UNSAID, SDJWT_REFUSED, "refused 7 algRefused\n"},
    {DOOR(",\"algs\":[\"none\",\"HS256\"]"), "", BY_NONE, SDJWT_UNSAID, SDJWT_REFUSED, "refused 7 algRefused\n"},
    {DOOR(""), "", BY_SHARED, SDJWT_GOOD, SDJWT_ASKS, HOLDER_QUESTION},
    {DOOR(""), "[\"HS384\",\"HS256\"]", BY_SHARED, SDJWT_GOOD, SDJWT_ASKS, HOLDER_QUESTION},
    {DOOR(""), "[\"ES256\",\"HS384\"]", BY_SHARED, SDJWT_GOOD, SDJWT_REFUSED, "refused 29 bindingAlg\n"},
    {DOOR(""), "[]", BY_SHARED, SDJWT_GOOD, SDJWT_REFUSED, "refused 29 bindingAlg\n"},
};

static void listing(void) {
    uint8_t out[512];
    for (size_t i = 0; i < sizeof listings / sizeof *listings; i++) {
        const uint8_t *policy = (const uint8_t *)listings[i].policy, *algs = (const uint8_t *)listings[i].algs;
        const uint8_t *token = (const uint8_t *)listings[i].token;
        const char *text = listings[i].text;
        size_t len = 12345;
        sdjwt_status status = sdjwt_judge(policy, strlen(listings[i].policy), algs, strlen(listings[i].algs), token,
                                          strlen(listings[i].token), 0, listings[i].issuer, SDJWT_UNSAID, out, sizeof out, &len);
        CHECK(status == listings[i].status && len == strlen(text) && memcmp(out, text, len) == 0, text);
    }
}

/* What is said of an order without a key: the text that is to be signed, or its line; then the token with a signature. */
#define SIGNED "eyJhbGciOiJFUzI1NiJ9.eyJfc2QiOlsiRVNRVzNfaHRvV25MV0V2bGRjZlZLbmU5ZUcwWGQ5eHh5ajJxZ1hiOC1mYyJdLCJfc2RfYWxnIjoic2hhLTI1NiJ9"
#define HIDING "{\"payload\":{\"a\":1},\"hide\":[\"/a\"]}"
static const struct { const char *order, *alg; size_t seed_len, signature_len; sdjwt_status asked, signs; const char *text, *token; } signings[] = {
    {HIDING, "ES256", 32, 1, SDJWT_DONE, SDJWT_DONE, SIGNED, SIGNED ".AA~WyJkcmpncmFEeFBaQkFYV3JsVTRhOUtBIiwiYSIsMV0~\n"},
    {HIDING, "ES256", 33, 2, SDJWT_DONE, SDJWT_DONE, SIGNED, SIGNED ".AAA~WyJkcmpncmFEeFBaQkFYV3JsVTRhOUtBIiwiYSIsMV0~\n"},
    {"{\"payload\":{},\"kid\":\"k\",\"typ\":\"t\"}", "nonesuch", 32, 1, SDJWT_DONE, SDJWT_DONE,
     "eyJhbGciOiJub25lc3VjaCIsImtpZCI6ImsiLCJ0eXAiOiJ0In0.eyJfc2RfYWxnIjoic2hhLTI1NiJ9",
     "eyJhbGciOiJub25lc3VjaCIsImtpZCI6ImsiLCJ0eXAiOiJ0In0.eyJfc2RfYWxnIjoic2hhLTI1NiJ9.AA~\n"},
    {"{\"payload\":{\"a\":1},\"key\":\"AQEBAQEBAQEBAQEBAQEBAQEBAQEBAQEBAQEBAQEBAQE\"}", "HS256", 32, 1,
     SDJWT_UNREADABLE, SDJWT_UNREADABLE, "unreadable 1 unknown\n", "unreadable 1 unknown\n"},
    {"{\"payload\":{\"a\":1},\"alg\":\"ES256\"}", "ES256", 32, 1,
     SDJWT_UNREADABLE, SDJWT_UNREADABLE, "unreadable 1 unknown\n", "unreadable 1 unknown\n"},
    {"{\"hide\":[\"/a\"]}", "ES256", 0, 1, SDJWT_UNREADABLE, SDJWT_UNREADABLE, "unreadable 1 missing payload\n", "unreadable 1 missing payload\n"},
    {"", "ES256", 0, 1, SDJWT_UNREADABLE, SDJWT_UNREADABLE, "unreadable 1 notJson\n", "unreadable 1 notJson\n"},
    {HIDING, "ES256", 31, 1, SDJWT_UNREADABLE, SDJWT_UNREADABLE, "unreadable 2 short\n", "unreadable 2 short\n"},
    {"{\"payload\":{\"a\":1},\"hide\":[\"/a\",\"/b\"]}", "ES256", 32, 1,
     SDJWT_REFUSED, SDJWT_REFUSED, "refused 55 noSuchPlace at 1\n", "refused 55 noSuchPlace at 1\n"},
    {"{\"payload\":1}", "ES256", 32, 1, SDJWT_REFUSED, SDJWT_REFUSED, "refused 51 payloadNotObject\n", "refused 51 payloadNotObject\n"},
    {HIDING, "ES256", 32, 0, SDJWT_DONE, SDJWT_USAGE, SIGNED, ""},
    {HIDING, "ES256", 32, TOO_LONG, SDJWT_DONE, SDJWT_REFUSED, SIGNED, "refused 61 issueTooLong\n"},
    {HIDING, "", 32, 1, SDJWT_USAGE, SDJWT_USAGE, "", ""},
    {HIDING, "none", 32, 1, SDJWT_USAGE, SDJWT_USAGE, "", ""},
    {HIDING, "ES\xff", 32, 1, SDJWT_USAGE, SDJWT_USAGE, "", ""},
    {"{", "none", 0, 0, SDJWT_USAGE, SDJWT_USAGE, "", ""},
};

/* Each signing with a room that just fits, one that is larger and those that are too small. Seed and signature are zeros. */
static void signing(void) {
    uint8_t *zeros = room_of(TOO_LONG), out[512];
    memset(zeros, 0, TOO_LONG);
    for (size_t i = 0; i < sizeof signings / sizeof *signings; i++) {
        const uint8_t *order = (const uint8_t *)signings[i].order, *alg = (const uint8_t *)signings[i].alg;
        size_t order_len = strlen(signings[i].order), alg_len = strlen(signings[i].alg), seed_len = signings[i].seed_len;
        int calls = signings[i].signature_len == TOO_LONG ? 2 : 8;
        for (int which = 0; which < calls; which++) {
            const char *text = which % 2 ? signings[i].token : signings[i].text;
            size_t due = strlen(text), sizes[] = {due, due + BEHIND, due ? due - 1 : 0, 0}, room = sizes[which / 2], len = 12345;
            memset(out, FILL, sizeof out);
            sdjwt_status status = which % 2
                ? sdjwt_issue_sign(order, order_len, alg, alg_len, zeros, seed_len, zeros, signings[i].signature_len, out, room, &len)
                : sdjwt_issue_ask(order, order_len, alg, alg_len, zeros, seed_len, out, room, &len);
            CHECK(len == due, text);
            if (room < due) CHECK(status == SDJWT_UNWRITTEN && is_filled(out, 0, sizeof out), text);
            else CHECK(status == (which % 2 ? signings[i].signs : signings[i].asked), text);
            if (room >= due) CHECK(memcmp(out, text, due) == 0 && is_filled(out, due, sizeof out), text);
        }
    }
    free(zeros);
}

/* What is said of a present order without keys, over a token of ES256: the next step, and what is presented with a signature of zeros. */
#define HELD "eyJhbGciOiJFUzI1NiJ9.eyJhIjoxfQ.AA~"
#define ASKED "{\"alg\":\"ES256\",\"ask\":\"issuer\",\"signature\":\"AA\",\"text\":\"eyJhbGciOiJFUzI1NiJ9.eyJhIjoxfQ\"}\n"
#define BINDING "eyJhbGciOiJFUzI1NiIsInR5cCI6ImtiK2p3dCJ9." \
    "eyJhdWQiOiJhIiwiaWF0Ijo3LCJub25jZSI6Im4iLCJzZF9oYXNoIjoiZFFJdmxsM19PQXpmeWJkbmEzLUd1ZWQzbWFGbW9KaGh5YWRRYjFzTUdxSSJ9"
#define WISH "{\"algs\":[\"ES256\"],\"binding\":{\"alg\":\"ES256\",\"aud\":\"a\",\"nonce\":\"n\"}}"
#define UNBOUND "{\"algs\":[\"ES256\"],\"want\":[\"/a\"]}"
#define PRESENTS(word) "{\"algs\":[\"ES256\"]," word "}"
#define OF_SHARED "eyJhbGciOiJIUzI1NiJ9.eyJhIjoxfQ.AA~"
static const struct { const char *order, *token; uint8_t said; size_t signature_len; sdjwt_status asked, signs; const char *text, *shown; } presentings[] = {
    {WISH, HELD, SDJWT_UNSAID, 1, SDJWT_ASKS, SDJWT_USAGE, ASKED, ""},
    {WISH, HELD, SDJWT_GOOD, 1, SDJWT_TO_SIGN, SDJWT_DONE, BINDING, HELD BINDING ".AA\n"},
    {WISH, HELD, SDJWT_GOOD, 2, SDJWT_TO_SIGN, SDJWT_DONE, BINDING, HELD BINDING ".AAA\n"},
    {WISH, HELD, SDJWT_GOOD, 0, SDJWT_TO_SIGN, SDJWT_USAGE, BINDING, ""},
    {WISH, HELD, SDJWT_GOOD, TOO_LONG, SDJWT_TO_SIGN, SDJWT_REFUSED, BINDING, "refused 75 presentTooLong\n"},
    {WISH, HELD, SDJWT_BAD, 1, SDJWT_REFUSED, SDJWT_REFUSED, "refused 10 badSignature\n", "refused 10 badSignature\n"},
    {WISH, HELD, SDJWT_UNKNOWN, 1, SDJWT_REFUSED, SDJWT_REFUSED, "refused 9 issuerKeyUnknown\n", "refused 9 issuerKeyUnknown\n"},
    {WISH, HELD, 4, 1, SDJWT_USAGE, SDJWT_USAGE, "", ""},
    {"{", "", 255, 0, SDJWT_USAGE, SDJWT_USAGE, "", ""},
    {UNBOUND, HELD, SDJWT_GOOD, 1, SDJWT_DONE, SDJWT_DONE, HELD "\n", HELD "\n"},
    {UNBOUND, HELD, SDJWT_UNSAID, 1, SDJWT_ASKS, SDJWT_USAGE, ASKED, ""},
    {UNBOUND, "", SDJWT_GOOD, 1, SDJWT_REFUSED, SDJWT_REFUSED, "refused 2 form at 0\n", "refused 2 form at 0\n"},
    {"{\"algs\":[\"HS256\"]}", OF_SHARED, SDJWT_UNSAID, 1, SDJWT_ASKS, SDJWT_USAGE, SHARED_QUESTION, ""},
    {"{\"algs\":[\"HS256\"]}", OF_SHARED, SDJWT_GOOD, 1, SDJWT_DONE, SDJWT_DONE, OF_SHARED "\n", OF_SHARED "\n"},
    {UNBOUND, OF_SHARED, SDJWT_GOOD, 1, SDJWT_REFUSED, SDJWT_REFUSED, "refused 7 algRefused\n", "refused 7 algRefused\n"},
    {PRESENTS("\"want\":[\"/b\"]"), HELD, SDJWT_GOOD, 1, SDJWT_REFUSED, SDJWT_REFUSED, "refused 72 wantedNotThere at 0\n", "refused 72 wantedNotThere at 0\n"},
    {PRESENTS("\"keys\":{\"keys\":[]}"), HELD, SDJWT_GOOD, 1, SDJWT_UNREADABLE, SDJWT_UNREADABLE, "unreadable 1 unknown\n", "unreadable 1 unknown\n"},
    {"{\"want\":[]}", HELD, SDJWT_GOOD, 1, SDJWT_UNREADABLE, SDJWT_UNREADABLE, "unreadable 1 missing algs\n", "unreadable 1 missing algs\n"},
    {"{\"algs\":[]}", HELD, SDJWT_GOOD, 1, SDJWT_REFUSED, SDJWT_REFUSED, "refused 7 algRefused\n", "refused 7 algRefused\n"},
    {PRESENTS("\"binding\":{\"alg\":\"none\",\"aud\":\"a\",\"nonce\":\"n\"}"), HELD, SDJWT_GOOD, 1, SDJWT_UNREADABLE, SDJWT_UNREADABLE,
     "unreadable 1 wrong binding\n", "unreadable 1 wrong binding\n"},
    {PRESENTS("\"binding\":{\"alg\":\"\",\"aud\":\"a\",\"nonce\":\"n\"}"), HELD, SDJWT_GOOD, 1, SDJWT_UNREADABLE, SDJWT_UNREADABLE,
     "unreadable 1 wrong binding\n", "unreadable 1 wrong binding\n"},
    {PRESENTS("\"binding\":{\"alg\":\"X\",\"aud\":\"a\",\"nonce\":\"n\",\"kid\":1}"), HELD, SDJWT_GOOD, 1, SDJWT_UNREADABLE, SDJWT_UNREADABLE,
     "unreadable 1 wrong binding\n", "unreadable 1 wrong binding\n"},
    {PRESENTS("\"binding\":{\"alg\":\"X\",\"aud\":\"a\",\"nonce\":\"n\",\"kid\":\"k\"}"), HELD, SDJWT_GOOD, 1, SDJWT_REFUSED, SDJWT_REFUSED,
     "refused 74 bindingKeyDiffers\n", "refused 74 bindingKeyDiffers\n"},
};

/* Each with a room that just fits, one that is larger and those that are too small, at the moment 7. */
static void presenting(void) {
    uint8_t *zeros = room_of(TOO_LONG), out[512];
    memset(zeros, 0, TOO_LONG);
    for (size_t i = 0; i < sizeof presentings / sizeof *presentings; i++) {
        const uint8_t *order = (const uint8_t *)presentings[i].order, *token = (const uint8_t *)presentings[i].token;
        size_t order_len = strlen(presentings[i].order), token_len = strlen(presentings[i].token);
        uint8_t said = presentings[i].said;
        int calls = presentings[i].signature_len == TOO_LONG ? 2 : 8;
        for (int which = 0; which < calls; which++) {
            const char *text = which % 2 ? presentings[i].shown : presentings[i].text;
            size_t due = strlen(text), sizes[] = {due, due + BEHIND, due ? due - 1 : 0, 0}, room = sizes[which / 2], len = 12345;
            memset(out, FILL, sizeof out);
            sdjwt_status status = which % 2
                ? sdjwt_present_sign(order, order_len, token, token_len, 7, said, zeros, presentings[i].signature_len, out, room, &len)
                : sdjwt_present_ask(order, order_len, token, token_len, 7, said, out, room, &len);
            CHECK(len == due, text);
            if (room < due) CHECK(status == SDJWT_UNWRITTEN && is_filled(out, 0, sizeof out), text);
            else CHECK(status == (which % 2 ? presentings[i].signs : presentings[i].asked), text);
            if (room >= due) CHECK(memcmp(out, text, due) == 0 && is_filled(out, due, sizeof out), text);
        }
    }
    free(zeros);
}

/*
 * A presentation that wants the nonce "m" and the moment 0, with claims of the names of a question's members, and the
 * question about its holder's signature.
 */
#define HOLDERS_TEXT "eyJhbGciOiJIUzI1NiIsInR5cCI6ImtiK2p3dCJ9." \
    "eyJhdWQiOiJ2IiwiaWF0IjowLCJub25jZSI6Im0iLCJzZF9oYXNoIjoi" \
    "ZFY0aWVGZTc2OFpKeC00LXNCRTQ4dFJyQjhKTko3S19ET0I5YjFLdENPUSJ9"
#define NAMES_SHOWN "eyJhbGciOiJIUzI1NiJ9.eyJzaWduYXR1cmUiOiJaWiIsInRleHQiOiJubyJ9.AA~" HOLDERS_TEXT ".AA"
#define NAMES_QUESTION "{\"alg\":\"HS256\",\"ask\":\"holder\",\"signature\":\"AA\",\"text\":\"" HOLDERS_TEXT "\"," \
    "\"typ\":\"kb+jwt\",\"payload\":{\"signature\":\"ZZ\",\"text\":\"no\"}}\n"

/* The parts of a question by their names; at a pointer, if it begins with another letter. */
static sdjwt_status take(const char *name, const char *question, size_t question_len, uint8_t *out, size_t room,
                         size_t *len) {
    uint8_t *given = room_of(question_len);
    memcpy(given, question, question_len);
    sdjwt_status status;
    if (strcmp(name, "text") == 0) status = sdjwt_question_text(given, question_len, out, room, len);
    else if (strcmp(name, "signature") == 0) status = sdjwt_question_signature(given, question_len, out, room, len);
    else if (strcmp(name, "alg") == 0) status = sdjwt_question_alg(given, question_len, out, room, len);
    else if (strcmp(name, "kid") == 0) status = sdjwt_question_kid(given, question_len, out, room, len);
    else status = sdjwt_question_at(given, question_len, (const uint8_t *)name, strlen(name), out, room, len);
    free(given);
    return status;
}

#define TEXT(text) (text), sizeof(text) - 1
#define NOT_JSON TEXT("unreadable 1 notJson\n")
static const struct {
    const char *name, *question;
    sdjwt_status status;
    const char *part;
    size_t part_len;
} takings[] = {
    {"text", judged_question, SDJWT_DONE, TEXT("eyJhbGciOiJFUzI1NiJ9.eyJhIjoxfQ")},
    {"signature", judged_question, SDJWT_DONE, TEXT("\0")},
    {"alg", judged_question, SDJWT_DONE, TEXT("ES256")},
    {"kid", judged_question, SDJWT_MISSING, TEXT("")},
    {"/ask", judged_question, SDJWT_DONE, TEXT("issuer")},
    {"/payload/a", judged_question, SDJWT_MISSING, TEXT("")},
    {"text", NAMES_QUESTION, SDJWT_DONE, TEXT(HOLDERS_TEXT)},
    {"signature", NAMES_QUESTION, SDJWT_DONE, TEXT("\0")},
    {"/payload/signature", NAMES_QUESTION, SDJWT_DONE, TEXT("ZZ")},
    {"/payload/text", NAMES_QUESTION, SDJWT_DONE, TEXT("no")},
    {"/text", NAMES_QUESTION, SDJWT_DONE, TEXT(HOLDERS_TEXT)},
    {"/payload", NAMES_QUESTION, SDJWT_MISSING, TEXT("")},
    {"/payload/", NAMES_QUESTION, SDJWT_MISSING, TEXT("")},
    {"", NAMES_QUESTION, SDJWT_MISSING, TEXT("")},
    {"no pointer", NAMES_QUESTION, SDJWT_MISSING, TEXT("")},
    {"/~", NAMES_QUESTION, SDJWT_MISSING, TEXT("")},
    {"/text\xff", NAMES_QUESTION, SDJWT_USAGE, TEXT("")},
    {"kid", "{\"kid\":\"\"}", SDJWT_DONE, TEXT("")},
    {"kid", "{\"kid\":\"a\\u0000\\\"\\u00e9\"}", SDJWT_DONE, TEXT("a\0\"\xc3\xa9")},
    {"kid", "{\"kid\":1}", SDJWT_MISSING, TEXT("")},
    {"text", "{}", SDJWT_MISSING, TEXT("")},
    {"signature", "{\"signature\":\"\"}", SDJWT_DONE, TEXT("")},
    {"signature", "{\"signature\":\"A\"}", SDJWT_MISSING, TEXT("")},
    {"signature", "{\"signature\":\"AB\"}", SDJWT_MISSING, TEXT("")},
    {"signature", "{\"signature\":\"A=\"}", SDJWT_MISSING, TEXT("")},
    {"signature", "{\"signature\":\"AQ\"}", SDJWT_DONE, TEXT("\1")},
    {"/list/1", "{\"list\":[1,\"b\"]}", SDJWT_DONE, TEXT("b")},
    {"/a~1b/~0", "{\"a/b\":{\"~\":\"c\"}}", SDJWT_DONE, TEXT("c")},
    {"text", "", SDJWT_UNREADABLE, NOT_JSON},
    {"signature", "{\"text\":\"\xff\"}", SDJWT_UNREADABLE, NOT_JSON},
    {"alg", "[\"alg\"]", SDJWT_UNREADABLE, TEXT("unreadable 1 notObject\n")},
    {"kid", "{\"payload\":1.5}", SDJWT_UNREADABLE, TEXT("unreadable 1 notWhole\n")},
    {"/text", "notAsked\n", SDJWT_UNREADABLE, NOT_JSON},
};

/* Each part with a room that just fits, one that is larger and those that are too small. */
static void taking(void) {
    for (size_t i = 0; i < sizeof takings / sizeof *takings; i++) {
        const char *question = takings[i].question, *part = takings[i].part;
        size_t due = takings[i].part_len, sizes[] = {due, due + BEHIND, due ? due - 1 : 0, 0};
        for (int which = 0; which < 4; which++) {
            size_t room = sizes[which], len = 12345;
            uint8_t *out = room_of(room);
            memset(out, FILL, room);
            sdjwt_status status = take(takings[i].name, question, strlen(question), out, room, &len);
            CHECK(len == due, question);
            if (room < due) CHECK(status == SDJWT_UNWRITTEN && is_filled(out, 0, room), question);
            else CHECK(status == takings[i].status, question);
            if (room >= due) CHECK(memcmp(out, part, due) == 0 && is_filled(out, due, room), question);
            free(out);
        }
    }
}

/* A question that is cut anywhere is none, unless only its line end is cut off. */
static void cutting(void) {
    static const char *const names[] = {"text", "signature", "alg", "kid", "/payload/text"};
    uint8_t out[512];
    size_t whole = strlen(NAMES_QUESTION), len;
    for (size_t cut = 0; cut < whole; cut++)
        for (size_t i = 0; i < sizeof names / sizeof *names; i++) {
            sdjwt_status status = take(names[i], NAMES_QUESTION, cut, out, sizeof out, &len);
            if (cut + 1 == whole) CHECK(status == (i == 3 ? SDJWT_MISSING : SDJWT_DONE), "without its line end");
            else CHECK(status == SDJWT_UNREADABLE && len == strlen("unreadable 1 notJson\n"), "a question that is cut");
        }
}

/* What is told of the presentation that wants the nonce "m". */
static void told_by(sdjwt_policy *handle, sdjwt_status due, const char *text) {
    uint8_t out[512];
    size_t len;
    sdjwt_status status = sdjwt_policy_judge(handle, (const uint8_t *)"", 0, (const uint8_t *)NAMES_SHOWN,
                                             strlen(NAMES_SHOWN), 0, SDJWT_GOOD, SDJWT_GOOD, out, sizeof out, &len);
    CHECK(status == due && len == strlen(text) && memcmp(out, text, len) == 0, text);
}

static sdjwt_status set_nonce(sdjwt_policy *handle, const char *nonce, size_t nonce_len) {
    uint8_t *given = room_of(nonce_len);
    memcpy(given, nonce, nonce_len);
    sdjwt_status status = sdjwt_policy_nonce(handle, given, nonce_len);
    free(given);
    return status;
}

static void *set_there(void *handle) {
    CHECK(set_nonce(handle, "m", 1) == SDJWT_DONE, "on another thread");
    return NULL;
}

/* A nonce counts for the calls that follow, and one that is not taken leaves the one before. */
static void nonces(void) {
    static const char claims[] = "{\"signature\":\"ZZ\",\"text\":\"no\"}\n", differs[] = "refused 35 nonceDiffers\n";
    sdjwt_policy handle = SDJWT_POLICY_INIT, none = SDJWT_POLICY_INIT, unbound = SDJWT_POLICY_INIT;
    char long_nonce[257];
    uint8_t out[512];
    size_t len;
    pthread_t thread;
    memset(long_nonce, 'm', sizeof long_nonce);
    CHECK(sdjwt_policy_new(&handle, (const uint8_t *)DOOR(""), strlen(DOOR("")), out, 0, &len) == SDJWT_DONE,
          "a policy");
    CHECK(sdjwt_policy_new(&unbound, (const uint8_t *)judged_policy, strlen(judged_policy), out, 0, &len) == SDJWT_DONE,
          "one without a binding");
    CHECK(set_nonce(&none, "m", 1) == SDJWT_USAGE && none.held == NULL, "no policy");
    void *held = unbound.held;
    CHECK(set_nonce(&unbound, "m", 1) == SDJWT_USAGE && unbound.held == held, "no binding");
    CHECK(set_nonce(&unbound, long_nonce, 257) == SDJWT_USAGE && unbound.held == held, "no binding, and too long");
    CHECK(sdjwt_policy_judge(&handle, (const uint8_t *)"", 0, (const uint8_t *)NAMES_SHOWN, strlen(NAMES_SHOWN), 0,
                             SDJWT_GOOD, SDJWT_UNSAID, out, sizeof out, &len) == SDJWT_ASKS, "a question");
    CHECK(len == strlen(NAMES_QUESTION) && memcmp(out, NAMES_QUESTION, len) == 0, "the payload stands at its end");
    told_by(&handle, SDJWT_REFUSED, differs);
    CHECK(set_nonce(&handle, "m", 1) == SDJWT_DONE, "a nonce");
    told_by(&handle, SDJWT_DONE, claims);
    CHECK(set_nonce(&handle, long_nonce, 257) == SDJWT_USAGE, "too long");
    told_by(&handle, SDJWT_DONE, claims);
    CHECK(set_nonce(&handle, "m\xff", 2) == SDJWT_USAGE && set_nonce(&handle, "\xc3", 1) == SDJWT_USAGE, "no UTF-8");
    told_by(&handle, SDJWT_DONE, claims);
    CHECK(set_nonce(&handle, long_nonce, 256) == SDJWT_DONE, "as long as may be");
    told_by(&handle, SDJWT_REFUSED, differs);
    CHECK(set_nonce(&handle, "", 0) == SDJWT_DONE, "of no bytes");
    told_by(&handle, SDJWT_REFUSED, differs);
    CHECK(set_nonce(&handle, "m\0", 2) == SDJWT_DONE, "with a zero byte");
    told_by(&handle, SDJWT_REFUSED, differs);
    CHECK(pthread_create(&thread, NULL, set_there, &handle) == 0 && pthread_join(thread, NULL) == 0, "a thread");
    told_by(&handle, SDJWT_DONE, claims);
    sdjwt_policy_free(&handle);
    CHECK(set_nonce(&handle, "m", 1) == SDJWT_USAGE && handle.held == NULL, "it was freed");
    sdjwt_policy_free(&unbound);
    sdjwt_policy_free(NULL);
}

/* A handle that another thread made is used here, and freed. */
static void *take_over(void *handle) {
    uint8_t line[128];
    size_t len;
    CHECK(sdjwt_policy_verify(handle, (const uint8_t *)"", 0, 0, line, sizeof line, &len) == SDJWT_REFUSED, "of another thread");
    sdjwt_policy_free(handle);
    return NULL;
}

static void hand_over(const struct text policy) {
    sdjwt_policy handle = SDJWT_POLICY_INIT;
    uint8_t line[1];
    size_t len;
    pthread_t thread;
    CHECK(sdjwt_policy_new(&handle, policy.bytes, policy.len, line, 0, &len) == SDJWT_DONE, "a policy");
    CHECK(pthread_create(&thread, NULL, take_over, &handle) == 0 && pthread_join(thread, NULL) == 0, "a thread");
    CHECK(handle.held == NULL, "it was freed");
}

static const uint8_t *next;

static uint64_t number(void) {
    uint64_t value = 0;
    for (int i = 7; i >= 0; i--) value = value << 8 | next[i];
    next += 8;
    return value;
}

/* A text in memory of its own, so that a read before or behind it is seen. */
static struct text text(void) {
    struct text read;
    read.len = number();
    uint8_t *bytes = room_of(read.len);
    memcpy(bytes, next, read.len);
    read.bytes = bytes;
    next += read.len;
    return read;
}

static void read_vectors(const char *name) {
    FILE *file = fopen(name, "rb");
    CHECK(file != NULL, name);
    CHECK(fseek(file, 0, SEEK_END) == 0, name);
    size_t size = (size_t)ftell(file);
    rewind(file);
    uint8_t *content = room_of(size);
    CHECK(fread(content, 1, size, file) == size, name);
    fclose(file);
    next = content;
    vector_count = number();
    vectors = calloc(vector_count, sizeof *vectors);
    CHECK(vectors != NULL, name);
    for (size_t i = 0; i < vector_count; i++) {
        struct vector *vector = &vectors[i];
        vector->name = text();
        vector->file_count = number();
        CHECK(vector->file_count <= FILES, "room for the files");
        for (uint64_t j = 0; j < vector->file_count; j++) vector->files[j] = text();
        vector->run_count = number();
        CHECK(vector->run_count <= RUNS, "room for the runs");
        for (uint64_t j = 0; j < vector->run_count; j++) {
            struct run *run = &vector->runs[j];
            run->command = number();
            run->form = number();
            run->count = number();
            CHECK(0 < run->count && run->count <= READ, "room for what a run reads");
            for (uint64_t k = 0; k < run->count; k++) run->read[k] = number();
            run->kept = number();
            run->now = number();
        }
        vector->status = number();
        vector->due = number();
        vector->written = text();
    }
    CHECK(next == content + size, "the whole file");
    free(content);
}

static void free_vectors(void) {
    for (size_t i = 0; i < vector_count; i++) {
        struct vector *vector = &vectors[i];
        free((void *)vector->name.bytes);
        free((void *)vector->written.bytes);
        for (uint64_t j = 0; j < vector->file_count; j++) free((void *)vector->files[j].bytes);
    }
    free(vectors);
}

/* The first vector of one run that verifies with this status. */
static const struct vector *verifying(uint64_t status) {
    for (size_t i = 0; i < vector_count; i++)
        if (vectors[i].run_count == 1 && vectors[i].runs[0].command == VERIFY && vectors[i].status == status) return &vectors[i];
    CHECK(0, "a vector that verifies");
    return NULL;
}

int main(int count, char **words) {
    CHECK(count >= 2, "usage: calls VECTORS [THREADS [small]]");
    size_t threads = count > 2 ? strtoul(words[2], NULL, 10) : 8;
    CHECK(sdjwt_abi_version() == SDJWT_ABI_VERSION, "the version of what is exported");
    CHECK(strcmp(sdjwt_version(), VERSION) == 0, "the version");
    CHECK(sdjwt_is_proved() == PROVED, "whether it is proved");
    CHECK(sizeof(sdjwt_policy) == sizeof(void *), "a handle is one pointer");
    read_vectors(words[1]);
    empty_inputs();
    rules_of_lengths();
    judging();
    listing();
    signing();
    presenting();
    taking();
    cutting();
    nonces();
    for (int refused = 0; refused < 2; refused++) {
        const struct vector *vector = verifying(refused ? SDJWT_REFUSED : SDJWT_DONE);
        const struct run *run = &vector->runs[0];
        rules_of_handles(vector->files[run->read[0]], vector->files[run->read[1]], run->now);
        hand_over(vector->files[run->read[0]]);
    }
    size_t none = 0;
    run_vectors(&none);
    pthread_t running[64];
    size_t firsts[64];
    pthread_attr_t attributes;
    CHECK(threads <= 64, "64 threads at most");
    CHECK(pthread_attr_init(&attributes) == 0, "attributes");
    if (count > 3) CHECK(pthread_attr_setstacksize(&attributes, SDJWT_STACK + OWN_STACK) == 0, "a small stack");
    for (size_t i = 0; i < threads; i++) {
        firsts[i] = i * vector_count / (threads + 1);
        CHECK(pthread_create(&running[i], &attributes, run_vectors, &firsts[i]) == 0, "a thread");
    }
    for (size_t i = 0; i < threads; i++) CHECK(pthread_join(running[i], NULL) == 0, "its end");
    pthread_attr_destroy(&attributes);
    printf("%zu vectors, then on %zu threads\n", vector_count, threads);
    free_vectors();
    return 0;
}
