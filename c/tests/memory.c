/*
 * Refuses each request of the library for memory in turn: memory FOLDER, where FOLDER has the files of examples/walk.
 *
 * It is linked with --wrap for malloc, realloc and free. A call whose request is refused has to answer SDJWT_MEMORY and
 * write nothing, or what it answers else; and after each call just the memory that a handle holds is taken.
 */
#include "sdjwt.h"

#include <stdio.h>
#include <stdlib.h>
#include <string.h>

#define CHECK(so, what)                                                              \
    do {                                                                             \
        if (!(so)) {                                                                 \
            fprintf(stderr, "memory.c:%d: %s: %s\n", __LINE__, (what), #so);         \
            exit(1);                                                                 \
        }                                                                            \
    } while (0)

void *__real_malloc(size_t size);
void *__real_realloc(void *old, size_t size);
void __real_free(void *at);
void *__wrap_malloc(size_t size);
void *__wrap_realloc(void *old, size_t size);
void __wrap_free(void *at);

static unsigned long requests, refused;
static long taken;

static int is_refused(void) { return ++requests == refused; }

void *__wrap_malloc(size_t size) {
    void *at = is_refused() ? NULL : __real_malloc(size);
    if (at != NULL) taken++;
    return at;
}

void *__wrap_realloc(void *old, size_t size) {
    void *at = is_refused() ? NULL : __real_realloc(old, size);
    if (at != NULL && old == NULL) taken++;
    return at;
}

void __wrap_free(void *at) {
    if (at != NULL) taken--;
    __real_free(at);
}

#define ROOM 65536

struct text {
    uint8_t bytes[ROOM];
    size_t len;
};

static struct text order, seed, present, policy, token, shown, question;

static void read_file(const char *folder, const char *name, struct text *into) {
    char path[4096];
    snprintf(path, sizeof path, "%s/%s", folder, name);
    FILE *file = fopen(path, "rb");
    CHECK(file != NULL, path);
    into->len = fread(into->bytes, 1, ROOM, file);
    fclose(file);
}

static sdjwt_policy handle = SDJWT_POLICY_INIT;
#define NOW 1800000000

/* The seat of the one of two tokens that has one and no key binding token: the first is what was shown with such a token. */
static sdjwt_status ask_wallet(struct text *out) {
    static const char query[] = "{\"keys\": {\"keys\": [{\"kty\": \"oct\", \"kid\": \"tickets-1\","
                                " \"k\": \"dGhlIHRpY2tldCBvZmZpY2Uga2V5LCBub3QgeW91cnM\"}]}, \"want\": [\"/seat\"]}";
    static uint8_t tokens[2 * ROOM];
    size_t lengths[] = {shown.len, token.len};
    memcpy(tokens, shown.bytes, shown.len);
    memcpy(tokens + shown.len, token.bytes, token.len);
    return sdjwt_wallet((const uint8_t *)query, strlen(query), tokens, shown.len + token.len, lengths, 2, out->bytes, ROOM, &out->len);
}

/* A token of ES256, and what is said of its signature. */
static sdjwt_status ask_signature(uint8_t said, struct text *out) {
    static const char asking[] = "{\"keys\":{\"keys\":[]},\"algs\":[\"ES256\"]}", asked[] = "eyJhbGciOiJFUzI1NiJ9.eyJhIjoxfQ.AA~";
    return sdjwt_judge((const uint8_t *)asking, strlen(asking), (const uint8_t *)"[\"ES256\"]", 9, (const uint8_t *)asked, strlen(asked),
                       NOW, said, SDJWT_UNSAID, out->bytes, ROOM, &out->len);
}

/* An order without a key: what is to be signed, and the token with the signature of one byte. */
static sdjwt_status ask_for(int is_signed, struct text *out) {
    static const char asked[] = "{\"payload\":{\"a\":1,\"b\":[2,3]},\"hide\":[\"/a\",\"/b/1\"],\"decoys\":[{\"at\":\"\",\"count\":2}],\"kid\":\"k\"}";
    const uint8_t *given = (const uint8_t *)asked, *alg = (const uint8_t *)"ES256";
    if (!is_signed) return sdjwt_issue_ask(given, strlen(asked), alg, 5, seed.bytes, seed.len, out->bytes, ROOM, &out->len);
    return sdjwt_issue_sign(given, strlen(asked), alg, 5, seed.bytes, seed.len, (const uint8_t *)"s", 1, out->bytes, ROOM, &out->len);
}

/* A present order without keys, over a token of ES256: the next step, and what is presented with the signature of one byte. */
static sdjwt_status ask_to_present(int is_signed, uint8_t said, struct text *out) {
    static const char wish[] = "{\"algs\":[\"ES256\"],\"want\":[\"/a\"],\"never\":[\"/b\"],\"binding\":{\"alg\":\"ES256\",\"aud\":\"a\",\"nonce\":\"n\"}}",
                      held[] = "eyJhbGciOiJFUzI1NiJ9.eyJhIjoxfQ.AA~";
    const uint8_t *given = (const uint8_t *)wish, *shows = (const uint8_t *)held;
    if (!is_signed) return sdjwt_present_ask(given, strlen(wish), shows, strlen(held), NOW, said, out->bytes, ROOM, &out->len);
    return sdjwt_present_sign(given, strlen(wish), shows, strlen(held), NOW, said, (const uint8_t *)"s", 1, out->bytes, ROOM, &out->len);
}

/* The calls. Those of a handle stand together, with its policy read first. */
enum {
    ISSUE, PRESENT, VERIFY, REFUSED_VERIFY, SHOW, SPLIT, CONVERT, AUDIT, WALLET,
    POLICY_NEW, POLICY_VERIFY, POLICY_NONCE,
    JUDGE_ASKS, JUDGE, ISSUE_ASK, ISSUE_SIGN, PRESENT_ASKS, PRESENT_ASK, PRESENT_SIGN,
    QUESTION_TEXT, QUESTION_SIGNATURE, QUESTION_ALG, QUESTION_KID, QUESTION_AT, CALLS
};

/* A part of the question that JUDGE_ASKS wrote. */
static sdjwt_status take(int which, struct text *out) {
    static const char place[] = "/a~1b", other[] = "{\"a/b\":\"c\"}";
    const uint8_t *asked = question.bytes;
    switch (which) {
    case QUESTION_TEXT: return sdjwt_question_text(asked, question.len, out->bytes, ROOM, &out->len);
    case QUESTION_SIGNATURE: return sdjwt_question_signature(asked, question.len, out->bytes, ROOM, &out->len);
    case QUESTION_ALG: return sdjwt_question_alg(asked, question.len, out->bytes, ROOM, &out->len);
    case QUESTION_KID: return sdjwt_question_kid(asked, question.len, out->bytes, ROOM, &out->len);
    default:
        return sdjwt_question_at((const uint8_t *)other, strlen(other), (const uint8_t *)place, strlen(place),
                                 out->bytes, ROOM, &out->len);
    }
}

/* It writes no text. */
static sdjwt_status set_nonce(struct text *out) {
    out->len = 0;
    return sdjwt_policy_nonce(&handle, (const uint8_t *)"another", 7);
}

static sdjwt_status call(int which, struct text *out) {
    uint8_t *to = out->bytes;
    size_t *len = &out->len;
    switch (which) {
    case ISSUE: return sdjwt_issue(order.bytes, order.len, seed.bytes, seed.len, to, ROOM, len);
    case PRESENT: return sdjwt_present(present.bytes, present.len, token.bytes, token.len, NOW, to, ROOM, len);
    case VERIFY: return sdjwt_verify(policy.bytes, policy.len, shown.bytes, shown.len, NOW, to, ROOM, len);
    case REFUSED_VERIFY: return sdjwt_verify(policy.bytes, policy.len, token.bytes, token.len, NOW, to, ROOM, len);
    case SHOW: return sdjwt_show(token.bytes, token.len, to, ROOM, len);
    case SPLIT: return sdjwt_split(token.bytes, token.len, to, ROOM, len);
    case CONVERT: return sdjwt_convert(SDJWT_GENERAL, token.bytes, token.len, to, ROOM, len);
    case AUDIT: return sdjwt_audit(order.bytes, order.len, token.bytes, token.len, to, ROOM, len);
    case WALLET: return ask_wallet(out);
    case POLICY_NEW: return sdjwt_policy_new(&handle, policy.bytes, policy.len, to, ROOM, len);
    case POLICY_VERIFY: return sdjwt_policy_verify(&handle, shown.bytes, shown.len, NOW, to, ROOM, len);
    case POLICY_NONCE: return set_nonce(out);
    case JUDGE_ASKS: return ask_signature(SDJWT_UNSAID, out);
    case JUDGE: return ask_signature(SDJWT_GOOD, out);
    case ISSUE_ASK: return ask_for(0, out);
    case ISSUE_SIGN: return ask_for(1, out);
    case PRESENT_ASKS: return ask_to_present(0, SDJWT_UNSAID, out);
    case PRESENT_ASK: return ask_to_present(0, SDJWT_GOOD, out);
    case PRESENT_SIGN: return ask_to_present(1, SDJWT_GOOD, out);
    default: return take(which, out);
    }
}

static sdjwt_status due_of(int which) {
    switch (which) {
    case REFUSED_VERIFY: return SDJWT_REFUSED;
    case JUDGE_ASKS: case PRESENT_ASKS: return SDJWT_ASKS;
    case PRESENT_ASK: return SDJWT_TO_SIGN;
    case QUESTION_KID: return SDJWT_MISSING;
    default: return SDJWT_DONE;
    }
}

int main(int count, char **words) {
    static struct text due, out;
    unsigned long all = 0;
    CHECK(count == 2, "usage: memory FOLDER");
    read_file(words[1], "order.json", &order);
    read_file(words[1], "seed.txt", &seed);
    read_file(words[1], "present.json", &present);
    read_file(words[1], "policy.json", &policy);
    CHECK(call(ISSUE, &token) == SDJWT_DONE && call(PRESENT, &shown) == SDJWT_DONE, "the walk");
    CHECK(call(JUDGE_ASKS, &question) == SDJWT_ASKS, "a question");
    for (int which = 0; which < CALLS; which++) {
        refused = 0;
        sdjwt_status status = call(which, &due);
        CHECK(status == due_of(which), "the call");
        long held = taken;
        CHECK(POLICY_NEW <= which && which <= POLICY_NONCE ? held > 0 : held == 0, "what it keeps");
        for (refused = 1;; refused++) {
            requests = 0;
            memset(out.bytes, 0xA5, ROOM);
            sdjwt_status came = call(which, &out);
            CHECK(taken == held, "memory that is lost");
            if (came == SDJWT_MEMORY) {
                CHECK(out.len == 0, "the length");
                for (size_t i = 0; i < ROOM; i++) CHECK(out.bytes[i] == 0xA5, "nothing is written");
            } else {
                CHECK(came == status && out.len == due.len && memcmp(out.bytes, due.bytes, due.len) == 0, "another answer");
            }
            if (requests < refused) break;
        }
        all += refused - 1;
        if (which == POLICY_NONCE) sdjwt_policy_free(&handle);
    }
    CHECK(taken == 0, "all is freed");
    printf("%lu requests refused\n", all);
    return 0;
}
