/*
 * Fuzzes one call of the C library, by libFuzzer: c/fuzz/run.sh builds it and tells how.
 *
 * The environment's SDJWT_FUZZ names the call: verify, judge, present, issue, ask, sign, step, sent, show, split,
 * convert, audit, wallet, policy, nonce or part. An input is the files of the call, with a zero byte between two: what
 * stands for its order, policy or query, then its tokens; for ask and sign the name of the algorithm, the seed and the
 * signature; for judge the algorithms, the token and two words on signatures, for step one word, which are lengths; for
 * sent the holder's signature; for nonce the policy, the token and the nonce; for part the question, a pointer, and
 * which part it is, which is a length. Each comes to the call in memory of its own and of just its length. What the
 * header promises of an answer is checked: its status, its length, the bytes behind it, and that a call with just as
 * much room answers the same. A call may take a second of the processor, and at one time 64 MiB of memory. Two calls
 * take more, by which c/fuzz/run.sh sees that this is told: slow and large.
 */
/* for the clock of a thread */
#define _POSIX_C_SOURCE 200809L
#include "sdjwt.h"

#include <sanitizer/allocator_interface.h>
#include <stdio.h>
#include <stdlib.h>
#include <string.h>
#include <time.h>

enum { PARTS = 1 + SDJWT_TOKENS, SPARE = 64, NOW = 1800000000 };
static const double MOST_SECONDS = 1;
static const size_t MOST_MEMORY = 64 << 20;

typedef struct {
    uint8_t *bytes;
    size_t len;
} text;

typedef struct {
    text parts[PARTS];
    size_t count;
} input;

typedef sdjwt_status call(const input *given, uint8_t *out, size_t room, size_t *len);

static void check(int holds, const char *what) {
    if (!holds) {
        fprintf(stderr, "fuzz.c: %s\n", what);
        abort();
    }
}

/* What is answered by a handle, and without one. */
static void check_same(sdjwt_status status, const uint8_t *out, size_t len, sdjwt_status other_status, const uint8_t *other,
                       size_t other_len) {
    check(status == other_status && len == other_len, "a handle has another verdict");
    check(status == SDJWT_UNWRITTEN || memcmp(out, other, len) == 0, "a handle has another answer");
}

/* A part of the input, or one of no bytes where there is none. */
static text part(const input *given, size_t number) {
    static uint8_t nothing[1];
    text none = {nothing, 0};
    return number < given->count ? given->parts[number] : none;
}

static sdjwt_status call_verify(const input *given, uint8_t *out, size_t room, size_t *len) {
    text policy = part(given, 0), token = part(given, 1);
    return sdjwt_verify(policy.bytes, policy.len, token.bytes, token.len, NOW, out, room, len);
}

/* A word on a signature is the length of a file. By a handle the verdict has to be the same. */
static sdjwt_status call_judge(const input *given, uint8_t *out, size_t room, size_t *len) {
    text policy = part(given, 0), algs = part(given, 1), token = part(given, 2);
    uint8_t issuer = (uint8_t)part(given, 3).len, holder = (uint8_t)part(given, 4).len;
    sdjwt_status status = sdjwt_judge(policy.bytes, policy.len, algs.bytes, algs.len, token.bytes, token.len, NOW, issuer,
                                      holder, out, room, len);
    sdjwt_policy handle = SDJWT_POLICY_INIT;
    size_t other_len = 0;
    uint8_t *other = malloc(room + 1);
    if (sdjwt_policy_new(&handle, policy.bytes, policy.len, other, room, &other_len) == SDJWT_DONE) {
        sdjwt_status other_status = sdjwt_policy_judge(&handle, algs.bytes, algs.len, token.bytes, token.len, NOW, issuer,
                                                       holder, other, room, &other_len);
        check_same(status, out, *len, other_status, other, other_len);
    }
    sdjwt_policy_free(&handle);
    free(other);
    return status;
}

static sdjwt_status call_present(const input *given, uint8_t *out, size_t room, size_t *len) {
    text order = part(given, 0), token = part(given, 1);
    return sdjwt_present(order.bytes, order.len, token.bytes, token.len, NOW, out, room, len);
}

static sdjwt_status call_issue(const input *given, uint8_t *out, size_t room, size_t *len) {
    text order = part(given, 0), seed = part(given, 1);
    return sdjwt_issue(order.bytes, order.len, seed.bytes, seed.len, out, room, len);
}

static sdjwt_status call_ask(const input *given, uint8_t *out, size_t room, size_t *len) {
    text order = part(given, 0), alg = part(given, 1), seed = part(given, 2);
    return sdjwt_issue_ask(order.bytes, order.len, alg.bytes, alg.len, seed.bytes, seed.len, out, room, len);
}

static sdjwt_status call_sign(const input *given, uint8_t *out, size_t room, size_t *len) {
    text order = part(given, 0), alg = part(given, 1), seed = part(given, 2), made = part(given, 3);
    return sdjwt_issue_sign(order.bytes, order.len, alg.bytes, alg.len, seed.bytes, seed.len, made.bytes, made.len, out, room,
                            len);
}

static sdjwt_status call_step(const input *given, uint8_t *out, size_t room, size_t *len) {
    text order = part(given, 0), token = part(given, 1);
    return sdjwt_present_ask(order.bytes, order.len, token.bytes, token.len, NOW, (uint8_t)part(given, 2).len, out, room, len);
}

static sdjwt_status call_sent(const input *given, uint8_t *out, size_t room, size_t *len) {
    text order = part(given, 0), token = part(given, 1), made = part(given, 2);
    return sdjwt_present_sign(order.bytes, order.len, token.bytes, token.len, NOW, SDJWT_GOOD, made.bytes, made.len, out, room,
                              len);
}

static sdjwt_status call_show(const input *given, uint8_t *out, size_t room, size_t *len) {
    text token = part(given, 0);
    return sdjwt_show(token.bytes, token.len, out, room, len);
}

static sdjwt_status call_split(const input *given, uint8_t *out, size_t room, size_t *len) {
    text token = part(given, 0);
    return sdjwt_split(token.bytes, token.len, out, room, len);
}

/* The form is the length of a second file. */
static sdjwt_status call_convert(const input *given, uint8_t *out, size_t room, size_t *len) {
    text token = part(given, 0);
    return sdjwt_convert((uint8_t)part(given, 1).len, token.bytes, token.len, out, room, len);
}

static sdjwt_status call_audit(const input *given, uint8_t *out, size_t room, size_t *len) {
    text order = part(given, 0), token = part(given, 1);
    return sdjwt_audit(order.bytes, order.len, token.bytes, token.len, out, room, len);
}

static sdjwt_status call_wallet(const input *given, uint8_t *out, size_t room, size_t *len) {
    text query = part(given, 0);
    size_t lengths[SDJWT_TOKENS], total = 0, count = given->count - 1;
    for (size_t i = 0; i < count; i++) {
        lengths[i] = given->parts[i + 1].len;
        total += lengths[i];
    }
    uint8_t *tokens = malloc(total + 1), *end = tokens;
    for (size_t i = 0; i < count; i++) {
        memcpy(end, given->parts[i + 1].bytes, lengths[i]);
        end += lengths[i];
    }
    sdjwt_status status =
        sdjwt_wallet(query.bytes, query.len, tokens, total, lengths, count, out, room, len);
    check(count != 0 || status == SDJWT_USAGE, "a wallet of no tokens is no misuse");
    free(tokens);
    return status;
}

/* By a handle, which has to say what sdjwt_verify says. */
static sdjwt_status call_policy(const input *given, uint8_t *out, size_t room, size_t *len) {
    text policy = part(given, 0), token = part(given, 1);
    sdjwt_policy handle = SDJWT_POLICY_INIT;
    sdjwt_status status = sdjwt_policy_new(&handle, policy.bytes, policy.len, out, room, len);
    if (status == SDJWT_DONE) {
        status = sdjwt_policy_verify(&handle, token.bytes, token.len, NOW, out, room, len);
        size_t other_len = 0;
        uint8_t *other = malloc(room + 1);
        sdjwt_status other_status = call_verify(given, other, room, &other_len);
        check_same(status, out, *len, other_status, other, other_len);
        free(other);
    }
    sdjwt_policy_free(&handle);
    return status;
}

/* Under a policy whose nonce is set, if it takes one. Under one that takes none, what sdjwt_verify says stays. */
static sdjwt_status call_nonce(const input *given, uint8_t *out, size_t room, size_t *len) {
    text policy = part(given, 0), token = part(given, 1), nonce = part(given, 2);
    sdjwt_policy handle = SDJWT_POLICY_INIT;
    check(sdjwt_policy_nonce(&handle, nonce.bytes, nonce.len) == SDJWT_USAGE, "a nonce of no policy");
    sdjwt_status status = sdjwt_policy_new(&handle, policy.bytes, policy.len, out, room, len);
    if (status == SDJWT_DONE) {
        sdjwt_status set = sdjwt_policy_nonce(&handle, nonce.bytes, nonce.len);
        check(set == SDJWT_DONE || set == SDJWT_USAGE, "there is no such status of a nonce");
        check(set == SDJWT_USAGE || nonce.len <= 256, "a nonce that is too long");
        status = sdjwt_policy_verify(&handle, token.bytes, token.len, NOW, out, room, len);
        size_t other_len = 0;
        uint8_t *other = malloc(room + 1);
        if (set == SDJWT_USAGE) {
            sdjwt_status other_status = call_verify(given, other, room, &other_len);
            check_same(status, out, *len, other_status, other, other_len);
        }
        free(other);
    }
    sdjwt_policy_free(&handle);
    return status;
}

static sdjwt_status call_part(const input *given, uint8_t *out, size_t room, size_t *len) {
    text question = part(given, 0), pointer = part(given, 1);
    switch (part(given, 2).len) {
    case 0: return sdjwt_question_at(question.bytes, question.len, pointer.bytes, pointer.len, out, room, len);
    case 1: return sdjwt_question_text(question.bytes, question.len, out, room, len);
    case 2: return sdjwt_question_signature(question.bytes, question.len, out, room, len);
    case 3: return sdjwt_question_alg(question.bytes, question.len, out, room, len);
    default: return sdjwt_question_kid(question.bytes, question.len, out, room, len);
    }
}

/* The seconds that this thread has had of the processor, so that a busy machine fails no call. */
static double seconds(void) {
    struct timespec used;
    clock_gettime(CLOCK_THREAD_CPUTIME_ID, &used);
    return (double)used.tv_sec + (double)used.tv_nsec / 1e9;
}

/* The bytes that are allocated, and the most since a call began. */
static size_t held, most_held;

static void count_allocated(const volatile void *piece, size_t size) {
    (void)piece;
    held += size;
    if (held > most_held) {
        most_held = held;
    }
}

static void count_freed(const volatile void *piece) {
    held -= piece == NULL ? 0 : __sanitizer_get_allocated_size(piece);
}

static sdjwt_status call_slow(const input *given, uint8_t *out, size_t room, size_t *len) {
    (void)given, (void)out, (void)room, (void)len;
    double began = seconds();
    while (seconds() - began < 1.01 * MOST_SECONDS) {
    }
    return SDJWT_USAGE;
}

/* A piece of memory, which the compiler can't leave out. */
static char *reserved(size_t len) {
    char *volatile made = malloc(len);
    return made;
}

static sdjwt_status call_large(const input *given, uint8_t *out, size_t room, size_t *len) {
    (void)given, (void)out, (void)room, (void)len;
    free(reserved(MOST_MEMORY / 2));
    char *half = reserved(MOST_MEMORY / 2), *other = reserved(MOST_MEMORY / 2 + 1);
    free(half);
    free(other);
    return SDJWT_USAGE;
}

static const struct {
    const char *name;
    call *made;
} calls[] = {
    {"verify", call_verify}, {"judge", call_judge}, {"present", call_present}, {"issue", call_issue}, {"ask", call_ask},
    {"sign", call_sign}, {"step", call_step}, {"sent", call_sent}, {"show", call_show}, {"split", call_split},
    {"convert", call_convert}, {"audit", call_audit}, {"wallet", call_wallet}, {"policy", call_policy},
    {"nonce", call_nonce}, {"part", call_part},
    {"slow", call_slow}, {"large", call_large},
};

static call *chosen;

int LLVMFuzzerInitialize(int *argc, char ***argv);
int LLVMFuzzerTestOneInput(const uint8_t *data, size_t size);

int LLVMFuzzerInitialize(int *argc, char ***argv) {
    (void)argc;
    (void)argv;
    const char *name = getenv("SDJWT_FUZZ");
    for (size_t i = 0; i < sizeof calls / sizeof *calls; i++) {
        if (name != NULL && strcmp(name, calls[i].name) == 0) {
            chosen = calls[i].made;
        }
    }
    check(chosen != NULL, "SDJWT_FUZZ names no call");
    check(__sanitizer_install_malloc_and_free_hooks(count_allocated, count_freed) > 0, "memory can't be counted");
    return 0;
}

/* Whether a text was written: the answer or a line; and where signatures are asked for, a question or what is to be signed. */
static int is_written(sdjwt_status status) {
    return status == SDJWT_DONE || status == SDJWT_REFUSED || status == SDJWT_UNREADABLE ||
           (chosen == call_judge && (status == SDJWT_ASKS || status == SDJWT_NOT_ASKED)) ||
           (chosen == call_step && (status == SDJWT_ASKS || status == SDJWT_TO_SIGN));
}

/* One call with so much room: what is written is a line at the front, and what lies behind it stays. */
static sdjwt_status with_room(const input *given, size_t room, uint8_t **out, size_t *len) {
    *out = malloc(room + SPARE);
    memset(*out, 0xa5, room + SPARE);
    size_t before = most_held = held;
    double began = seconds();
    sdjwt_status status = chosen(given, *out, room, len);
    check(seconds() - began <= MOST_SECONDS, "a call takes more than a second of the processor");
    check(most_held - before <= MOST_MEMORY, "a call takes more than 64 MiB of memory");
    size_t written = 0;
    if (is_written(status)) {
        check(*len <= room, "an answer is longer than its room");
        int is_line = *len == 0 || (*out)[*len - 1] == '\n', is_signed = chosen == call_ask && status == SDJWT_DONE;
        check((chosen == call_part && status == SDJWT_DONE) || is_line != (is_signed || status == SDJWT_TO_SIGN),
              "an answer does not end its line, or a text has an end");
        written = *len;
    } else if (status == SDJWT_UNWRITTEN) {
        check(*len > room, "an answer that has room is not written");
    } else {
        check(status == SDJWT_USAGE || status == SDJWT_MEMORY || (chosen == call_part && status == SDJWT_MISSING),
              "there is no such status");
        check(*len == 0, "nothing was written, and its length is not 0");
    }
    for (size_t i = written; i < room + SPARE; i++) {
        check((*out)[i] == 0xa5 || chosen == call_policy || chosen == call_nonce,
              "a byte behind the answer is another one");
    }
    return status;
}

int LLVMFuzzerTestOneInput(const uint8_t *data, size_t size) {
    input given = {.count = 0};
    const uint8_t *end = data + size;
    while (given.count < PARTS) {
        const uint8_t *zero = data < end ? memchr(data, 0, (size_t)(end - data)) : NULL;
        size_t len = (size_t)((zero != NULL ? zero : end) - data);
        text one = {malloc(len + (len == 0)), len};
        if (len != 0) {
            memcpy(one.bytes, data, len);
        }
        given.parts[given.count++] = one;
        if (zero == NULL) {
            break;
        }
        data = zero + 1;
    }
    uint8_t *out, *again;
    size_t len, again_len;
    sdjwt_status status = with_room(&given, size / 2, &out, &len);
    sdjwt_status other = with_room(&given, len, &again, &again_len);
    if (status == SDJWT_UNWRITTEN) {
        check(is_written(other), "no answer with enough room");
    } else {
        check(other == status && memcmp(out, again, len) == 0, "the same call has another answer");
    }
    check(again_len == len, "the same call has an answer of another length");
    free(out);
    free(again);
    for (size_t i = 0; i < given.count; i++) {
        free(given.parts[i].bytes);
    }
    return 0;
}
