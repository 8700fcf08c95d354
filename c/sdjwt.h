/*
 * sdjwt: SD-JWT (RFC 9901) for C, by the proved library.
 *
 * Each function is one command of the program sdjwt, or of sdjwt_tools. It takes the bytes of its files instead of
 * their names. docs/FILES.md documents these files, and docs/REFUSALS.md explains each refusal by its number. The
 * library reads no file, no clock and no environment variable. It keeps nothing between two calls, and writes only to
 * the memory that its parameters point to.
 *
 * THE RESULT is written to your buffer `out`, which has `room` bytes, and its length to `*len`. No zero byte follows
 * it. Each function returns one of these statuses:
 *
 *   SDJWT_DONE        it wrote the whole result, which ends with a line end, except for sdjwt_issue_ask and the
 *                     functions whose names begin with sdjwt_question;
 *   SDJWT_REFUSED     it wrote a line with the reason, for example "refused 10 badSignature\n";
 *   SDJWT_UNREADABLE  it wrote a line that says which of the first two inputs does not have its form, and why, for
 *                     example "unreadable 1 notJson\n";
 *   SDJWT_UNWRITTEN   it wrote nothing, because the buffer is too small. `*len` is the size that it needs: call again
 *                     with a buffer of this size. The inputs together and 256 bytes are nearly always enough;
 *   SDJWT_USAGE       it wrote nothing, because the caller broke a rule of the function. `*len` is 0;
 *   SDJWT_MEMORY      it wrote nothing, because malloc failed. `*len` is 0.
 *
 * Some functions have more statuses: sdjwt_judge and sdjwt_policy_judge have SDJWT_ASKS and SDJWT_NOT_ASKED,
 * sdjwt_present_ask has SDJWT_ASKS and SDJWT_TO_SIGN, and the sdjwt_question functions have SDJWT_MISSING. Whatever the
 * status, the bytes of `out` after the result are unchanged. Read only the first `*len` bytes, and none if nothing was
 * written.
 *
 * POINTERS. No pointer may be null, even if its length is 0, except in sdjwt_policy_free. Pass "" as an empty input,
 * and the address of any byte of yours as an empty buffer. `*len` needs no value before the call. `out` and `len` may
 * not overlap each other, an input or a handle; inputs may overlap each other. A length is at most 2^63 - 1. The
 * library refuses an order, a policy, a query or a token of more than 16 MiB.
 *
 * THREADS. Every function may run on several threads at once, if they share no buffer. Use a handle of a policy in one
 * call at a time: give each thread its own, or protect it with a lock. A handle may move from thread to thread. Do not
 * call a function from a signal handler, or in a forked child of a process that has threads. A call needs up to
 * SDJWT_STACK bytes of stack.
 *
 * MEMORY. Only the contents of a handle outlive a call. The library allocates with malloc, realloc and free of the
 * program, which must be one allocator. It copies keys, and does not wipe the memory that it frees.
 */
#ifndef SDJWT_H
#define SDJWT_H

#include <stddef.h>
#include <stdint.h>

#ifdef __cplusplus
extern "C" {
#endif

#if defined(__GNUC__) || defined(__clang__)
#define SDJWT_CHECKED __attribute__((nonnull, warn_unused_result))
#else
#define SDJWT_CHECKED
#endif

/* The version of this header. A library fits if sdjwt_abi_version() returns the same number. */
#define SDJWT_ABI_VERSION 1

/* Stack that is enough for every call, in bytes. */
#define SDJWT_STACK (1024 * 1024)

/* The statuses. They are the exit statuses of the program sdjwt, which also has 3, for a file that it cannot read. */
#define SDJWT_DONE 0
#define SDJWT_REFUSED 1
#define SDJWT_USAGE 2
#define SDJWT_UNWRITTEN 4
#define SDJWT_MEMORY 5
#define SDJWT_UNREADABLE 6

/* Statuses of some functions only. The program has none of them. */
#define SDJWT_ASKS 7
#define SDJWT_NOT_ASKED 8
#define SDJWT_TO_SIGN 9
#define SDJWT_MISSING 10

/* Your report on a signature, for sdjwt_judge, sdjwt_present_ask and sdjwt_present_sign. */
#define SDJWT_UNSAID 0
#define SDJWT_UNKNOWN 1
#define SDJWT_BAD 2
#define SDJWT_GOOD 3

/* The forms of a token, for sdjwt_convert (RFC 9901 sections 4 and 8). */
#define SDJWT_COMPACT 0
#define SDJWT_FLAT 1
#define SDJWT_GENERAL 2

/* The greatest number of tokens in a call of sdjwt_wallet. */
#define SDJWT_TOKENS 64

/* A status. */
typedef uint8_t sdjwt_status;

/* The version of the exported functions. It changes if a program that was compiled before no longer fits. */
uint32_t sdjwt_abi_version(void);

/* The version of the library, for example "0.3.0". The string ends with a zero byte and stays valid. */
const char *sdjwt_version(void);

/*
 * Returns 1 if the library was built from proved crates, and 0 if it was built without proofs, to try it out. This is a
 * claim of the library itself: use the checksums of a release to see that a library is the one that was built.
 */
int sdjwt_is_proved(void);

/*
 * Issues the token of an order. The seed must have 32 bytes or more: with fewer, the status is SDJWT_UNREADABLE. Only
 * the first 32 are used, so two seeds with the same first 32 bytes give the same salts. Anyone who knows the seed can
 * guess the hidden claims: take it from the system's random numbers, and use it for one token only.
 */
SDJWT_CHECKED sdjwt_status sdjwt_issue(const uint8_t *order, size_t order_len,
                                       const uint8_t *seed, size_t seed_len,
                                       uint8_t *out, size_t room, size_t *len);

/*
 * Writes the bytes to sign for a token whose signature you make with a private key, in OpenSSL or in an HSM. Pass the
 * signature to sdjwt_issue_sign. The library keeps nothing between the two calls and makes the token anew in each: pass
 * the same order, algorithm and seed to both.
 *
 * The order is that of sdjwt_issue without `key` and `alg`; with one of them the line is "unreadable 1 unknown". `alg`
 * is the name of your algorithm, for example "ES256", and becomes the `alg` of the token's header (RFC 7515 section
 * 4.1.1). If it is not UTF-8, is empty, or is "none", the status is SDJWT_USAGE; any other name is accepted. The seed
 * is that of sdjwt_issue: keep it secret, use it for one token only, and pass it to both calls. If it is too short, the
 * line is "unreadable 2 short".
 *
 * The result is the header, a full stop and the payload, with NO line end. Any of the refusals 51 to 60 comes here. 61,
 * about the length of the token, comes from sdjwt_issue_sign.
 *
 * YOU ARE RESPONSIBLE for the signature, which the library cannot check. Sign exactly the `*len` bytes of the result,
 * with the private key of the algorithm that you named. Use this key for no other algorithm, and only for your tokens.
 */
SDJWT_CHECKED sdjwt_status sdjwt_issue_ask(const uint8_t *order, size_t order_len,
                                           const uint8_t *alg, size_t alg_len,
                                           const uint8_t *seed, size_t seed_len,
                                           uint8_t *out, size_t room, size_t *len);

/*
 * Writes the token of the same order, algorithm and seed, with your signature of the bytes that sdjwt_issue_ask wrote.
 * Pass the signature as the bytes that a JWS encodes in base64url: for ES256 the 64 bytes of r and s (RFC 7518 section
 * 3.4), not the DER that OpenSSL writes. If it is empty, the status is SDJWT_USAGE.
 */
SDJWT_CHECKED sdjwt_status sdjwt_issue_sign(const uint8_t *order, size_t order_len,
                                            const uint8_t *alg, size_t alg_len,
                                            const uint8_t *seed, size_t seed_len,
                                            const uint8_t *signature, size_t signature_len,
                                            uint8_t *out, size_t room, size_t *len);

/*
 * Presents the claims of a token that an order requests. `now` is the time in seconds since 1970; a key binding token
 * contains it.
 */
SDJWT_CHECKED sdjwt_status sdjwt_present(const uint8_t *order, size_t order_len,
                                         const uint8_t *token, size_t token_len, uint64_t now,
                                         uint8_t *out, size_t room, size_t *len);

/*
 * Does the next step of presenting a token if you check the issuer's signature and make the holder's: for algorithms
 * whose keys the library does not hold, such as ES256 and EdDSA. Call it with SDJWT_UNSAID, and again with your report
 * if it asks:
 *
 *   SDJWT_ASKS        it wrote the question about the issuer's signature, in the form that sdjwt_judge documents. Get
 *                     the parts that you need with sdjwt_question_text, sdjwt_question_signature and so on;
 *   SDJWT_TO_SIGN     it wrote the bytes to sign for the key binding token that the order requests, with NO line end:
 *                     sign them, and call sdjwt_present_sign. This is not yet a presentation;
 *   SDJWT_DONE        it wrote the presentation, as sdjwt_present does: the order requests no key binding token;
 *   SDJWT_REFUSED     the token is invalid according to your report, or the order requests claims that cannot be shown.
 *
 * `issuer` is your report on the issuer's signature: SDJWT_UNKNOWN (you have no key for it), SDJWT_BAD or SDJWT_GOOD.
 * If it is neither one of these nor SDJWT_UNSAID, the status is SDJWT_USAGE. A report without a question is ignored. No
 * call keeps anything: pass the same order, token and time each time, and your earlier report.
 *
 * The order is that of sdjwt_present without its two keys. Instead of `keys` it must have `algs`, an array of the
 * algorithms that you accept from the issuer, for example "algs": ["ES256"]; "none" and "" are never accepted, even if
 * the array has them. `want` and `never` are unchanged. A `binding` has `aud`, `nonce` and `alg`, the name of the
 * algorithm that you sign with, and no `key`. It may have `kid`: the claim `cnf` of the presentation must then name
 * this key. Without `kid` you must make sure yourself that the key is the one in `cnf`.
 *
 * YOU ARE RESPONSIBLE for your report and your signature. Report SDJWT_GOOD only if you checked `signature` over
 * exactly the bytes of `text`, with the algorithm `alg`, under a key of the issuer that you had before the token came
 * and whose type fits `alg`: never check an HMAC, such as HS256, with a public key. Sign exactly the `*len` bytes of
 * the result, after the user has agreed to the order: anyone who sees the presentation learns the claims in it.
 */
SDJWT_CHECKED sdjwt_status sdjwt_present_ask(const uint8_t *order, size_t order_len,
                                             const uint8_t *token, size_t token_len, uint64_t now,
                                             uint8_t issuer,
                                             uint8_t *out, size_t room, size_t *len);

/*
 * Writes the presentation for the same order, token, time and report, with your signature of the bytes that
 * sdjwt_present_ask wrote. Pass the signature as the bytes that a JWS encodes in base64url: for ES256 the 64 bytes of r
 * and s (RFC 7518 section 3.4). If it is empty, or the report is SDJWT_UNSAID or invalid, the status is SDJWT_USAGE. Of
 * all refusals only 75 depends on the signature: the presentation is too long with it. If the order requests no key
 * binding token, the signature is ignored.
 */
SDJWT_CHECKED sdjwt_status sdjwt_present_sign(const uint8_t *order, size_t order_len,
                                              const uint8_t *token, size_t token_len, uint64_t now,
                                              uint8_t issuer,
                                              const uint8_t *signature, size_t signature_len,
                                              uint8_t *out, size_t room, size_t *len);

/*
 * Verifies a presentation under a policy. `now` is the time in seconds since 1970. The result is the processed payload,
 * as one line of JSON. If you verify many tokens under one policy, sdjwt_policy_verify is faster.
 */
SDJWT_CHECKED sdjwt_status sdjwt_verify(const uint8_t *policy, size_t policy_len,
                                        const uint8_t *token, size_t token_len, uint64_t now,
                                        uint8_t *out, size_t room, size_t *len);

/* Writes the JSON inside a token, one line for each part. It checks nothing: no signature, no digest, no time. */
SDJWT_CHECKED sdjwt_status sdjwt_show(const uint8_t *token, size_t token_len,
                                      uint8_t *out, size_t room, size_t *len);

/* Writes the parts of a token as strings, one a line. It checks nothing. */
SDJWT_CHECKED sdjwt_status sdjwt_split(const uint8_t *token, size_t token_len,
                                       uint8_t *out, size_t room, size_t *len);

/*
 * Writes the token in another form: SDJWT_COMPACT, SDJWT_FLAT or SDJWT_GENERAL. With any other number the status is
 * SDJWT_USAGE. It checks nothing.
 */
SDJWT_CHECKED sdjwt_status sdjwt_convert(uint8_t form, const uint8_t *token, size_t token_len,
                                         uint8_t *out, size_t room, size_t *len);

/*
 * Audits a token for the order that it was issued for, without the seed. If the token is what the order asks for,
 * signed with the order's key, the result is the line "yes". Otherwise the status is SDJWT_REFUSED, and the line names
 * the first difference.
 */
SDJWT_CHECKED sdjwt_status sdjwt_audit(const uint8_t *order, size_t order_len,
                                       const uint8_t *token, size_t token_len,
                                       uint8_t *out, size_t room, size_t *len);

/*
 * Presents, out of several tokens of a holder, the one that matches a query with the fewest disclosures. The tokens are
 * concatenated, and `lengths` is an array of their `count` lengths. `count` is 1 to SDJWT_TOKENS, and the lengths must
 * add up to `tokens_len`; otherwise the status is SDJWT_USAGE. The result has two lines: the number of the token,
 * counted from 0, for example "credential 1\n", and the presentation. If no token matches the query, the status is
 * SDJWT_REFUSED.
 */
SDJWT_CHECKED sdjwt_status sdjwt_wallet(const uint8_t *query, size_t query_len,
                                        const uint8_t *tokens, size_t tokens_len,
                                        const size_t *lengths, size_t count,
                                        uint8_t *out, size_t room, size_t *len);

/*
 * A handle of a policy that is read once. Initialize it with SDJWT_POLICY_INIT, do not use its field, and free it with
 * sdjwt_policy_free. You may move it by copying its bytes, if you use only the copy afterwards.
 */
typedef struct sdjwt_policy {
    void *held;
} sdjwt_policy;

#define SDJWT_POLICY_INIT {NULL}

/*
 * Reads a policy into a handle, and frees the policy that it held before. The result is empty. If the status is not
 * SDJWT_DONE, the handle keeps its earlier policy.
 */
SDJWT_CHECKED sdjwt_status sdjwt_policy_new(sdjwt_policy *handle,
                                            const uint8_t *policy, size_t policy_len,
                                            uint8_t *out, size_t room, size_t *len);

/*
 * Sets the nonce that the policy in a handle requires of a key binding token. It holds for the calls that follow, so
 * that each presentation answers a nonce of its own and the policy is still read once. The rest of the policy is
 * unchanged. This function writes no result and so takes no buffer. If the status is not SDJWT_DONE, the policy is
 * unchanged.
 *
 *   SDJWT_USAGE       the handle holds no policy, its policy has no `binding`, or the nonce is not UTF-8 or is longer
 *                     than 256 bytes;
 *   SDJWT_MEMORY      malloc failed.
 */
SDJWT_CHECKED sdjwt_status sdjwt_policy_nonce(sdjwt_policy *handle, const uint8_t *nonce, size_t nonce_len);

/*
 * Verifies a presentation as sdjwt_verify does, under the policy in a handle. If the handle holds no policy, the status
 * is SDJWT_USAGE.
 */
SDJWT_CHECKED sdjwt_status sdjwt_policy_verify(sdjwt_policy *handle,
                                               const uint8_t *token, size_t token_len, uint64_t now,
                                               uint8_t *out, size_t room, size_t *len);

/*
 * Verifies a presentation as sdjwt_verify does, except that you check its signatures: for algorithms whose keys the
 * library does not hold, such as ES256 and EdDSA. Call it with SDJWT_UNSAID twice, and again with your report each time
 * it asks:
 *
 *   SDJWT_ASKS        it wrote a question, as one line of JSON: an object with the strings `alg`; `ask`, which is
 *                     "issuer" or "holder"; `kid`, if the header has it; `signature`, in base64url without padding;
 *                     `text`, whose bytes are the ones that were signed; `typ`, if the header has it; and, for the
 *                     holder only, the object `payload`, the processed payload, whose claim `cnf` names the key. The
 *                     members are in this order, so that no claim of `payload` precedes the members that you check. Get
 *                     the parts that you need with sdjwt_question_text, sdjwt_question_signature and so on. Nothing is
 *                     accepted yet;
 *   SDJWT_DONE        the token is accepted, and the result is that of sdjwt_verify;
 *   SDJWT_REFUSED     the token is refused, with the line that sdjwt_verify would write under your reports;
 *   SDJWT_NOT_ASKED   it wrote the line "notAsked\n": you reported on a signature without a question. There is no
 *                     verdict.
 *
 * `issuer` and `holder` are your reports on the two signatures: SDJWT_UNKNOWN (you have no key for it), SDJWT_BAD or
 * SDJWT_GOOD. The issuer's comes first. If it is SDJWT_GOOD and the policy has a `binding`, the holder's follows. With
 * any other number, or with a report on the holder if the one on the issuer is not SDJWT_GOOD, the status is
 * SDJWT_USAGE. No call keeps anything: pass the same policy, algorithms, token and time each time.
 *
 * The policy is that of sdjwt_verify, but its keys and those of its `binding` are not used. Its `algs` are the
 * algorithms that you accept from the issuer. The parameter `algs` is a JSON array of those that you accept from the
 * holder, for example "[\"ES256\"]"; if it is empty, the policy's `algs` apply. If it is not an array of strings, the
 * line is "unreadable 2 wrong algs\n". "none" and "" are never accepted, even if an array has them.
 *
 * YOU ARE RESPONSIBLE for your reports. Report SDJWT_GOOD only if you checked `signature` over exactly the bytes of
 * `text`, with the algorithm `alg`, under a key that you trust and that is for this algorithm: for the issuer a key
 * that you had before the token came, and for the holder the key of `cnf` in `payload` of the question. Use no key from
 * a header.
 *
 * SELECT THE KEY BY `alg` AND BY ITS TYPE. If a list names an HMAC, such as HS256, you are asked about it too, and a
 * policy without `algs` lists HS256. Check an HMAC only with a key that was made for HMAC: never with the bytes of a
 * public key, which everybody has (RFC 8725 section 3.1), and never with a secret that is in the token. If all your
 * keys are public, list no HMAC.
 */
SDJWT_CHECKED sdjwt_status sdjwt_judge(const uint8_t *policy, size_t policy_len,
                                       const uint8_t *algs, size_t algs_len,
                                       const uint8_t *token, size_t token_len, uint64_t now,
                                       uint8_t issuer, uint8_t holder,
                                       uint8_t *out, size_t room, size_t *len);

/* Does the same under the policy in a handle. If the handle holds no policy, the status is SDJWT_USAGE. */
SDJWT_CHECKED sdjwt_status sdjwt_policy_judge(sdjwt_policy *handle,
                                              const uint8_t *algs, size_t algs_len,
                                              const uint8_t *token, size_t token_len, uint64_t now,
                                              uint8_t issuer, uint8_t holder,
                                              uint8_t *out, size_t room, size_t *len);

/*
 * These functions write one part of a question, so that you need no JSON parser. A question is the `*len` bytes that
 * came with SDJWT_ASKS. The part has no line end:
 *
 *   sdjwt_question_text       the signed bytes: check the signature over exactly these;
 *   sdjwt_question_signature  the signature, decoded from base64url: for ES256 the 64 bytes of r and s (RFC 7518
 *                             section 3.4), not the DER that OpenSSL reads;
 *   sdjwt_question_alg        the algorithm that the header names;
 *   sdjwt_question_kid        the name of the key, if the header has one;
 *   sdjwt_question_at         the string at a JSON Pointer (RFC 6901) into the question, for example
 *                             "/payload/cnf/jwk/x", the member `x` of the holder's key.
 *
 *   SDJWT_DONE        it wrote the part;
 *   SDJWT_MISSING     it wrote nothing: the question has no such string. `*len` is 0;
 *   SDJWT_UNREADABLE  it wrote a line: the bytes are not a question, for example "unreadable 1 notJson\n";
 *   SDJWT_UNWRITTEN and SDJWT_MEMORY, as in every function;
 *   SDJWT_USAGE       from sdjwt_question_at only: the pointer is not UTF-8.
 *
 * A string is written in UTF-8, without the quotes and escapes of JSON. Its value is chosen by the maker of the token
 * and may contain zero bytes: compare it together with its length.
 */
SDJWT_CHECKED sdjwt_status sdjwt_question_text(const uint8_t *question, size_t question_len,
                                               uint8_t *out, size_t room, size_t *len);
SDJWT_CHECKED sdjwt_status sdjwt_question_signature(const uint8_t *question, size_t question_len,
                                                    uint8_t *out, size_t room, size_t *len);
SDJWT_CHECKED sdjwt_status sdjwt_question_alg(const uint8_t *question, size_t question_len,
                                              uint8_t *out, size_t room, size_t *len);
SDJWT_CHECKED sdjwt_status sdjwt_question_kid(const uint8_t *question, size_t question_len,
                                              uint8_t *out, size_t room, size_t *len);
SDJWT_CHECKED sdjwt_status sdjwt_question_at(const uint8_t *question, size_t question_len,
                                             const uint8_t *pointer, size_t pointer_len,
                                             uint8_t *out, size_t room, size_t *len);

/*
 * Frees the policy of a handle, which is then empty: freeing it again does nothing, and neither does
 * sdjwt_policy_free(NULL).
 */
void sdjwt_policy_free(sdjwt_policy *handle);

#ifdef __cplusplus
}
#endif

#endif
