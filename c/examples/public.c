/*
 * Verifies the token on standard input by keys of P-256, with the signatures checked by OpenSSL 3 (ES256):
 *
 *     cc public.c $(pkg-config --cflags --libs sdjwt) -lcrypto -o public
 *     ./public 1748537244 < ../../vectors/rfc9901/presented.txt
 *
 * The number is the moment of the presentation. Without it the clock says the moment, and the token is refused as
 * stale.
 */
#include <openssl/core_names.h>
#include <openssl/ecdsa.h>
#include <openssl/evp.h>
#include <sdjwt.h>
#include <stdio.h>
#include <stdlib.h>
#include <string.h>
#include <time.h>

/* What this door takes: ES256 of the issuer and of the holder. The key sets of a policy are not looked at here. */
static const char policy[] =
    "{\"version\": 2, \"keys\": {\"keys\": []}, \"algs\": [\"ES256\"], \"typ\": \"example+sd-jwt\","
    " \"binding\": {\"aud\": [\"https://verifier.example.org\"], \"nonce\": \"1234567890\", \"max_age\": 300,"
    " \"keys\": {\"keys\": []}}}";

/* The public key of the issuer, that of RFC 9901: the members x and y of its JWK. */
static const char *const issuer[] = {"b28d4MwZMjw8-00CG4xfnn9SLMVMM19SlqZpVb_uNtQ",
                                     "Xv5zWwuoaTgdS6hV43yI6gBwTnjukmFQQnJ_kCxzqk8"};

static uint8_t out[262144];
static size_t len;

/* Whether letters are the base64url of 32 bytes. */
static int decode(const char *letters, size_t count, uint8_t *bytes) {
    static const char alphabet[] = "ABCDEFGHIJKLMNOPQRSTUVWXYZabcdefghijklmnopqrstuvwxyz0123456789-_";
    uint32_t bits = 0;
    size_t done = 0;
    int held = 0;
    if (count != 43) return 0;
    for (size_t i = 0; i < count; i++) {
        const char *letter = memchr(alphabet, letters[i], 64);
        if (letter == NULL) return 0;
        bits = (bits << 6 | (uint32_t)(letter - alphabet)) & 0xFFF;
        held += 6;
        if (held < 8) continue;
        held -= 8;
        bytes[done++] = (uint8_t)(bits >> held);
    }
    return 1;
}

/* The string at a place of the question: its length, or 0 if there is none, or a longer one. */
static size_t string_at(const char *place, char *string, size_t room) {
    size_t string_len;
    sdjwt_status status = sdjwt_question_at(out, len, (const uint8_t *)place, strlen(place), (uint8_t *)string, room,
                                            &string_len);
    return status == SDJWT_DONE ? string_len : 0;
}

static int is_at(const char *place, const char *string) {
    char found[16];
    return string_at(place, found, sizeof found) == strlen(string) && memcmp(found, string, strlen(string)) == 0;
}

/* The point of the issuer's key, or of the holder's, which is in the claim `cnf` of the payload of the question. */
static int read_point(int is_holder, uint8_t *point) {
    char x[64], y[64];
    point[0] = 4;
    if (!is_holder)
        return decode(issuer[0], strlen(issuer[0]), point + 1) && decode(issuer[1], strlen(issuer[1]), point + 33);
    return is_at("/payload/cnf/jwk/kty", "EC") && is_at("/payload/cnf/jwk/crv", "P-256") &&
           decode(x, string_at("/payload/cnf/jwk/x", x, sizeof x), point + 1) &&
           decode(y, string_at("/payload/cnf/jwk/y", y, sizeof y), point + 33);
}

/* The key of the curve P-256 with this point, or NULL. */
static EVP_PKEY *key_of(uint8_t *point) {
    char group[] = "P-256";
    OSSL_PARAM parts[] = {OSSL_PARAM_construct_utf8_string(OSSL_PKEY_PARAM_GROUP_NAME, group, 0),
                          OSSL_PARAM_construct_octet_string(OSSL_PKEY_PARAM_PUB_KEY, point, 65),
                          OSSL_PARAM_construct_end()};
    EVP_PKEY_CTX *made = EVP_PKEY_CTX_new_from_name(NULL, "EC", NULL);
    EVP_PKEY *key = NULL;
    if (made == NULL || EVP_PKEY_fromdata_init(made) != 1 ||
        EVP_PKEY_fromdata(made, &key, EVP_PKEY_PUBLIC_KEY, parts) != 1)
        key = NULL;
    EVP_PKEY_CTX_free(made);
    return key;
}

/* Whether r and s, 32 bytes each (RFC 7518 section 3.4), are a signature of a text with SHA-256. */
static int is_good(EVP_PKEY *key, const uint8_t *pair, const uint8_t *text, size_t text_len) {
    ECDSA_SIG *signature = ECDSA_SIG_new();
    BIGNUM *r = BN_bin2bn(pair, 32, NULL), *s = BN_bin2bn(pair + 32, 32, NULL);
    uint8_t *der = NULL;
    int der_len = 0, good = 0;
    if (signature != NULL && r != NULL && s != NULL && ECDSA_SIG_set0(signature, r, s) == 1)
        der_len = i2d_ECDSA_SIG(signature, &der);
    EVP_MD_CTX *digest = EVP_MD_CTX_new();
    if (digest != NULL && der_len > 0 && EVP_DigestVerifyInit(digest, NULL, EVP_sha256(), NULL, key) == 1)
        good = EVP_DigestVerify(digest, der, (size_t)der_len, text, text_len) == 1;
    EVP_MD_CTX_free(digest);
    OPENSSL_free(der);
    ECDSA_SIG_free(signature);
    return good;
}

/* What there is to say of the signature of the question: first that of the issuer, then that of the holder. */
static uint8_t answer(int is_holder) {
    static uint8_t text[65536];
    uint8_t point[65], pair[64], alg[16];
    size_t text_len, pair_len, alg_len;
    EVP_PKEY *key = read_point(is_holder, point) ? key_of(point) : NULL;
    if (key == NULL) return SDJWT_UNKNOWN;
    int good = sdjwt_question_alg(out, len, alg, sizeof alg, &alg_len) == SDJWT_DONE &&
               alg_len == 5 && memcmp(alg, "ES256", 5) == 0 &&
               sdjwt_question_signature(out, len, pair, sizeof pair, &pair_len) == SDJWT_DONE && pair_len == 64 &&
               sdjwt_question_text(out, len, text, sizeof text, &text_len) == SDJWT_DONE &&
               is_good(key, pair, text, text_len);
    EVP_PKEY_free(key);
    return good ? SDJWT_GOOD : SDJWT_BAD;
}

int main(int count, char **words) {
    static uint8_t token[65536];
    size_t token_len = fread(token, 1, sizeof token, stdin);
    uint64_t now = count > 1 ? strtoull(words[1], NULL, 10) : (uint64_t)time(NULL);
    uint8_t said[] = {SDJWT_UNSAID, SDJWT_UNSAID};
    sdjwt_status status;
    for (int next = 0;; next++) {
        status = sdjwt_judge((const uint8_t *)policy, strlen(policy), (const uint8_t *)"", 0, token, token_len, now,
                             said[0], said[1], out, sizeof out, &len);
        if (status != SDJWT_ASKS || next == 2) break;
        said[next] = answer(next == 1);
    }
    fwrite(out, 1, status == SDJWT_UNWRITTEN ? 0 : len, status == SDJWT_DONE ? stdout : stderr);
    return status;
}
