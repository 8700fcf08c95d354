/*
 * Issues a token with the private key that stands on standard input, a PEM of the curve P-256; and given the issuer's
 * public key and such a token, presents the token with the private key of the holder. OpenSSL 3 signs and checks.
 *
 *     cc signed.c $(pkg-config --cflags --libs sdjwt) -lcrypto -o signed
 *     umask 077
 *     for name in issuer ada; do
 *         openssl genpkey -algorithm EC -pkeyopt ec_paramgen_curve:P-256 -out $name.pem
 *         openssl pkey -in $name.pem -pubout -out $name.pub
 *     done
 *     ./signed < issuer.pem > ticket.txt
 *     ./signed issuer.pub ticket.txt < ada.pem > shown.txt
 */
#include <openssl/ecdsa.h>
#include <openssl/evp.h>
#include <openssl/pem.h>
#include <openssl/rand.h>
#include <sdjwt.h>
#include <stdio.h>
#include <string.h>
#include <time.h>

static const char order[] = "{\"payload\": {\"iss\": \"https://tickets.example\", \"cnf\": {\"kid\": \"ada\"},"
                            " \"name\": \"Ada\", \"seat\": \"B12\"}, \"hide\": [\"/name\", \"/seat\"],"
                            " \"kid\": \"tickets-1\"}";
static const char wish[] = "{\"algs\": [\"ES256\"], \"want\": [\"/seat\"], \"binding\": {\"alg\": \"ES256\","
                           " \"kid\": \"ada\", \"aud\": \"https://door.example\", \"nonce\": \"4711\"}}";

static uint8_t out[65536];
static size_t len;

/* Signs a text by ES256: r and s, 32 bytes each, which OpenSSL writes as DER. */
static int sign(EVP_PKEY *key, const uint8_t *text, size_t text_len, uint8_t *pair) {
    uint8_t der[72];
    const uint8_t *at = der;
    size_t der_len = sizeof der;
    ECDSA_SIG *made = NULL;
    EVP_MD_CTX *digest = EVP_MD_CTX_new();
    if (digest != NULL && EVP_DigestSignInit(digest, NULL, EVP_sha256(), NULL, key) == 1 &&
        EVP_DigestSign(digest, der, &der_len, text, text_len) == 1)
        made = d2i_ECDSA_SIG(NULL, &at, (long)der_len);
    int done = made != NULL && BN_bn2binpad(ECDSA_SIG_get0_r(made), pair, 32) == 32 &&
               BN_bn2binpad(ECDSA_SIG_get0_s(made), pair + 32, 32) == 32;
    ECDSA_SIG_free(made);
    EVP_MD_CTX_free(digest);
    return done;
}

static sdjwt_status issue(EVP_PKEY *key) {
    const uint8_t *asks = (const uint8_t *)order, *alg = (const uint8_t *)"ES256";
    uint8_t seed[32], pair[64];
    if (RAND_priv_bytes(seed, sizeof seed) != 1) return SDJWT_USAGE;
    sdjwt_status status = sdjwt_issue_ask(asks, strlen(order), alg, 5, seed, sizeof seed, out, sizeof out, &len);
    if (status != SDJWT_DONE) return status;
    if (!sign(key, out, len, pair)) return SDJWT_USAGE;
    return sdjwt_issue_sign(asks, strlen(order), alg, 5, seed, sizeof seed, pair, sizeof pair, out, sizeof out, &len);
}

/* Whether the signature of the question, of r and s, is one of its text by ES256, which is all that the order takes. */
static int is_good(EVP_PKEY *key) {
    static uint8_t text[65536];
    uint8_t pair[64], *der = NULL;
    size_t pair_len, text_len;
    if (sdjwt_question_signature(out, len, pair, sizeof pair, &pair_len) != SDJWT_DONE || pair_len != 64) return 0;
    if (sdjwt_question_text(out, len, text, sizeof text, &text_len) != SDJWT_DONE) return 0;
    int der_len = 0, good = 0;
    ECDSA_SIG *signature = ECDSA_SIG_new();
    BIGNUM *r = BN_bin2bn(pair, 32, NULL), *s = BN_bin2bn(pair + 32, 32, NULL);
    if (signature != NULL && r != NULL && s != NULL && ECDSA_SIG_set0(signature, r, s) == 1)
        der_len = i2d_ECDSA_SIG(signature, &der);
    EVP_MD_CTX *digest = EVP_MD_CTX_new();
    if (digest != NULL && der_len > 0 && EVP_DigestVerifyInit(digest, NULL, EVP_sha256(), NULL, key) == 1)
        good = EVP_DigestVerify(digest, der, (size_t)der_len, text, text_len) == 1;
    EVP_MD_CTX_free(digest);
    OPENSSL_free(der);
    ECDSA_SIG_free(signature);
    return good;
}

static sdjwt_status present(EVP_PKEY *key, EVP_PKEY *issuer, const uint8_t *token, size_t token_len) {
    const uint8_t *asks = (const uint8_t *)wish;
    uint64_t now = (uint64_t)time(NULL);
    uint8_t said = SDJWT_UNSAID, pair[64];
    sdjwt_status status = sdjwt_present_ask(asks, strlen(wish), token, token_len, now, said, out, sizeof out, &len);
    if (status == SDJWT_ASKS) {
        said = is_good(issuer) ? SDJWT_GOOD : SDJWT_BAD;
        status = sdjwt_present_ask(asks, strlen(wish), token, token_len, now, said, out, sizeof out, &len);
    }
    if (status != SDJWT_TO_SIGN) return status;
    if (!sign(key, out, len, pair)) return SDJWT_USAGE;
    return sdjwt_present_sign(asks, strlen(wish), token, token_len, now, said, pair, sizeof pair,
                              out, sizeof out, &len);
}

/* The key, if it is one of P-256. */
static EVP_PKEY *of_curve(EVP_PKEY *key) {
    char group[32] = "";
    if (key != NULL && EVP_PKEY_get_group_name(key, group, sizeof group, NULL) == 1 && strcmp(group, "prime256v1") == 0)
        return key;
    EVP_PKEY_free(key);
    return NULL;
}

int main(int count, char **words) {
    static uint8_t token[65536];
    sdjwt_status status = SDJWT_USAGE;
    EVP_PKEY *key = of_curve(PEM_read_PrivateKey(stdin, NULL, NULL, NULL));
    if (key != NULL && count == 1) status = issue(key);
    if (key != NULL && count == 3) {
        FILE *of_issuer = fopen(words[1], "rb"), *held = fopen(words[2], "rb");
        EVP_PKEY *issuer = of_issuer == NULL ? NULL : of_curve(PEM_read_PUBKEY(of_issuer, NULL, NULL, NULL));
        if (issuer != NULL && held != NULL) status = present(key, issuer, token, fread(token, 1, sizeof token, held));
        EVP_PKEY_free(issuer);
        if (of_issuer != NULL) fclose(of_issuer);
        if (held != NULL) fclose(held);
    }
    EVP_PKEY_free(key);
    if (status == SDJWT_DONE || status == SDJWT_REFUSED || status == SDJWT_UNREADABLE)
        fwrite(out, 1, len, status == SDJWT_DONE ? stdout : stderr);
    return status;
}
