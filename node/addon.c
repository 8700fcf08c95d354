/*
 * The calls of sdjwt.h for JavaScript, by Node-API. `run` makes one call on a thread of the pool and returns a promise
 * of its status and its answer; `runNow` makes it at once, for the short calls over a question. No rule of SD-JWT
 * stands here.
 *
 * A call is an object: `op` is the number of a call, as below; `inputs` are Uint8Arrays, which are copied before the
 * call begins; `now` is a BigInt; `issuer` and `holder` are numbers; `handle` is what newHandle() returned. Whoever
 * calls sees to it that a handle is in one call at a time (index.js keeps a pool of them).
 */
#define _GNU_SOURCE
#include <node_api.h>
#include <pthread.h>
#include <sdjwt.h>
#include <stdbool.h>
#include <stdlib.h>
#include <string.h>

enum op {
    ISSUE, ISSUE_ASK, ISSUE_SIGN, PRESENT, PRESENT_ASK, PRESENT_SIGN, SHOW, SPLIT, CONVERT, AUDIT, WALLET,
    POLICY_NEW, POLICY_NONCE, POLICY_VERIFY, POLICY_JUDGE,
    QUESTION_TEXT, QUESTION_SIGNATURE, QUESTION_ALG, QUESTION_KID, QUESTION_AT, OPS
};

/* How many inputs a call has. A wallet has a query and 1 to 64 tokens. */
static const size_t inputs_of[OPS] = {2, 3, 4, 2, 2, 3, 1, 1, 1, 2, 2, 1, 1, 1, 2, 1, 1, 1, 1, 2};
#define INPUTS_MAX (1 + SDJWT_TOKENS)

struct call {
    enum op op;
    size_t count;
    size_t lengths[INPUTS_MAX];
    const uint8_t *inputs[INPUTS_MAX];
    uint8_t *bytes; /* all inputs, one behind the other */
    uint64_t now;
    uint8_t issuer, holder;
    sdjwt_policy *handle;
    uint8_t *out; /* NULL without memory */
    size_t len;
    sdjwt_status status;
    napi_deferred deferred;
    napi_async_work work;
    napi_ref kept; /* the handle, as long as the call runs */
};

/* The status of a call for which the thread has too little stack. The library was not called. */
#define NO_STACK 255
/* The stack that a call may need. The deepest inputs took half of it. */
#define STACK_NEEDED (512 * 1024)

#define CHECKED(env, call)                                                                                             \
    do {                                                                                                               \
        if ((call) != napi_ok) {                                                                                       \
            napi_throw_type_error(env, NULL, "sdjwt: an argument of the addon has another type");                      \
            return NULL;                                                                                               \
        }                                                                                                              \
    } while (0)

static void freed(struct call *call) {
    if (call != NULL) {
        free(call->bytes);
        free(call->out);
        free(call);
    }
}

static sdjwt_status with_room(struct call *c, size_t room) {
    const uint8_t *const *in = c->inputs;
    const size_t *n = c->lengths;
    uint8_t *out = c->out;
    size_t *len = &c->len;
    switch (c->op) {
        case ISSUE: return sdjwt_issue(in[0], n[0], in[1], n[1], out, room, len);
        case ISSUE_ASK: return sdjwt_issue_ask(in[0], n[0], in[1], n[1], in[2], n[2], out, room, len);
        case ISSUE_SIGN:
            return sdjwt_issue_sign(in[0], n[0], in[1], n[1], in[2], n[2], in[3], n[3], out, room, len);
        case PRESENT: return sdjwt_present(in[0], n[0], in[1], n[1], c->now, out, room, len);
        case PRESENT_ASK: return sdjwt_present_ask(in[0], n[0], in[1], n[1], c->now, c->issuer, out, room, len);
        case PRESENT_SIGN:
            return sdjwt_present_sign(in[0], n[0], in[1], n[1], c->now, c->issuer, in[2], n[2], out, room, len);
        case SHOW: return sdjwt_show(in[0], n[0], out, room, len);
        case SPLIT: return sdjwt_split(in[0], n[0], out, room, len);
        case CONVERT: return sdjwt_convert(c->issuer, in[0], n[0], out, room, len);
        case AUDIT: return sdjwt_audit(in[0], n[0], in[1], n[1], out, room, len);
        case WALLET: {
            size_t length = 0;
            for (size_t i = 1; i < c->count; i++) length += n[i];
            return sdjwt_wallet(in[0], n[0], in[1], length, n + 1, c->count - 1, out, room, len);
        }
        case POLICY_NEW: return sdjwt_policy_new(c->handle, in[0], n[0], out, room, len);
        case POLICY_NONCE: *len = 0; return sdjwt_policy_nonce(c->handle, in[0], n[0]);
        case POLICY_VERIFY: return sdjwt_policy_verify(c->handle, in[0], n[0], c->now, out, room, len);
        case POLICY_JUDGE:
            return sdjwt_policy_judge(c->handle, in[0], n[0], in[1], n[1], c->now, c->issuer, c->holder, out, room,
                                      len);
        case QUESTION_TEXT: return sdjwt_question_text(in[0], n[0], out, room, len);
        case QUESTION_SIGNATURE: return sdjwt_question_signature(in[0], n[0], out, room, len);
        case QUESTION_ALG: return sdjwt_question_alg(in[0], n[0], out, room, len);
        case QUESTION_KID: return sdjwt_question_kid(in[0], n[0], out, room, len);
        case QUESTION_AT: return sdjwt_question_at(in[0], n[0], in[1], n[1], out, room, len);
        default: *len = 0; return SDJWT_USAGE;
    }
}

/* The address at which the stack of this thread ends, or 0 if nobody says it. */
static uintptr_t stack_end(void) {
    pthread_attr_t attributes;
    void *low = NULL;
    size_t size;
    if (pthread_getattr_np(pthread_self(), &attributes) != 0) return 0;
    if (pthread_attr_getstack(&attributes, &low, &size) != 0) low = NULL;
    pthread_attr_destroy(&attributes);
    return (uintptr_t)low;
}

/* Whether this thread has enough stack left. With too little of it the process would end. */
static bool has_stack(void) {
    static _Thread_local bool is_known;
    static _Thread_local uintptr_t end;
    char here;
    if (!is_known) {
        end = stack_end();
        is_known = true;
    }
    return (uintptr_t)&here < end || (uintptr_t)&here - end >= STACK_NEEDED;
}

/* Makes the call, with a buffer that is usually long enough, and once more if it is not. */
static void made(struct call *c) {
    size_t room = 256;
    if (!has_stack()) {
        c->status = NO_STACK;
        return;
    }
    for (size_t i = 0; i < c->count; i++) room += c->lengths[i];
    for (int turn = 0; turn < 2; turn++) {
        free(c->out);
        c->out = malloc(room);
        c->len = 0;
        c->status = c->out == NULL ? SDJWT_MEMORY : with_room(c, room);
        if (c->status != SDJWT_UNWRITTEN) return;
        room = c->len;
    }
}

static bool member(napi_env env, napi_value object, const char *name, napi_value *value) {
    napi_valuetype type;
    return napi_get_named_property(env, object, name, value) == napi_ok && napi_typeof(env, *value, &type) == napi_ok &&
           type != napi_undefined;
}

/* Copies the inputs. False where they are no arrays of bytes, or others than the call has. */
static bool copied(napi_env env, napi_value list, struct call *c) {
    uint32_t count;
    bool is_list;
    if (napi_is_array(env, list, &is_list) != napi_ok || !is_list ||
        napi_get_array_length(env, list, &count) != napi_ok)
        return false;
    if (c->op == WALLET ? count < 2 || count > INPUTS_MAX : count != inputs_of[c->op]) return false;
    size_t length = 0;
    void *data[INPUTS_MAX];
    for (uint32_t i = 0; i < count; i++) {
        napi_value input;
        napi_typedarray_type type;
        bool is_typed;
        if (napi_get_element(env, list, i, &input) != napi_ok || napi_is_typedarray(env, input, &is_typed) != napi_ok ||
            !is_typed ||
            napi_get_typedarray_info(env, input, &type, &c->lengths[i], &data[i], NULL, NULL) != napi_ok ||
            type != napi_uint8_array)
            return false;
        length += c->lengths[i];
    }
    c->bytes = malloc(length + 1);
    if (c->bytes == NULL) return false;
    uint8_t *at = c->bytes;
    for (uint32_t i = 0; i < count; i++) {
        if (c->lengths[i] != 0) memcpy(at, data[i], c->lengths[i]);
        c->inputs[i] = at;
        at += c->lengths[i];
    }
    c->count = count;
    return true;
}

/* The call that an object says, or NULL. */
static struct call *call_of(napi_env env, napi_value said) {
    napi_value value;
    uint32_t op, number;
    bool lossless;
    struct call *c = calloc(1, sizeof *c);
    if (c == NULL) return NULL;
    if (!member(env, said, "op", &value) || napi_get_value_uint32(env, value, &op) != napi_ok || op >= OPS) goto wrong;
    c->op = (enum op)op;
    if (!member(env, said, "inputs", &value) || !copied(env, value, c)) goto wrong;
    if (member(env, said, "now", &value) &&
        (napi_get_value_bigint_uint64(env, value, &c->now, &lossless) != napi_ok || !lossless))
        goto wrong;
    if (member(env, said, "issuer", &value)) {
        if (napi_get_value_uint32(env, value, &number) != napi_ok || number > 255) goto wrong;
        c->issuer = (uint8_t)number;
    }
    if (member(env, said, "holder", &value)) {
        if (napi_get_value_uint32(env, value, &number) != napi_ok || number > 255) goto wrong;
        c->holder = (uint8_t)number;
    }
    bool has_handle = member(env, said, "handle", &value);
    if (has_handle != (op >= POLICY_NEW && op <= POLICY_JUDGE)) goto wrong;
    if (has_handle && (napi_get_value_external(env, value, (void **)&c->handle) != napi_ok ||
                       napi_create_reference(env, value, 1, &c->kept) != napi_ok))
        goto wrong;
    return c;
wrong:
    freed(c);
    return NULL;
}

/* The object with the status and the answer of a call, which is freed. */
static napi_value result_of(napi_env env, struct call *c) {
    napi_value result, status, answer;
    bool is_written = c->out != NULL && c->status != SDJWT_MEMORY && c->status != SDJWT_USAGE;
    bool is_made = napi_create_object(env, &result) == napi_ok &&
                   napi_create_uint32(env, c->status, &status) == napi_ok &&
                   napi_create_buffer_copy(env, is_written ? c->len : 0, c->out, NULL, &answer) == napi_ok &&
                   napi_set_named_property(env, result, "status", status) == napi_ok &&
                   napi_set_named_property(env, result, "answer", answer) == napi_ok;
    if (c->kept != NULL) napi_delete_reference(env, c->kept);
    freed(c);
    return is_made ? result : NULL;
}

static void execute(napi_env env, void *data) {
    (void)env;
    made(data);
}

static void complete(napi_env env, napi_status status, void *data) {
    struct call *c = data;
    napi_deferred deferred = c->deferred;
    napi_value text, error;
    napi_delete_async_work(env, c->work);
    if (status != napi_ok) c->status = SDJWT_MEMORY; /* it was cancelled: nothing was written */
    napi_value result = result_of(env, c);
    /* In a worker that is being ended these fail, and nobody waits for the promise. */
    if (result != NULL)
        (void)napi_resolve_deferred(env, deferred, result);
    else if (napi_create_string_utf8(env, "sdjwt: the result could not be made", NAPI_AUTO_LENGTH, &text) == napi_ok &&
             napi_create_error(env, NULL, text, &error) == napi_ok)
        (void)napi_reject_deferred(env, deferred, error);
}

static napi_value run(napi_env env, napi_callback_info info) {
    size_t count = 1;
    napi_value said, promise, name;
    CHECKED(env, napi_get_cb_info(env, info, &count, &said, NULL, NULL));
    struct call *c = count == 1 ? call_of(env, said) : NULL;
    CHECKED(env, c == NULL ? napi_invalid_arg : napi_ok);
    if (napi_create_string_utf8(env, "sdjwt", NAPI_AUTO_LENGTH, &name) != napi_ok ||
        napi_create_promise(env, &c->deferred, &promise) != napi_ok ||
        napi_create_async_work(env, NULL, name, execute, complete, c, &c->work) != napi_ok ||
        napi_queue_async_work(env, c->work) != napi_ok) {
        if (c->kept != NULL) napi_delete_reference(env, c->kept);
        if (c->work != NULL) napi_delete_async_work(env, c->work);
        freed(c);
        CHECKED(env, napi_generic_failure);
    }
    return promise;
}

static napi_value run_now(napi_env env, napi_callback_info info) {
    size_t count = 1;
    napi_value said;
    CHECKED(env, napi_get_cb_info(env, info, &count, &said, NULL, NULL));
    struct call *c = count == 1 ? call_of(env, said) : NULL;
    CHECKED(env, c == NULL ? napi_invalid_arg : napi_ok);
    made(c);
    return result_of(env, c);
}

static void handle_freed(napi_env env, void *data, void *hint) {
    (void)env;
    (void)hint;
    sdjwt_policy_free(data);
    free(data);
}

static napi_value new_handle(napi_env env, napi_callback_info info) {
    (void)info;
    napi_value handle;
    sdjwt_policy *policy = malloc(sizeof *policy);
    CHECKED(env, policy == NULL ? napi_generic_failure : napi_ok);
    *policy = (sdjwt_policy)SDJWT_POLICY_INIT;
    if (napi_create_external(env, policy, handle_freed, NULL, &handle) != napi_ok) {
        free(policy);
        CHECKED(env, napi_generic_failure);
    }
    return handle;
}

/* Frees what a handle holds, before the collector does. It may be freed twice, and read into again. */
static napi_value free_handle(napi_env env, napi_callback_info info) {
    size_t count = 1;
    napi_value said;
    void *policy;
    CHECKED(env, napi_get_cb_info(env, info, &count, &said, NULL, NULL));
    CHECKED(env, count == 1 ? napi_get_value_external(env, said, &policy) : napi_invalid_arg);
    sdjwt_policy_free(policy);
    return NULL;
}

static napi_value initialized(napi_env env, napi_value exports) {
    napi_value version, is_proved;
    CHECKED(env, napi_create_string_utf8(env, sdjwt_version(), NAPI_AUTO_LENGTH, &version));
    CHECKED(env, napi_get_boolean(env, sdjwt_is_proved() == 1, &is_proved));
    const napi_property_descriptor members[] = {
        {"run", NULL, run, NULL, NULL, NULL, napi_default, NULL},
        {"runNow", NULL, run_now, NULL, NULL, NULL, napi_default, NULL},
        {"newHandle", NULL, new_handle, NULL, NULL, NULL, napi_default, NULL},
        {"freeHandle", NULL, free_handle, NULL, NULL, NULL, napi_default, NULL},
        {"version", NULL, NULL, NULL, NULL, version, napi_default, NULL},
        {"isProved", NULL, NULL, NULL, NULL, is_proved, napi_default, NULL},
    };
    CHECKED(env, napi_define_properties(env, exports, sizeof members / sizeof *members, members));
    return exports;
}

NAPI_MODULE(sdjwt, initialized)
