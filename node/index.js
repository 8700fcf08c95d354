// SD-JWT (RFC 9901) for JavaScript, over the proved C library. What decides is the library; see README.md.
import { randomBytes } from 'node:crypto'
import { OP, STATUS, call, callNow, encoded, freeHandle, isProved, line, newHandle, version } from './calls.js'
import { Refused, SdJwtError, Unreadable } from './errors.js'
import { parsed, written } from './json.js'
import { checkBy, signerOf } from './keys.js'

export { Refused, SdJwtError, Unreadable, checkBy, isProved, version }

const SEED_LENGTH = 32
const SAID = new Map([[null, 1], [false, 2], [true, 3]])
const FORMS = { compact: 0, flat: 1, general: 2 }
const HANDLES_KEPT = 8
const U64_MAX = 2n ** 64n - 1n

/** The bytes of a file or a token: of a string, a Uint8Array, or an object that is written as JSON. */
function bytesOf(name, value) {
  if (value instanceof Uint8Array) return value
  if (typeof value === 'string') return encoded(value)
  if (value !== null && typeof value === 'object' && !ArrayBuffer.isView(value)) return encoded(written(value))
  throw new TypeError(`${name} is no object, no string and no Uint8Array`)
}

/** A time in seconds since 1970, as the library takes it. */
function moment(now) {
  const value = now instanceof Date ? now.getTime() / 1000 : now ?? Date.now() / 1000
  if (typeof value !== 'bigint' && !(typeof value === 'number' && Number.isFinite(value))) {
    throw new TypeError('now is no number of seconds, no BigInt and no Date')
  }
  const seconds = BigInt(typeof value === 'number' ? Math.floor(value) : value)
  if (seconds < 0n || seconds > U64_MAX) throw new RangeError('now is not from 0 to 2^64 - 1')
  return seconds
}

function seedOf(seed) {
  const bytes = seed ?? randomBytes(SEED_LENGTH)
  if (!(bytes instanceof Uint8Array)) throw new TypeError('seed is no Uint8Array')
  if (bytes.length !== SEED_LENGTH) throw new RangeError(`seed has ${bytes.length} bytes, and not ${SEED_LENGTH}`)
  return bytes
}

async function text(answer) {
  return line((await answer).answer)
}

/** The token of an order. Without `sign` the order has a symmetric key. */
export async function issue(order, { seed, sign, alg } = {}) {
  const [file, salts] = [bytesOf('order', order), seedOf(seed)]
  if (sign === undefined) {
    if (alg !== undefined) throw new TypeError('alg is the algorithm of sign, which is missing')
    return text(call(OP.issue, [file, salts]))
  }
  const signer = await signerOf(sign, alg)
  const misused = 'alg is empty or none, or the signature is empty'
  const asked = await call(OP.issueAsk, [file, encoded(signer.alg), salts], {}, misused)
  const signature = await signed(signer, asked.answer)
  return text(call(OP.issueSign, [file, encoded(signer.alg), salts, signature], {}, misused))
}

async function signed(signer, asked) {
  const signature = await signer.sign(new Uint8Array(asked))
  if (!(signature instanceof Uint8Array)) throw new TypeError('sign returned no Uint8Array')
  return signature
}

/** What a caller is asked about a signature. */
function questionOf(answer) {
  const said = parsed(line(answer))
  const part = (op) => {
    const { status, answer: bytes } = callNow(op, [answer])
    return status === STATUS.missing ? undefined : bytes
  }
  return Object.freeze({
    whose: said.ask,
    text: new Uint8Array(part(OP.questionText)),
    signature: new Uint8Array(part(OP.questionSignature)),
    alg: said.alg,
    kid: said.kid,
    typ: said.typ,
    payload: said.payload,
  })
}

/** What a caller says of a signature, as a number. */
async function saidOf(check, question) {
  const said = SAID.get(await check(question))
  if (said === undefined) throw new TypeError('check returned neither true, false nor null')
  return said
}

/** What is presented of a token. With `check` or `sign` the order has no keys, but `algs`. */
export async function present(order, token, { now, check, sign, alg } = {}) {
  const time = moment(now)
  const shown = bytesOf('token', token)
  if (sign === undefined && alg !== undefined) throw new TypeError('alg is the algorithm of sign, which is missing')
  if (check === undefined && sign === undefined) {
    return text(call(OP.present, [bytesOf('order', order), shown], { now: time }))
  }
  if (check === undefined) throw new TypeError('check is missing: it checks the signature of the issuer')
  functionOf('check', check)
  const signer = sign === undefined ? undefined : await signerOf(sign, alg)
  const file = bytesOf('order', signer === undefined ? order : withAlg(order, signer.alg))
  let issuer = 0
  let asked = await call(OP.presentAsk, [file, shown], { now: time, issuer })
  if (asked.status === STATUS.asks) {
    issuer = await saidOf(check, questionOf(asked.answer))
    asked = await call(OP.presentAsk, [file, shown], { now: time, issuer })
  }
  if (asked.status !== STATUS.toSign) return line(asked.answer)
  if (signer === undefined) throw new TypeError('sign is missing: the order asks for a key binding token')
  const signature = await signed(signer, asked.answer)
  return text(call(OP.presentSign, [file, shown, signature], { now: time, issuer }, 'the signature is empty'))
}

/** An order whose `binding` names the algorithm of the key, unless it names one itself or is no object. */
function withAlg(order, alg) {
  const isObject = (value) => value !== null && typeof value === 'object' && !ArrayBuffer.isView(value)
  if (!isObject(order) || !isObject(order.binding) || 'alg' in order.binding) return order
  return { ...order, binding: { ...order.binding, alg } }
}

/** Unchecked: the JSON inside a token, a line for each part. */
export async function show(token) {
  return text(call(OP.show, [bytesOf('token', token)]))
}

/** Unchecked: the parts of a token, a line each. */
export async function split(token) {
  return text(call(OP.split, [bytesOf('token', token)]))
}

/** Unchecked: the token as `compact`, a string, or as `flat` or `general`, an object. */
export async function convert(form, token) {
  if (!Object.hasOwn(FORMS, form)) throw new RangeError('form is neither compact, flat nor general')
  const said = await text(call(OP.convert, [bytesOf('token', token)], { issuer: FORMS[form] }))
  return form === 'compact' ? said : parsed(said)
}

/** Nothing, if a token is what an order with a symmetric key asks for. */
export async function audit(order, token) {
  await call(OP.audit, [bytesOf('order', order), bytesOf('token', token)])
}

/** Of 1 to 64 tokens the one that answers a query with the fewest disclosures. */
export async function wallet(query, tokens) {
  const isList = tokens !== null && typeof tokens === 'object' && typeof tokens[Symbol.iterator] === 'function'
  if (!isList) throw new TypeError('tokens is no list of tokens')
  const files = Array.from(tokens, (token, at) => bytesOf(`token ${at}`, token))
  if (files.length < 1 || files.length > 64) throw new RangeError(`there are ${files.length} tokens, and not 1 to 64`)
  const said = await text(call(OP.wallet, [bytesOf('query', query), ...files]))
  const [picked, token] = said.split('\n')
  return { index: Number(picked.slice('credential '.length)), token }
}

function functionOf(name, value) {
  if (value !== undefined && typeof value !== 'function') throw new TypeError(`${name} is no function`)
}

function namesOf(algs) {
  const isList = Array.isArray(algs) && algs.every((name) => typeof name === 'string')
  if (algs !== undefined && !isList) throw new TypeError('holderAlgs is no array of strings')
}

/** A policy that is read once. Its calls run side by side. */
export class Policy {
  #bytes
  // handles with the nonce of the policy, and those that had another one
  #free = { own: [], other: [] }
  #isClosed = false

  constructor(policy) {
    // a copy, which nobody else changes
    this.#bytes = Uint8Array.from(bytesOf('policy', policy))
    this.#free.own.push(this.#read())
  }

  #read() {
    const handle = newHandle()
    callNow(OP.policyNew, [this.#bytes], { handle })
    return handle
  }

  /** Calls with a handle that no other call has. */
  async #with(nonce, use) {
    if (this.#isClosed) throw new Error('the policy is closed')
    const free = nonce === undefined ? this.#free.own : this.#free.other
    const handle = free.pop() ?? this.#read()
    try {
      if (nonce !== undefined) {
        const misused = 'the policy has no binding, or nonce has more than 256 bytes'
        callNow(OP.policyNonce, [encoded(nonce)], { handle }, misused)
      }
      return await use(handle)
    } finally {
      if (this.#isClosed || free.length >= HANDLES_KEPT) freeHandle(handle)
      else free.push(handle)
    }
  }

  /** Frees the memory now. Calls that have begun end as usual, and later ones are rejected. */
  close() {
    this.#isClosed = true
    for (const handle of Object.values(this.#free).flatMap((free) => free.splice(0))) freeHandle(handle)
    this.#bytes = new Uint8Array(0)
  }

  /** The claims of a token that the policy accepts, as JSON. */
  async verifyText(token, { now, nonce, check, holderAlgs } = {}) {
    const time = moment(now)
    const bytes = bytesOf('token', token)
    if (nonce !== undefined && typeof nonce !== 'string') throw new TypeError('nonce is no string')
    if (check === undefined && holderAlgs !== undefined) throw new TypeError('holderAlgs needs check, which is missing')
    functionOf('check', check)
    namesOf(holderAlgs)
    return this.#with(nonce, (handle) => check === undefined
      ? text(call(OP.policyVerify, [bytes], { now: time, handle }))
      : judged(handle, bytes, time, check, holderAlgs))
  }

  /** The claims of a token that the policy accepts. */
  async verify(token, options) {
    return parsed(await this.verifyText(token, options))
  }
}

/** The claims of a token whose signatures `check` checks. */
async function judged(handle, token, now, check, holderAlgs) {
  const algs = holderAlgs === undefined ? new Uint8Array(0) : encoded(JSON.stringify(holderAlgs))
  const said = { issuer: 0, holder: 0 }
  for (;;) {
    const { status, answer } = await call(OP.policyJudge, [algs, token], { now, handle, ...said })
    if (status !== STATUS.asks) return line(answer)
    const question = questionOf(answer)
    if (said[question.whose] !== 0) throw new Error('a signature is asked about twice')
    said[question.whose] = await saidOf(check, question)
  }
}

/** The claims of a token that a policy accepts; for many tokens keep a Policy. */
export async function verify(policy, token, options) {
  const read = new Policy(policy)
  try {
    return await read.verify(token, options)
  } finally {
    read.close()
  }
}
