// Keys of others by WebCrypto: which key of a set checks a signature, and signatures by a private key.
import { webcrypto } from 'node:crypto'
import { types } from 'node:util'

const { subtle } = webcrypto

const EC = { ES256: ['P-256', 'SHA-256', 64], ES384: ['P-384', 'SHA-384', 96], ES512: ['P-521', 'SHA-512', 132] }
const RSA_BITS = 2048
// The field of Ed25519, and the y of every point whose order divides 8 (RFC 8032 section 5.1): under such a key anyone
// can forge signatures.
const FIELD = 2n ** 255n - 19n
const OF_ORDER_8 = 0x7a03ac9277fdc74ec6cc392cfa53202a0f67100d760b3cba4fd84d3d706a17c7n
const OF_SMALL_ORDER = [0n, 1n, FIELD - 1n, OF_ORDER_8, FIELD - OF_ORDER_8]

/** The parameters of WebCrypto for an algorithm of a JWS (RFC 7518, RFC 8037), or undefined. */
function parametersOf(alg) {
  const hash = `SHA-${alg.slice(2)}`
  if (Object.hasOwn(EC, alg)) {
    const [namedCurve, ecHash, length] = EC[alg]
    const sign = { name: 'ECDSA', hash: ecHash }
    return { kty: 'EC', crv: namedCurve, length, key: { name: 'ECDSA', namedCurve }, sign }
  }
  if (alg === 'EdDSA' || alg === 'Ed25519') {
    return { kty: 'OKP', crv: 'Ed25519', length: 64, key: { name: 'Ed25519' }, sign: { name: 'Ed25519' } }
  }
  if (/^PS(256|384|512)$/.test(alg)) {
    const sign = { name: 'RSA-PSS', saltLength: Number(alg.slice(2)) / 8 }
    return { kty: 'RSA', key: { name: 'RSA-PSS', hash }, sign }
  }
  if (/^RS(256|384|512)$/.test(alg)) {
    return { kty: 'RSA', key: { name: 'RSASSA-PKCS1-v1_5', hash }, sign: { name: 'RSASSA-PKCS1-v1_5' } }
  }
  if (/^HS(256|384|512)$/.test(alg)) return { kty: 'oct', key: { name: 'HMAC', hash }, sign: { name: 'HMAC' } }
  return undefined
}

/** One name for an algorithm that has two: of keys of Ed25519, EdDSA (RFC 8037) and Ed25519 (RFC 9864) are the same. */
function named(alg) {
  return alg === 'EdDSA' ? 'Ed25519' : alg
}

/** Whether a CryptoKey may check signatures of an algorithm. */
function keyFits({ algorithm, type, usages }, parameters) {
  const { name, namedCurve, hash } = parameters.key
  return usages.includes('verify') && (type === 'public' || parameters.kty === 'oct') && algorithm.name === name &&
    algorithm.namedCurve === namedCurve && algorithm.hash?.name === hash
}

/** Whether a key may check signatures of an algorithm: by its type, and by the members of a JWK (RFC 7517). */
function fits(jwk, alg, parameters) {
  if (jwk?.key !== undefined) return types.isCryptoKey(jwk.key) && keyFits(jwk.key, parameters)
  return jwk !== null && typeof jwk === 'object' && jwk.kty === parameters.kty &&
    (parameters.crv === undefined || jwk.crv === parameters.crv) &&
    (jwk.use === undefined || jwk.use === 'sig') &&
    (jwk.alg === undefined || named(jwk.alg) === named(alg)) &&
    (jwk.key_ops === undefined || (Array.isArray(jwk.key_ops) && jwk.key_ops.includes('verify')))
}

/** The public half of a JWK, as WebCrypto takes it. */
function publicHalf({ kty, crv, x, y, n, e, k }) {
  return JSON.parse(JSON.stringify({ kty, crv, x, y, n, e, k }))
}

/** A key as WebCrypto has it. A key that is too weak for its algorithm is an error. */
async function imported(jwk, parameters) {
  const key = jwk.key ?? await subtle.importKey('jwk', publicHalf(jwk), parameters.key, true, ['verify'])
  if (parameters.crv === 'Ed25519') return ofLargeOrder(key)
  return longEnough(key, parameters)
}

async function ofLargeOrder(key) {
  const bytes = new Uint8Array(await subtle.exportKey('raw', key))
  const y = bytes.reduceRight((sum, byte) => sum * 256n + BigInt(byte), 0n) % 2n ** 255n
  if (y >= FIELD || OF_SMALL_ORDER.includes(y)) throw new RangeError('the key is a point of small order')
  return key
}

function longEnough(key, parameters) {
  const { modulusLength, length, hash } = key.algorithm
  if (parameters.kty === 'RSA' && modulusLength < RSA_BITS) throw new RangeError('the key is too short')
  if (parameters.kty === 'oct' && length < Number(hash.name.slice(4))) throw new RangeError('the key is too short')
  return key
}

/** Whether a signature is good under a JWK. A key that can't be used checks nothing. */
async function isGood(jwk, question, parameters) {
  if (parameters.length !== undefined && question.signature.length !== parameters.length) return false
  const key = await imported(jwk, parameters)
  return subtle.verify(parameters.sign, key, question.signature, question.text)
}

/**
 * The keys of a set among which the one of a question is: those of its `kid`, or all, that fit its algorithm. A bare
 * CryptoKey has no `kid`, so it is one of them for any.
 */
function candidates(keys, question, parameters) {
  const fitting = keys.filter((jwk) => fits(jwk, question.alg, parameters))
  return fitting.filter((jwk) => question.kid === undefined || jwk.isBare || jwk.kid === question.kid)
}

/** The entries of a set of keys: JWKs, CryptoKeys, and objects with a CryptoKey, `key`, and its `kid`. */
function entries(name, keys) {
  if (keys === null || typeof keys !== 'object' || typeof keys[Symbol.iterator] !== 'function') {
    throw new TypeError(`${name} is no list of keys`)
  }
  return Array.from(keys, (key) => (types.isCryptoKey(key) ? { key, isBare: true } : key))
}

/**
 * A `check` over public keys, and symmetric ones for an HMAC: `issuers` are the keys of the issuers. The holder's key
 * is the one of `cnf`: `jwk` itself, or the one of `holders` that has its `kid`.
 */
export function checkBy({ issuers, holders = [] }) {
  const [ofIssuers, ofHolders] = [entries('issuers', issuers), entries('holders', holders)]
  return async (question) => {
    const parameters = parametersOf(question.alg)
    if (parameters === undefined) return null
    const keys = question.whose === 'issuer' ? candidates(ofIssuers, question, parameters)
      : holderKeys(question, ofHolders).filter((jwk) => fits(jwk, question.alg, parameters))
    if (keys.length === 0) return null
    for (const jwk of keys) {
      try {
        if (await isGood(jwk, question, parameters)) return true
      } catch {
        // a key that WebCrypto does not take checks nothing
      }
    }
    return false
  }
}

/** The JWK of `cnf`, if it is one of a key pair: only its own members, since it came in a token. */
function jwkOf(said) {
  if (said === null || typeof said !== 'object' || said.kty === 'oct') return []
  const { kty, crv, x, y, n, e, use, key_ops: operations, alg } = said
  return [{ kty, crv, x, y, n, e, use, key_ops: operations, alg }]
}

function holderKeys(question, holders) {
  const cnf = question.payload?.cnf
  if (cnf?.jwk !== undefined) return jwkOf(cnf.jwk)
  return typeof cnf?.kid === 'string' ? holders.filter((jwk) => jwk?.kid === cnf.kid) : []
}

/** The algorithm of a private CryptoKey, as a JWS names it. */
function algOf({ algorithm }) {
  const bits = (algorithm.hash?.name ?? '').slice(4)
  switch (algorithm.name) {
    case 'ECDSA': return Object.keys(EC).find((alg) => EC[alg][0] === algorithm.namedCurve)
    case 'Ed25519': return 'EdDSA'
    case 'RSA-PSS': return `PS${bits}`
    case 'RSASSA-PKCS1-v1_5': return `RS${bits}`
    default: return undefined
  }
}

/** What signs, and its algorithm: of a private CryptoKey, a private JWK, or a function with an `alg` of its own. */
export async function signerOf(sign, alg) {
  if (typeof sign === 'function') {
    if (typeof alg !== 'string') throw new TypeError('alg is missing: the name of the algorithm of your function')
    return { alg, sign }
  }
  const key = types.isCryptoKey(sign) ? sign : await privateKey(sign, alg)
  const named = alg ?? algOf(key)
  const parameters = named === undefined ? undefined : parametersOf(named)
  if (parameters === undefined || parameters.kty === 'oct') throw new TypeError(`the key does not sign by ${named}`)
  return { alg: named, sign: async (text) => new Uint8Array(await subtle.sign(parameters.sign, key, text)) }
}

const USUAL = { 'EC P-256': 'ES256', 'EC P-384': 'ES384', 'EC P-521': 'ES512', 'OKP Ed25519': 'EdDSA' }

async function privateKey(jwk, alg) {
  if (jwk === null || typeof jwk !== 'object') throw new TypeError('sign is no CryptoKey, no JWK and no function')
  const named = alg ?? jwk.alg ?? USUAL[`${jwk.kty} ${jwk.crv}`]
  const parameters = named === undefined ? undefined : parametersOf(named)
  if (parameters === undefined || parameters.kty === 'oct') {
    throw new TypeError('the algorithm of the key is not known: give alg')
  }
  const { use, key_ops: operations, ext, kid, alg: own, ...bare } = jwk
  return subtle.importKey('jwk', bare, parameters.key, false, ['sign'])
}
