// Tokens with key pairs, whose signatures WebCrypto checks and makes.
import assert from 'node:assert/strict'
import { webcrypto } from 'node:crypto'
import { readFileSync } from 'node:fs'
import { test } from 'node:test'
import * as sdjwt from '../index.js'

const { subtle } = webcrypto
const PARAMETERS = {
  ES256: { name: 'ECDSA', namedCurve: 'P-256' },
  ES384: { name: 'ECDSA', namedCurve: 'P-384' },
  ES512: { name: 'ECDSA', namedCurve: 'P-521' },
  EdDSA: { name: 'Ed25519' },
  PS256: { name: 'RSA-PSS', hash: 'SHA-256', modulusLength: 2048, publicExponent: new Uint8Array([1, 0, 1]) },
  RS384: { name: 'RSASSA-PKCS1-v1_5', hash: 'SHA-384', modulusLength: 2048, publicExponent: new Uint8Array([1, 0, 1]) },
}
const rfc = (name) => readFileSync(new URL(`../../vectors/rfc9901/${name}`, import.meta.url), 'utf8').trim()
const RFC = {
  policy: { keys: { keys: [] }, algs: ['ES256'],
    binding: { aud: 'https://verifier.example.org', nonce: 'another', max_age: 600, keys: { keys: [] } } },
  options: { now: 1748537244, nonce: '1234567890', holderAlgs: ['ES256'],
    check: sdjwt.checkBy({ issuers: JSON.parse(rfc('issuer_keys.json')).keys }) },
}

async function pair(alg) {
  const { privateKey, publicKey } = await subtle.generateKey(PARAMETERS[alg], true, ['sign', 'verify'])
  const { key_ops: operations, ext, ...jwk } = await subtle.exportKey('jwk', publicKey)
  return { privateKey, jwk, alg }
}

test('the presentation of RFC 9901, and each letter changed', async () => {
  const policy = new sdjwt.Policy(RFC.policy)
  const token = rfc('presented.txt')
  assert.deepEqual(await policy.verify(token, RFC.options), JSON.parse(rfc('claims.json')))
  for (let at = 0; at < token.length; at += 1) {
    const changed = token.slice(0, at) + (token[at] === 'A' ? 'B' : 'A') + token.slice(at + 1)
    await assert.rejects(policy.verify(changed, RFC.options), sdjwt.Refused, `letter ${at}`)
  }
})

test('the issued token of RFC 9901, and each letter changed', async () => {
  const policy = new sdjwt.Policy({ keys: { keys: [] }, algs: ['ES256'] })
  const [token, { check, now }] = [rfc('issued.txt'), RFC.options]
  assert.equal((await policy.verify(token, { check, now })).iss, 'https://issuer.example.com')
  for (let at = 0; at < token.length; at += 1) {
    const changed = token.slice(0, at) + (token[at] === 'A' ? 'B' : 'A') + token.slice(at + 1)
    await assert.rejects(policy.verify(changed, { check, now }), sdjwt.Refused, `letter ${at}`)
  }
})

test('three ends with every algorithm', async () => {
  for (const alg of Object.keys(PARAMETERS)) {
    const [office, ada, other] = await Promise.all([pair(alg), pair('ES256'), pair(alg)])
    const payload = { iss: 'tickets', cnf: { jwk: ada.jwk }, name: 'Ada', seat: 'B12' }
    const order = { payload, hide: ['/name', '/seat'] }
    const ticket = await sdjwt.issue(order, { sign: office.privateKey, alg })
    const wish = { algs: [alg], want: ['/seat'], never: ['/name'], binding: { aud: 'door', nonce: '4711' } }
    const check = sdjwt.checkBy({ issuers: [office.jwk] })
    const shown = await sdjwt.present(wish, ticket, { check, sign: ada.privateKey })
    const door = new sdjwt.Policy({ keys: { keys: [] }, algs: [alg], iss: 'tickets', require: ['seat'],
      binding: { aud: 'door', nonce: '', max_age: 60, keys: { keys: [] } } })
    const options = { nonce: '4711', holderAlgs: ['ES256'], check }
    const { cnf, ...claims } = await door.verify(shown, options)
    assert.deepEqual([claims, cnf.jwk], [{ iss: 'tickets', seat: 'B12' }, ada.jwk], alg)
    const strangers = { ...options, check: sdjwt.checkBy({ issuers: [other.jwk] }) }
    await assert.rejects(door.verify(shown, strangers), { name: 'badSignature', number: 10 }, alg)
    await assert.rejects(door.verify(shown, { ...options, nonce: '4712' }), { name: 'nonceDiffers' })
    await assert.rejects(door.verify(shown, { ...options, holderAlgs: [] }), { name: 'bindingAlg' })
    const mine = await pair('ES256')
    const stolen = await sdjwt.present(wish, ticket, { check, sign: mine.privateKey })
    await assert.rejects(door.verify(stolen, options), { name: 'bindingSignature' })
  }
})

test('a private JWK and a function sign too', async () => {
  const { privateKey, jwk } = await pair('ES256')
  const order = { payload: { seat: 'B12' } }
  const policy = new sdjwt.Policy({ keys: { keys: [] }, algs: ['ES256'] })
  const check = sdjwt.checkBy({ issuers: [jwk] })
  const byJwk = await sdjwt.issue(order, { sign: await subtle.exportKey('jwk', privateKey) })
  const sign = async (text) => new Uint8Array(await subtle.sign({ name: 'ECDSA', hash: 'SHA-256' }, privateKey, text))
  const byFunction = await sdjwt.issue(order, { sign, alg: 'ES256' })
  for (const token of [byJwk, byFunction]) assert.deepEqual(await policy.verify(token, { check }), { seat: 'B12' })
})

test('a key fits its algorithm', async () => {
  const { jwk, privateKey } = await pair('ES256')
  const token = await sdjwt.issue({ payload: {}, kid: 'a' }, { sign: privateKey })
  const policy = new sdjwt.Policy({ keys: { keys: [] }, algs: ['ES256', 'HS256', 'ES384'] })
  const verdict = (...issuers) => policy.verify(token, { check: sdjwt.checkBy({ issuers }) })
  assert.deepEqual(await verdict({ ...jwk, kid: 'a' }), {})
  const ofJwk = [{ kid: 'b' }, { use: 'enc' }, { alg: 'ES384' }, { key_ops: ['sign'] }]
  const unfit = [...ofJwk, { kty: 'RSA' }, { crv: 'P-384' }]
  for (const more of unfit) {
    await assert.rejects(verdict({ ...jwk, kid: 'a', ...more }), { name: 'issuerKeyUnknown' }, JSON.stringify(more))
  }
  for (const wrong of [{ x: 'AA' }, { y: jwk.x }, { x: 1 }]) {
    await assert.rejects(verdict({ ...jwk, kid: 'a', ...wrong }), { name: 'badSignature' }, JSON.stringify(wrong))
  }
  await assert.rejects(verdict(null, 3, 'key', {}), { name: 'issuerKeyUnknown' })
  // an HMAC under the bytes of a public key
  const forged = await sdjwt.issue({ payload: {}, key: jwk.x, kid: 'a' })
  const check = sdjwt.checkBy({ issuers: [{ ...jwk, kid: 'a' }] })
  await assert.rejects(policy.verify(forged, { check }), { name: 'issuerKeyUnknown' })
})

test('a CryptoKey checks, with a kid and without', async () => {
  for (const alg of Object.keys(PARAMETERS)) {
    const { privateKey, publicKey } = await subtle.generateKey(PARAMETERS[alg], false, ['sign', 'verify'])
    const other = await subtle.generateKey(PARAMETERS[alg], false, ['sign', 'verify'])
    const token = await sdjwt.issue({ payload: { seat: 'B12' }, kid: 'a' }, { sign: privateKey, alg })
    const policy = new sdjwt.Policy({ keys: { keys: [] }, algs: Object.keys(PARAMETERS) })
    const verdict = (...issuers) => policy.verify(token, { check: sdjwt.checkBy({ issuers }) })
    for (const good of [publicKey, { key: publicKey, kid: 'a' }]) {
      assert.deepEqual(await verdict(other.publicKey, good), { seat: 'B12' }, alg)
    }
    await assert.rejects(verdict(other.publicKey), { name: 'badSignature' }, alg)
    for (const unfit of [{ key: publicKey, kid: 'b' }, { key: publicKey }, privateKey, { key: {}, kid: 'a' }]) {
      await assert.rejects(verdict(unfit), { name: 'issuerKeyUnknown' }, alg)
    }
  }
})

test('a symmetric CryptoKey or JWK checks an HMAC, and no public key does', async () => {
  const k = 'AQEBAQEBAQEBAQEBAQEBAQEBAQEBAQEBAQEBAQEBAQE'
  const algorithm = { name: 'HMAC', hash: 'SHA-256' }
  const secret = await subtle.importKey('raw', Buffer.from(k, 'base64url'), algorithm, false, ['verify'])
  const short = await subtle.importKey('raw', Buffer.alloc(16, 1), algorithm, false, ['verify'])
  const token = await sdjwt.issue({ payload: {}, key: k })
  const policy = new sdjwt.Policy({ keys: { keys: [] }, algs: ['HS256'] })
  const verdict = (...issuers) => policy.verify(token, { check: sdjwt.checkBy({ issuers }) })
  for (const key of [secret, { kty: 'oct', k }]) assert.deepEqual(await verdict(key), {})
  for (const key of [short, { kty: 'oct', k: 'AQEB' }, { kty: 'oct' }]) {
    await assert.rejects(verdict(key), { name: 'badSignature' })
  }
  await assert.rejects(verdict((await pair('ES256')).jwk), { name: 'issuerKeyUnknown' })
})

test('a point of small order is no key of Ed25519', async () => {
  // under the point 1, R = 1 and S = 0 is a signature of every text
  const signature = new Uint8Array(64)
  signature[0] = 1
  const token = await sdjwt.issue({ payload: {} }, { sign: () => signature, alg: 'EdDSA' })
  const policy = new sdjwt.Policy({ keys: { keys: [] }, algs: ['EdDSA'] })
  const x = Buffer.from(Uint8Array.of(1, ...new Uint8Array(31))).toString('base64url')
  const jwk = { kty: 'OKP', crv: 'Ed25519', x }
  await assert.rejects(policy.verify(token, { check: sdjwt.checkBy({ issuers: [jwk] }) }), { name: 'badSignature' })
  const key = await subtle.importKey('jwk', jwk, { name: 'Ed25519' }, true, ['verify'])
  await assert.rejects(policy.verify(token, { check: sdjwt.checkBy({ issuers: [key] }) }), { name: 'badSignature' })
})

test('what check says', async () => {
  const { privateKey } = await pair('ES256')
  const token = await sdjwt.issue({ payload: {} }, { sign: privateKey })
  const policy = new sdjwt.Policy({ keys: { keys: [] }, algs: ['ES256'] })
  await assert.rejects(policy.verify(token, { check: () => null }), { number: 9 })
  await assert.rejects(policy.verify(token, { check: () => false }), { number: 10 })
  assert.deepEqual(await policy.verify(token, { check: async () => true }), {})
  for (const wrong of [undefined, 1, 'true', {}, [], [true], new Boolean(true), { toString: () => 'true' }]) {
    await assert.rejects(policy.verify(token, { check: () => wrong }), TypeError, String(wrong))
  }
  const fault = new Error('no connection')
  await assert.rejects(policy.verify(token, { check: () => { throw fault } }), fault)
  assert.deepEqual(await policy.verify(token, { check: () => true }), {})
})
