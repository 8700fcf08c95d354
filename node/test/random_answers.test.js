// A million random results of `check`: each verdict is the one that follows from them, and each signature is asked
// about once, the issuer's first. Three of four calls run in worker threads. ANSWERS is another number of them.
import assert from 'node:assert/strict'
import { test } from 'node:test'
import { Worker, isMainThread, parentPort, workerData } from 'node:worker_threads'
import * as sdjwt from '../index.js'

const ANSWERS = Number(process.env.ANSWERS ?? 1_000_000)
const WORKERS = 3
const AT_ONCE = 64
const now = 1000
const NO_KEYS = { keys: [] }
const FAULT = new Error('no connection')

async function token(nonce) {
  const order = { payload: { iss: 'tickets', cnf: { jwk: { kty: 'EC' } }, name: 'Ada', seat: 'B12' },
    hide: ['/name', '/seat'], kid: 'office' }
  const ticket = await sdjwt.issue(order, { sign: () => new Uint8Array(64).fill(1), alg: 'ES256' })
  const wish = { algs: ['ES256'], want: ['/seat'], ...(nonce && { binding: { aud: 'door', nonce, alg: 'ES256' } }) }
  return sdjwt.present(wish, ticket, { now, check: () => true, sign: () => new Uint8Array(64).fill(2), alg: 'ES256' })
}

// A token, a policy for it, and the refusals that follow a good signature of the issuer, and both.
async function cases() {
  const policy = (name, bound) => new sdjwt.Policy({ keys: NO_KEYS, algs: ['ES256'], require: [name],
    ...(bound && { binding: { aud: 'door', nonce: '4711', max_age: 60, keys: NO_KEYS } }) })
  return [
    { policy: policy('seat', false), token: await token() },
    { policy: policy('name', false), token: await token(), afterIssuer: 23 },
    { policy: policy('seat', true), token: await token('4711'), bound: true },
    { policy: policy('name', true), token: await token('4711'), bound: true, afterIssuer: 23 },
    { policy: policy('seat', true), token: await token('4712'), bound: true, afterBoth: 35 },
  ]
}

// What check returns, and what it means: a number is a refusal of the issuer's signature and one of the holder's.
const SAID = [
  { give: () => null, refused: [9, 27] },
  { give: () => false, refused: [10, 30] },
  { give: async () => false, refused: [10, 30] },
  { give: () => true },
  { give: () => true },
  { give: async () => true },
  { give: () => ({ then: (resolve) => resolve(true) }) },
  { give: () => undefined, thrown: TypeError },
  { give: () => 1, thrown: TypeError },
  { give: () => 'true', thrown: TypeError },
  { give: () => [true], thrown: TypeError },
  { give: () => Symbol('true'), thrown: TypeError },
  { give: () => new Boolean(true), thrown: TypeError },
  { give: () => ({ toString: () => 'true' }), thrown: TypeError },
  { give: () => { throw FAULT }, thrown: Error },
  { give: async () => { throw FAULT }, thrown: Error },
]

function due({ bound, afterIssuer, afterBoth }, issuer, holder) {
  if (issuer.thrown) return issuer.thrown
  if (issuer.refused) return issuer.refused[0]
  if (afterIssuer || !bound) return afterIssuer
  return holder.thrown ?? holder.refused?.[1] ?? afterBoth
}

async function isAsDue(one, issuer, holder) {
  const asked = []
  const check = ({ whose, signature }) => {
    asked.push(whose)
    assert.equal(signature.length === 64 && signature[0], whose === 'issuer' ? 1 : 2)
    return (whose === 'issuer' ? issuer : holder).give()
  }
  const expected = due(one, issuer, holder)
  try {
    const claims = await one.policy.verifyText(one.token, { now, check })
    assert.equal(expected, undefined)
    assert.ok(claims.endsWith(',"iss":"tickets","seat":"B12"}'), claims)
  } catch (error) {
    if (typeof expected === 'number') assert.equal(error.number, expected)
    else assert.ok(expected !== undefined && error.constructor === expected, `${error}`)
  }
  const isHolderAsked = one.bound && !issuer.thrown && !issuer.refused && !one.afterIssuer
  assert.equal(asked.join(), isHolderAsked ? 'issuer,holder' : 'issuer')
}

// xorshift: the same numbers in each run
function randomOf(seed) {
  let state = seed >>> 0
  return (bound) => {
    state ^= state << 13
    state ^= state >>> 17
    state ^= state << 5
    return (state >>> 0) % bound
  }
}

async function answers(count, seed) {
  const [all, below] = [await cases(), randomOf(seed)]
  let left = count
  await Promise.all(Array.from({ length: AT_ONCE }, async () => {
    for (; left > 0;) {
      left -= 1
      await isAsDue(all[below(all.length)], SAID[below(SAID.length)], SAID[below(SAID.length)])
    }
  }))
  return count
}

if (!isMainThread) {
  parentPort.postMessage(await answers(...workerData))
} else {
  test('each answer with each', async () => {
    for (const one of await cases()) {
      for (const issuer of SAID) for (const holder of SAID) await isAsDue(one, issuer, holder)
    }
  })

  test('random answers', async () => {
    const share = Math.floor(ANSWERS / (WORKERS + 1))
    const workers = Array.from({ length: WORKERS }, (_, at) => new Promise((resolve, reject) => {
      const worker = new Worker(new URL(import.meta.url), { workerData: [share, 1000 + at] })
      worker.once('message', resolve)
      worker.once('error', reject)
    }))
    const counts = await Promise.all([answers(ANSWERS - WORKERS * share, 7), ...workers])
    const count = counts.reduce((one, other) => one + other)
    console.log(`${count} random results of check`)
    assert.equal(count, ANSWERS)
  })
}
