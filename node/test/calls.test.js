// Calls side by side, the event loop, numbers of 64 bits, and wrong hands.
import assert from 'node:assert/strict'
import { test } from 'node:test'
import { readFileSync } from 'node:fs'
import { Worker, isMainThread, parentPort } from 'node:worker_threads'
import * as sdjwt from '../index.js'

const key = 'AQEBAQEBAQEBAQEBAQEBAQEBAQEBAQEBAQEBAQEBAQE'
const keys = { keys: [{ kty: 'oct', kid: 'a', k: key }] }
const now = 1000

async function shown(seat, nonce) {
  const ticket = await sdjwt.issue({ payload: { cnf: { kid: 'a' }, seat }, hide: ['/seat'], key, kid: 'a' })
  return sdjwt.present({ keys, want: ['/seat'], binding: { key, kid: 'a', aud: 'door', nonce } }, ticket, { now })
}

const binding = { aud: 'door', nonce: 'own', max_age: 60, keys }
const door = () => new sdjwt.Policy({ keys, require: ['seat'], binding })

if (!isMainThread) {
  const token = await shown('B12', 'own')
  const policy = door()
  const all = await Promise.all(Array.from({ length: 200 }, () => policy.verify(token, { now })))
  parentPort.postMessage(all.every((claims) => claims.seat === 'B12'))
} else {
  test('many nonces at once under one policy', async () => {
    const policy = door()
    const tokens = await Promise.all(Array.from({ length: 16 }, (_, i) => shown(`seat ${i}`, `nonce ${i}`)))
    const own = await shown('own seat', 'own')
    await Promise.all(Array.from({ length: 2000 }, async (_, i) => {
      const at = i % 16
      if (i % 3 === 0) return assert.equal((await policy.verify(own, { now })).seat, 'own seat')
      if (i % 3 === 1) {
        const { seat } = await policy.verify(tokens[at], { now, nonce: `nonce ${at}` })
        return assert.equal(seat, `seat ${at}`)
      }
      return assert.rejects(policy.verify(tokens[at], { now, nonce: `nonce ${at + 1}` }), { name: 'nonceDiffers' })
    }))
  })

  test('a long token does not block the event loop', async () => {
    const members = Object.fromEntries(Array.from({ length: 8000 }, (_, i) => [`name ${i}`, i]))
    const order = { payload: members, hide: Object.keys(members).map((name) => `/${name}`), key }
    const token = await sdjwt.issue(order)
    const policy = new sdjwt.Policy({ keys })
    let ticks = 0, ended = false
    const tick = () => { if (!ended) { ticks += 1; setImmediate(tick) } }
    setImmediate(tick)
    await policy.verifyText(token)
    ended = true
    assert.ok(ticks > 10, `the loop turned ${ticks} times`)
  })

  test('the version is that of the library', () => {
    const { version } = JSON.parse(readFileSync(new URL('../package.json', import.meta.url)))
    assert.equal(sdjwt.version, version.split('+')[0])
    assert.equal(typeof sdjwt.isProved, 'boolean')
  })

  test('worker threads', async () => {
    const workers = Array.from({ length: 4 }, () => new Worker(new URL(import.meta.url)))
    const said = await Promise.all(workers.map((worker) => new Promise((resolve, reject) => {
      worker.once('message', resolve)
      worker.once('error', reject)
    })))
    assert.deepEqual(said, [true, true, true, true])
  })

  test('numbers that JavaScript can not hold', async () => {
    const payload = { least: -(2n ** 63n), most: 2n ** 64n - 1n, text: '100000000000000000000' }
    payload.list = [9007199254740993n, 7]
    const token = await sdjwt.issue({ payload, key })
    const claims = await sdjwt.verify({ keys }, token)
    assert.deepEqual(claims, payload)
    assert.equal(await new sdjwt.Policy({ keys }).verifyText(token, { now }), '{"least":-9223372036854775808,' +
      '"list":[9007199254740993,7],"most":18446744073709551615,"text":"100000000000000000000"}')
  })

  test('seeds', async () => {
    const order = { payload: { seat: 1 }, hide: ['/seat'], key }
    const seed = new Uint8Array(32).fill(7)
    assert.equal(await sdjwt.issue(order, { seed }), await sdjwt.issue(order, { seed }))
    assert.notEqual(await sdjwt.issue(order), await sdjwt.issue(order))
    for (const length of [0, 31, 33]) {
      await assert.rejects(sdjwt.issue(order, { seed: new Uint8Array(length) }), RangeError)
    }
    await assert.rejects(sdjwt.issue(order, { seed: '7'.repeat(32) }), TypeError)
  })

  test('arguments of other types', async () => {
    const policy = door()
    for (const token of [undefined, null, 7, true, () => 1, Symbol('t'), new Float64Array(2)]) {
      await assert.rejects(policy.verify(token), TypeError)
      await assert.rejects(sdjwt.show(token), TypeError)
    }
    for (const time of ['now', NaN, Infinity, {}]) await assert.rejects(policy.verify('x', { now: time }), TypeError)
    for (const time of [-1, 2n ** 64n]) await assert.rejects(policy.verify('x', { now: time }), RangeError)
    for (const wrong of [undefined, null, 7]) assert.throws(() => new sdjwt.Policy(wrong), TypeError)
    assert.throws(() => new sdjwt.Policy('{'), { name: 'Unreadable', line: 'unreadable 1 notJson' })
    await assert.rejects(policy.verify('x', { nonce: 7 }), TypeError)
    await assert.rejects(policy.verify('x', { nonce: 'n'.repeat(257) }), RangeError)
    await assert.rejects(policy.verify('x', { nonce: 'n'.repeat(256) }), { name: 'form' })
    await assert.rejects(new sdjwt.Policy({ keys }).verify('x', { nonce: 'n' }), RangeError)
    await assert.rejects(sdjwt.convert('other', 'x'), RangeError)
    await assert.rejects(sdjwt.issue({ payload: {} }, { alg: 'ES256' }), TypeError)
    await assert.rejects(sdjwt.issue({ payload: {} }, { sign: () => new Uint8Array(0), alg: 'ES256' }), RangeError)
    for (const alg of ['', 'none']) {
      await assert.rejects(sdjwt.issue({ payload: {} }, { sign: () => new Uint8Array(1), alg }), RangeError)
    }
  })

  test('bytes that are no token', async () => {
    const policy = door()
    for (const token of ['', '\0', '{}', '[', 'a.b.c', '~', 'A'.repeat(70000), new Uint8Array([255, 254])]) {
      await assert.rejects(policy.verify(token), { number: 2, name: 'form' })
      await assert.rejects(policy.verify(token, { check: () => assert.fail('asked') }), { number: 2 })
    }
  })

  test('a wallet, an audit and forms', async () => {
    const ticket = (seat) => sdjwt.issue({ payload: { seat }, hide: ['/seat'], key, kid: 'a' })
    const tickets = await Promise.all(['A1', 'B12'].map(ticket))
    const query = { keys, equal: [{ at: '/seat', value: 'B12' }] }
    assert.equal((await sdjwt.wallet(query, tickets)).index, 1)
    await assert.rejects(sdjwt.wallet(query, tickets.slice(0, 1)), { name: 'noCredentialAnswers', number: 77 })
    for (const tokens of [[], Array(65).fill(tickets[0])]) await assert.rejects(sdjwt.wallet(query, tokens), RangeError)
    await assert.rejects(sdjwt.wallet(query, ['', '~']), { number: 77 })
    const order = { payload: { seat: 'A1' }, hide: ['/seat'], key, kid: 'a' }
    assert.equal(await sdjwt.audit(order, tickets[0]), undefined)
    await assert.rejects(sdjwt.audit(order, tickets[1]), { name: 'payloadDiffers' })
    const general = await sdjwt.convert('general', tickets[0])
    assert.equal(await sdjwt.convert('compact', general), tickets[0])
  })

  test('an error says what to do', async () => {
    const token = await sdjwt.issue({ payload: {}, key })
    const error = await sdjwt.verify({ keys, require: ['age'] }, token).catch((fault) => fault)
    assert.ok(error instanceof sdjwt.Refused && error instanceof Error)
    assert.equal(error.line, 'refused 23 claimMissing at 0')
    assert.ok(error.message.startsWith(`${error.line}: `) && error.remedy !== '')
    assert.equal(error.place, '0')
  })
}
