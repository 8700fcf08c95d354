// What a careless caller does: callbacks that throw, promises that are rejected, workers and processes that end in a
// call, policies that are closed, buffers that change, and inputs of any type and length.
import assert from 'node:assert/strict'
import { spawnSync } from 'node:child_process'
import { test } from 'node:test'
import { Worker, isMainThread, parentPort, workerData } from 'node:worker_threads'
import * as sdjwt from '../index.js'

const key = 'AQEBAQEBAQEBAQEBAQEBAQEBAQEBAQEBAQEBAQEBAQE'
const keys = { keys: [{ kty: 'oct', kid: 'a', k: key }] }
const NO_KEYS = { keys: [] }
const now = 1000
const order = { payload: { iss: 'tickets', cnf: { jwk: { kty: 'EC' } }, seat: 'B12' }, hide: ['/seat'] }
const wish = { algs: ['ES256'], want: ['/seat'], binding: { aud: 'door', nonce: '1', alg: 'ES256' } }
const byOnes = { sign: () => new Uint8Array(64).fill(1), alg: 'ES256' }
const binding = { aud: 'door', nonce: '1', max_age: 60, keys: NO_KEYS }
const door = () => new sdjwt.Policy({ keys: NO_KEYS, algs: ['ES256'], binding })
const shown = async () => sdjwt.present(wish, await sdjwt.issue(order, byOnes), { now, check: () => true, ...byOnes })

async function largeToken() {
  const members = Object.fromEntries(Array.from({ length: 500 }, (_, i) => [`name ${i}`, i]))
  return sdjwt.issue({ payload: members, hide: Object.keys(members).map((name) => `/${name}`), key, kid: 'a' })
}

// A worker that goes on with calls until it is ended.
async function calls(token) {
  const [large, small] = [new sdjwt.Policy({ keys }), door()]
  const presented = await shown()
  parentPort.postMessage('begun')
  for (;;) {
    const check = async () => { await new Promise(setImmediate); return true }
    await Promise.all([...Array.from({ length: 8 }, () => large.verify(token)),
      ...Array.from({ length: 8 }, () => small.verify(presented, { now, check, nonce: '1' }))])
  }
}

if (!isMainThread) {
  if (workerData.stack) {
    const deep = JSON.parse(`${'['.repeat(90)}1${']'.repeat(90)}`)
    const said = await sdjwt.issue({ payload: { deep }, key }).then(() => 'issued', (error) => error.message)
    let read = 'read'
    try { new sdjwt.Policy({ keys }) } catch (error) { read = `${error.name}: ${error.message}` }
    parentPort.postMessage([said, read])
  } else await calls(workerData.token)
} else {
  test('callbacks that throw and promises that are rejected', async () => {
    const [policy, token] = [door(), await shown()]
    const fault = new Error('no connection')
    const ticket = await sdjwt.issue(order, byOnes)
    const faulty = [() => { throw fault }, async () => { throw fault }, () => Promise.reject(fault),
      () => ({ then: (_, reject) => reject(fault) }), () => ({ get then() { throw fault } })]
    for (const fails of faulty) {
      await assert.rejects(policy.verify(token, { now, check: fails }), fault)
      await assert.rejects(policy.verify(token, { now, check: ({ whose }) => whose === 'issuer' || fails() }), fault)
      await assert.rejects(sdjwt.issue(order, { sign: fails, alg: 'ES256' }), fault)
      await assert.rejects(sdjwt.present(wish, ticket, { now, check: fails, ...byOnes }), fault)
      await assert.rejects(sdjwt.present(wish, ticket, { now, check: () => true, sign: fails, alg: 'ES256' }), fault)
    }
    for (const reason of [undefined, null, 7]) {
      const rejected = policy.verify(token, { now, check: () => Promise.reject(reason) })
      assert.deepEqual(await rejected.then(() => [], (said) => [said]), [reason])
    }
    assert.equal((await policy.verify(token, { now, check: () => true })).seat, 'B12')
  })

  test('a promise that never settles holds up no other call', async () => {
    const [policy, token] = [door(), await shown()]
    for (let i = 0; i < 100; i += 1) policy.verify(token, { now, check: () => new Promise(() => {}) })
    const all = await Promise.all(Array.from({ length: 100 }, () => policy.verify(token, { now, check: () => true })))
    assert.ok(all.every(({ seat }) => seat === 'B12'))
  })

  test('a call inside a call', async () => {
    const [policy, token] = [door(), await shown()]
    const inner = async () => {
      await assert.rejects(policy.verify(token, { now, check: () => true, nonce: '2' }), { name: 'nonceDiffers' })
      return (await policy.verify(token, { now, check: () => true })).seat === 'B12'
    }
    assert.equal((await policy.verify(token, { now, check: inner })).seat, 'B12')
  })

  test('workers that are ended in a call', async () => {
    const token = await largeToken()
    await Promise.all(Array.from({ length: 12 }, async (_, i) => {
      const worker = new Worker(new URL(import.meta.url), { workerData: { token } })
      await new Promise((resolve, reject) => { worker.once('message', resolve); worker.once('error', reject) })
      await new Promise((resolve) => { setTimeout(resolve, 5 * i) })
      assert.equal(await worker.terminate(), 1)
    }))
    assert.equal(Object.keys(await sdjwt.verify({ keys }, token)).length, 500)
  })

  test('a process that ends in a call', async () => {
    const program = `import * as sdjwt from ${JSON.stringify(new URL('../index.js', import.meta.url).href)}
      const policy = new sdjwt.Policy(${JSON.stringify({ keys })})
      for (let i = 0; i < 50; i += 1) policy.verify('A'.repeat(1e6)).catch(() => {})
      setTimeout(() => process.exit(3), Number(process.argv[1]))`
    for (const after of [0, 1, 20]) {
      const words = ['--input-type=module', '-e', program, String(after)]
      const { status, signal, stderr } = spawnSync(process.execPath, words)
      assert.deepEqual([status, signal, String(stderr)], [3, null, ''])
    }
  })

  test('a policy that is closed', async () => {
    const [policy, token] = [door(), await shown()]
    let inside
    const begun = new Promise((resolve) => { inside = resolve })
    let goOn
    const waits = new Promise((resolve) => { goOn = resolve })
    const running = policy.verify(token, { now, check: async () => { inside(); await waits; return true } })
    await begun
    policy.close()
    policy.close()
    goOn()
    assert.equal((await running).seat, 'B12')
    for (const options of [{ now }, { now, nonce: '1' }, { now, check: () => assert.fail('asked') }]) {
      await assert.rejects(policy.verify(token, options), { message: 'the policy is closed' })
      await assert.rejects(policy.verifyText(token, options), { message: 'the policy is closed' })
    }
  })

  test('a policy does not go to another thread', () => {
    const copy = structuredClone(door())
    assert.ok(!(copy instanceof sdjwt.Policy) && copy.verify === undefined)
    assert.throws(() => sdjwt.Policy.prototype.close.call(copy), TypeError)
    assert.throws(() => sdjwt.Policy({ keys }), TypeError)
  })

  test('a thread with a small stack', async () => {
    const said = (stackSizeMb) => new Promise((resolve, reject) => {
      const options = { workerData: { stack: true }, resourceLimits: { stackSizeMb } }
      const worker = new Worker(new URL(import.meta.url), options)
      worker.once('message', resolve)
      worker.once('error', reject)
    })
    assert.deepEqual(await said(4), ['issued', 'read'])
    // calls run on the threads of the pool, and a policy is read on the worker's own
    const fault = 'RangeError: a call needs 512 KiB of stack, and this thread has less left'
    assert.deepEqual(await said(0.45), ['issued', fault])
  })

  test('buffers that change during a call', async () => {
    const ticket = new TextEncoder().encode(await sdjwt.issue({ payload: { seat: 'B12' }, key, kid: 'a' }))
    const file = new TextEncoder().encode(JSON.stringify({ keys }))
    const policy = new sdjwt.Policy(file)
    file.fill(0)
    for (let i = 0; i < 100; i += 1) {
      const token = ticket.slice()
      const running = policy.verify(token)
      if (i % 2 === 0) token.fill(65)
      else structuredClone(token.buffer, { transfer: [token.buffer] })
      assert.equal((await running).seat, 'B12')
    }
    const shared = new Uint8Array(new SharedArrayBuffer(ticket.length))
    shared.set(ticket)
    assert.equal((await policy.verify(shared)).seat, 'B12')
    const detached = ticket.slice()
    structuredClone(detached.buffer, { transfer: [detached.buffer] })
    await assert.rejects(policy.verify(detached), { number: 2 })
    const part = new Uint8Array([...new Uint8Array(7), ...ticket, 0]).subarray(7, 7 + ticket.length)
    assert.equal((await policy.verify(part)).seat, 'B12')
  })

  test('tokens and files that are too long', async () => {
    const policy = door()
    for (const [length, number] of [[8388608, 2], [8388609, 1], [16777217, 1], [100_000_000, 1]]) {
      await assert.rejects(policy.verify('A'.repeat(length), { now }), { number })
      await assert.rejects(sdjwt.show(new Uint8Array(length).fill(65)), { number })
    }
    const long = '7'.repeat(20_000_000)
    assert.throws(() => new sdjwt.Policy(long), { name: 'Unreadable', input: 1 })
    await assert.rejects(sdjwt.issue(long), { name: 'Unreadable', input: 1 })
    await assert.rejects(sdjwt.issue(order, { sign: () => new Uint8Array(7_000_000), alg: 'ES256' }), { number: 61 })
  })

  test('files of no form', async () => {
    for (const file of ['', '\0', '[]', '{}', 'nonsense', [], {}, new Uint8Array(0), new Date(), new Map()]) {
      const wrong = { name: 'Unreadable', input: 1 }
      assert.throws(() => new sdjwt.Policy(file), wrong)
      await assert.rejects(sdjwt.issue(file), wrong)
      await assert.rejects(sdjwt.issue(file, byOnes), wrong)
      await assert.rejects(sdjwt.present(file, 'x'), wrong)
      await assert.rejects(sdjwt.wallet(file, ['x']), wrong)
      await assert.rejects(sdjwt.audit(file, 'x'), wrong)
    }
    const circle = {}
    circle.itself = circle
    assert.throws(() => new sdjwt.Policy(circle), TypeError)
    await assert.rejects(sdjwt.issue({ get payload() { throw new SyntaxError('mine') } }), { message: 'mine' })
    await assert.rejects(sdjwt.issue({ toJSON: () => undefined }), TypeError)
  })

  test('options of other types', async () => {
    const [policy, token] = [door(), await shown()]
    for (const check of [null, 7, 'check', {}, true]) {
      await assert.rejects(policy.verify(token, { now, check }), TypeError)
      await assert.rejects(sdjwt.present(wish, token, { now, check, ...byOnes }), TypeError)
    }
    for (const sign of [null, 7, 'sign', true, new Uint8Array(64), {}]) {
      await assert.rejects(sdjwt.issue(order, { sign, alg: 'ES256' }), { name: /TypeError|DataError/ })
    }
    for (const signature of [undefined, null, 'AQ', [1], new ArrayBuffer(64)]) {
      await assert.rejects(sdjwt.issue(order, { sign: () => signature, alg: 'ES256' }), TypeError)
    }
    for (const holderAlgs of ['ES256', [7], [undefined], () => [], {}, null]) {
      await assert.rejects(policy.verify(token, { now, check: () => true, holderAlgs }), TypeError)
    }
    await assert.rejects(policy.verify(token, { now, holderAlgs: ['ES256'] }), TypeError)
    await assert.rejects(policy.verify(token, { now, nonce: '\ud800' }), RangeError)
    await assert.rejects(sdjwt.show('\udfff'), RangeError)
    await assert.rejects(sdjwt.present(wish, token, { now, alg: 'ES256', check: () => true }), TypeError)
    for (const tokens of [undefined, null, 7, 'x', {}]) {
      await assert.rejects(sdjwt.wallet({ keys }, tokens), { message: 'tokens is no list of tokens' })
    }
    await assert.rejects(sdjwt.wallet({ keys }, [7]), TypeError)
    for (const issuers of [undefined, null, 7, {}]) assert.throws(() => sdjwt.checkBy({ issuers }), TypeError)
    assert.throws(() => sdjwt.checkBy(), TypeError)
  })
}
