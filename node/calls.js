// One call of the library, and what its status means.
import { createRequire } from 'node:module'
import { Refused, Unreadable } from './errors.js'

const addon = createRequire(import.meta.url)('./sdjwt.node')

// The numbers of the calls in addon.c.
export const OP = Object.freeze(Object.fromEntries([
  'issue', 'issueAsk', 'issueSign', 'present', 'presentAsk', 'presentSign',
  'show', 'split', 'convert', 'audit', 'wallet',
  'policyNew', 'policyNonce', 'policyVerify', 'policyJudge',
  'questionText', 'questionSignature', 'questionAlg', 'questionKid', 'questionAt',
].map((name, number) => [name, number])))

// The statuses of sdjwt.h.
export const STATUS = Object.freeze({ done: 0, asks: 7, toSign: 9, missing: 10 })
const REFUSED = 1, USAGE = 2, MEMORY = 5, UNREADABLE = 6
// That of addon.c for a thread with too little stack.
const NO_STACK = 255

export const { version, isProved, newHandle, freeHandle } = addon

const text = new TextDecoder('utf-8', { fatal: true, ignoreBOM: true })
const bytesOf = new TextEncoder()

/** A text without a line end. */
export function line(answer) {
  const said = text.decode(answer)
  return said.endsWith('\n') ? said.slice(0, -1) : said
}

/** The bytes of a string. */
export function encoded(string) {
  if (/\p{Surrogate}/u.test(string)) throw new RangeError('a string has half of a surrogate pair: it is not Unicode')
  return bytesOf.encode(string)
}

/** The status and the answer of a call that gives one; `misused` says which rule a wrong argument breaks. */
function judged({ status, answer }, misused) {
  switch (status) {
    case STATUS.done: case STATUS.asks: case STATUS.toSign: case STATUS.missing: return { status, answer }
    case REFUSED: throw new Refused(line(answer))
    case UNREADABLE: throw new Unreadable(line(answer))
    case USAGE: throw new RangeError(misused ?? 'an argument breaks a rule of the library')
    case MEMORY: throw new RangeError('the library found no memory')
    case NO_STACK: throw new RangeError('a call needs 512 KiB of stack, and this thread has less left')
    default: throw new Error(`the library has an unknown status: ${status}`)
  }
}

/** A call on a thread of the pool. */
export async function call(op, inputs, more = {}, misused = undefined) {
  return judged(await addon.run({ op, inputs, ...more }), misused)
}

/** A call at once: for what is short. */
export function callNow(op, inputs, more = {}, misused = undefined) {
  return judged(addon.runNow({ op, inputs, ...more }), misused)
}
