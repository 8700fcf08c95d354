// What the compiler takes and refuses of index.d.ts; tsc checks it, and nobody runs it.
import * as sdjwt from 'sdjwt'

declare const pair: CryptoKeyPair
declare const jwk: sdjwt.Jwk

export async function taken(): Promise<void> {
  const ticket: string = await sdjwt.issue({ payload: {} }, { sign: pair.privateKey })
  await sdjwt.issue('{"payload": {}}', { sign: jwk, seed: new Uint8Array(32) })
  await sdjwt.issue(new Uint8Array(2), { sign: async (text) => text.slice(0, 64), alg: 'ES256' })
  const check: sdjwt.Check = sdjwt.checkBy({ issuers: [jwk, pair.publicKey, { key: pair.publicKey, kid: 'office' }] })
  const shown = await sdjwt.present({}, ticket, { check, sign: pair.privateKey, now: new Date() })
  const door = new sdjwt.Policy({ keys: { keys: [] } })
  const claims = await door.verify(shown, { check, nonce: '4711', holderAlgs: ['ES256'], now: 7n })
  const seat: sdjwt.Json | undefined = claims.seat
  if (typeof seat === 'bigint') seat.toString()
  await door.verify(ticket, { check: (question) => (question.whose === 'issuer' ? null : question.text.length > 0) })
  await door.verify(ticket, { check: async ({ payload }) => payload?.cnf !== undefined })
  const compact: string = await sdjwt.convert('compact', ticket)
  const general: sdjwt.Claims = await sdjwt.convert('general', compact)
  const { index, token }: { index: number; token: string } = await sdjwt.wallet({}, new Set([ticket, general]))
  door.close()
  const nothing: void = await sdjwt.audit({}, token + index)
  return nothing
}

export function caught(error: unknown): string {
  if (error instanceof sdjwt.Refused) return `${error.name} ${error.number.toFixed()} ${error.place ?? error.message}`
  if (error instanceof sdjwt.Unreadable) return `${error.input.toFixed()} ${error.reason} ${error.remedy}`
  return sdjwt.isProved ? sdjwt.version : 'not proved'
}

export async function refused(): Promise<void> {
  // @ts-expect-error a policy is no number
  new sdjwt.Policy(7)
  // @ts-expect-error a seed is no string
  await sdjwt.issue({}, { seed: '7' })
  // @ts-expect-error a check returns no string
  await sdjwt.verify({}, 'x', { check: () => 'true' })
  // @ts-expect-error nor nothing
  await sdjwt.verify({}, 'x', { check: async () => undefined })
  // @ts-expect-error a signature is no string
  await sdjwt.issue({}, { sign: () => 'AQ', alg: 'ES256' })
  // @ts-expect-error there is no such form
  await sdjwt.convert('other', 'x')
  // @ts-expect-error a question does not change
  sdjwt.verify({}, 'x', { check: (question) => { question.alg = 'none'; return true } })
  // @ts-expect-error a nonce is no number
  await sdjwt.verify({}, 'x', { nonce: 4711 })
  // @ts-expect-error verify returns a promise
  sdjwt.verify({}, 'x').seat
  // @ts-expect-error issuers are missing
  sdjwt.checkBy({})
  // @ts-expect-error the version does not change
  sdjwt.version = '1'
}
