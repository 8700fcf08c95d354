/** JSON, with a BigInt for a whole number that a number can't hold exactly. */
export type Json = null | boolean | number | bigint | string | Json[] | { [name: string]: Json }
export type Claims = { [name: string]: Json }

/** An order, a policy or a query (docs/FILES.md): an object, or its JSON. */
export type File = object | string | Uint8Array
/** A token in any of its forms: the compact string, its bytes, or the object of a JSON form. */
export type Token = string | Uint8Array | object
/** Seconds since 1970, or a Date; the present if it is missing. */
export type Time = number | bigint | Date

export interface Jwk { readonly kty: string; readonly [member: string]: unknown }
/** A key that checks signatures: a JWK, a CryptoKey, which is tried for any `kid`, or a CryptoKey with its `kid`. */
export type PublicKey = Jwk | CryptoKey | { readonly key: CryptoKey; readonly kid?: string }

/** A signature to check. All of it comes from whoever made the token. */
export interface Question {
  readonly whose: 'issuer' | 'holder'
  /** The bytes that were signed. */
  readonly text: Uint8Array
  /** The signature as a JWS has it: for ES256 the 64 bytes of r and s, not DER. */
  readonly signature: Uint8Array
  readonly alg: string
  readonly kid?: string
  readonly typ?: string
  /** For the holder's signature: the processed payload, whose `cnf` names the key. */
  readonly payload?: Claims
}

/** Whether a signature is good, or null if there is no key for it. */
export type Check = (question: Question) => boolean | null | PromiseLike<boolean | null>
/** The signature of these bytes, as a JWS has it. */
export type Sign = (text: Uint8Array) => Uint8Array | PromiseLike<Uint8Array>
/** A private CryptoKey, a private JWK, or a function; `alg` is then its algorithm. */
export type Signer = CryptoKey | Jwk | Sign

export interface IssueOptions { seed?: Uint8Array; sign?: Signer; alg?: string }
export interface PresentOptions { now?: Time; check?: Check; sign?: Signer; alg?: string }
export interface VerifyOptions { now?: Time; nonce?: string; check?: Check; holderAlgs?: readonly string[] }

/** The token of an order. Without `sign` the order has a symmetric key; the seed is random if it is missing. */
export function issue(order: File, options?: IssueOptions): Promise<string>
/** The holder's presentation of a token. With `check` and `sign` the order has no keys, but `algs`. */
export function present(order: File, token: Token, options?: PresentOptions): Promise<string>
/** The claims of a token that a policy accepts; for many tokens keep a Policy. */
export function verify(policy: File, token: Token, options?: VerifyOptions): Promise<Claims>

/** A policy that is read once. Its calls run side by side, on the threads of the pool. */
export class Policy {
  constructor(policy: File)
  /** The claims of a token that the policy accepts. */
  verify(token: Token, options?: VerifyOptions): Promise<Claims>
  /** The same as JSON text. */
  verifyText(token: Token, options?: VerifyOptions): Promise<string>
  /** Frees the memory now. Calls that have begun end as usual, and later ones are rejected. */
  close(): void
}

/** A check over keys, by WebCrypto. The holder's key is that of `cnf`, or the one of `holders` that has its `kid`. */
export function checkBy(keys: { issuers: Iterable<PublicKey>; holders?: Iterable<PublicKey> }): Check

/** Unchecked: the JSON inside a token, a line for each part. */
export function show(token: Token): Promise<string>
/** Unchecked: the parts of a token, a line each. */
export function split(token: Token): Promise<string>
/** Unchecked: the token in a form. */
export function convert(form: 'compact', token: Token): Promise<string>
export function convert(form: 'flat' | 'general', token: Token): Promise<Claims>
/** Nothing, if a token matches an order that has a symmetric key. */
export function audit(order: File, token: Token): Promise<void>
/** The token, of 1 to 64, that satisfies a query with the fewest disclosures. */
export function wallet(query: File, tokens: Iterable<Token>): Promise<{ index: number; token: string }>

/** Each refusal of this package. `line` is the line that the program sdjwt prints. */
export class SdJwtError extends Error {
  readonly line: string
  readonly explanation: string
  readonly cause: string
  readonly remedy: string
}
/** A rule refuses the token or the order. `name` is the name of the rule, for example `badSignature`. */
export class Refused extends SdJwtError {
  readonly number: number
  readonly place: string | null
}
/** An order, a policy or a query does not have its form. */
export class Unreadable extends SdJwtError {
  readonly input: number
  readonly reason: string
}

/** The version of the C library, and whether it says that it was built from proved code. */
export const version: string
export const isProved: boolean
