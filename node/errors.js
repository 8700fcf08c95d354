// Why a call gives no result.
import { readFileSync } from 'node:fs'

const TEXTS = JSON.parse(readFileSync(new URL('./refusals.json', import.meta.url), 'utf8'))

/** Each error of this package. `line` is what the program sdjwt prints. */
export class SdJwtError extends Error {
  constructor(line, heading) {
    const texts = TEXTS[heading] ?? { explanation: '', cause: '', remedy: '' }
    super(texts.explanation === '' ? line : `${line}: ${texts.explanation}`)
    this.line = line
    Object.assign(this, texts)
  }
}

/** A rule refuses the token or the order. `name` is that of the rule, as `badSignature`. */
export class Refused extends SdJwtError {
  constructor(line) {
    const [, number, name] = line.split(' ', 3)
    super(line, `refused ${number} ${name}`)
    this.name = name
    this.number = Number(number)
    this.place = line.includes(' at ') ? line.slice(line.indexOf(' at ') + 4) : null
  }
}

/** An order, a policy or a query is not of its form. */
export class Unreadable extends SdJwtError {
  constructor(line) {
    const [, input] = line.split(' ', 2)
    const reason = line.slice(`unreadable ${input} `.length)
    super(line, `unreadable ${reason}`)
    this.name = 'Unreadable'
    this.input = Number(input)
    this.reason = reason
  }
}
