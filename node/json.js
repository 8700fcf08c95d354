// JSON with whole numbers of 64 bits: a number that JavaScript can't hold exactly is a BigInt, in both directions.
import { randomUUID } from 'node:crypto'

// The library writes compact JSON with whole numbers only, so this finds each string and each number.
const PIECES = /"(?:[^"\\]|\\.)*"|-?\d+/g

/** The value of a JSON text that the library wrote. */
export function parsed(text) {
  const mark = randomUUID()
  const marked = text.replace(PIECES, (piece) => {
    return piece[0] === '"' || Number.isSafeInteger(Number(piece)) ? piece : `"${mark}${piece}"`
  })
  if (marked === text) return JSON.parse(text)
  return JSON.parse(marked, (_, value) => {
    return typeof value === 'string' && value.startsWith(mark) ? BigInt(value.slice(mark.length)) : value
  })
}

/** The JSON text of a value. */
export function written(value) {
  const mark = randomUUID()
  let has = false
  const text = JSON.stringify(value, (_, inner) => {
    if (typeof inner !== 'bigint') return inner
    has = true
    return `${mark}${inner}`
  })
  if (text === undefined) throw new TypeError('a value that JSON does not have')
  return has ? text.replaceAll(new RegExp(`"${mark}(-?[0-9]+)"`, 'g'), '$1') : text
}
