// The vectors of ../../vectors through the calls of the package.
import assert from 'node:assert/strict'
import { readFileSync, readdirSync } from 'node:fs'
import { test } from 'node:test'
import * as sdjwt from '../index.js'

const FOLDER = new URL('../../vectors/', import.meta.url)
const SOME_MOMENT = 1_800_000_000
const COUNTS = { issue: [2], present: [2], verify: [2], convert: [2], show: [1], split: [1], audit: [2] }

// Vectors have numbers of 64 bits in their moments.
const numbers = (text) => JSON.parse(text.replace(/("moment": )(\d+)/g, '$1"$2"'))

async function answerOf([command, ...names], files, now) {
  const isCount = command === 'wallet' ? names.length > 1 && names.length < 66 : COUNTS[command]?.includes(names.length)
  if (!isCount) return null
  const form = command === 'convert' ? names.shift() : undefined
  if (form !== undefined && !['compact', 'flat', 'general'].includes(form)) return null
  const read = names.map((name) => files.get(name))
  if (read.includes(undefined)) return null
  switch (command) {
    case 'issue': return read[1].length < 32 ? null : sdjwt.issue(read[0], { seed: read[1].subarray(0, 32) })
    case 'present': return sdjwt.present(...read, { now })
    case 'verify': return new sdjwt.Policy(read[0]).verifyText(read[1], { now })
    case 'convert': {
      const said = await sdjwt.convert(form, read[0])
      return form === 'compact' ? said : { json: said }
    }
    case 'show': return sdjwt.show(read[0])
    case 'split': return sdjwt.split(read[0])
    case 'audit': return (await sdjwt.audit(...read)) ?? 'yes'
    default: {
      const picked = await sdjwt.wallet(read[0], read.slice(1))
      return `credential ${picked.index}\n${picked.token}`
    }
  }
}

async function leftBy(vector, files) {
  let left
  for (const run of vector.runs) {
    try {
      const said = await answerOf(run.words, files, BigInt(run.moment ?? SOME_MOMENT))
      if (said === null) return null
      left = { status: 0, output: said, line: '' }
    } catch (error) {
      if (!(error instanceof sdjwt.SdJwtError)) throw error
      assert.notEqual(error.explanation, '')
      left = { status: error instanceof sdjwt.Refused ? 1 : 6, output: '', line: error.line }
    }
    if (run.kept_as !== undefined) {
      const { output } = left
      const kept = typeof output === 'string' ? `${output}\n` : JSON.stringify(output.json)
      files.set(run.kept_as, new TextEncoder().encode(kept))
    }
  }
  return left
}

test('all vectors', async () => {
  let ran = 0, leftOut = 0
  for (const name of readdirSync(FOLDER).filter((file) => file.endsWith('.json'))) {
    for (const vector of numbers(readFileSync(new URL(name, FOLDER), 'utf8'))) {
      const files = new Map(Object.entries(vector.files).map(([file, text]) => [file, new TextEncoder().encode(text)]))
      const left = await leftBy(vector, files)
      if (left === null) {
        leftOut += 1
        continue
      }
      const file = files.get(vector.output_of_file)
      const due = file === undefined ? vector.output : `${Buffer.from(file)}\n`
      assert.deepEqual([left.status, left.line], [vector.status, vector.line], vector.name)
      if (typeof left.output === 'string') assert.equal(left.status === 0 ? `${left.output}\n` : '', due, vector.name)
      else assert.deepEqual(JSON.parse(JSON.stringify(left.output.json, exact)), JSON.parse(due), vector.name)
      ran += 1
    }
  }
  console.log(`${ran} vectors, ${leftOut} that are no call`)
  assert.ok(ran > 1500 && leftOut < 250)
})

const exact = (_, value) => (typeof value === 'bigint' ? Number(value) : value)
