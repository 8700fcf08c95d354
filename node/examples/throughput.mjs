// Prints the verifications a second of a small token with one hidden claim, by 1, 2 and 4 calls at a time, which run on
// as many threads of Node's pool:
//
//   node examples/throughput.mjs [SECONDS]
import * as sdjwt from 'sdjwt'

const seconds = Number(process.argv[2] ?? 2)
const key = 'AQEBAQEBAQEBAQEBAQEBAQEBAQEBAQEBAQEBAQEBAQE'
const token = await sdjwt.issue({ payload: { iss: 'tickets', seat: 'B12' }, hide: ['/seat'], key })
const policy = new sdjwt.Policy({ keys: { keys: [{ kty: 'oct', k: key }] } })

for (const threads of [1, 2, 4]) {
  let count = 0
  const begin = performance.now()
  const end = begin + 1000 * seconds
  await Promise.all(Array.from({ length: threads }, async () => {
    while (performance.now() < end) {
      await policy.verify(token, { now: 1000 })
      count += 1
    }
  }))
  console.log(`${threads} threads: ${Math.floor(1000 * count / (performance.now() - begin))} verifications a second`)
}
