// Compiles addon.c into sdjwt.node, with the C library inside, and puts the licences next to it: node build.js
// SDJWT_DIR is the folder that c/build.sh leaves (by default ../c/out), CC the compiler, CFLAGS its further options.
// Nothing is downloaded: the headers are those of the node that runs this.
import { spawnSync } from 'node:child_process'
import { copyFileSync, existsSync, writeFileSync } from 'node:fs'
import { dirname, join } from 'node:path'
import { fileURLToPath } from 'node:url'

const here = dirname(fileURLToPath(import.meta.url))
const library = process.env.SDJWT_DIR ?? join(here, '../c/out')
const roots = [join(dirname(process.execPath), '../include/node'), '/usr/include/node', '/usr/include/nodejs/src']
const headers = roots.find((folder) => existsSync(join(folder, 'node_api.h')))

function refuse(text, status = 1) {
  console.error(`build.js: ${text}`)
  process.exit(status)
}

if (headers === undefined) refuse('the headers of node are not there: install libnode-dev, or node from nodejs.org', 3)
if (!existsSync(join(library, 'lib/libsdjwt.a'))) refuse(`there is no lib/libsdjwt.a in ${library}: run sh c/build.sh`)
const more = (process.env.CFLAGS ?? '').split(' ').filter((word) => word !== '')
const words = ['-std=c11', '-O2', '-Wall', '-Wextra', '-fPIC', '-shared', `-I${headers}`,
  `-I${join(library, 'include')}`, ...more, join(here, 'addon.c'), join(library, 'lib/libsdjwt.a'),
  '-o', join(here, 'sdjwt.node')]
const done = spawnSync(process.env.CC ?? 'cc', words, { stdio: 'inherit' })
if (done.status !== 0) refuse(done.error ? done.error.message : 'the compiler failed')

// The notices of what is inside, from the sources; in a release they are here already.
const top = join(here, '..')
for (const name of ['LICENSE-MIT', 'LICENSE-APACHE']) {
  if (existsSync(join(top, name))) copyFileSync(join(top, name), join(here, name))
}
if (existsSync(join(top, 'release/linked.py'))) {
  const notices = spawnSync('python3', ['-B', join(top, 'release/linked.py'), 'notices'])
  if (notices.status !== 0) refuse('the notices could not be written: install python3')
  writeFileSync(join(here, 'THIRD-PARTY.txt'), notices.stdout)
}
