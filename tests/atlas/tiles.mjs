// Prints which names the tiles of a folder hold, by the reader of the pages: node tiles.mjs FOLDER
import fs from 'node:fs'
import path from 'node:path'
import { propertiesOf } from '../../web/maplabel/vectortile.js'

const folder = process.argv[2], found = {}
for (const z of fs.readdirSync(folder).filter(name => /^\d+$/.test(name)))
  for (const x of fs.readdirSync(path.join(folder, z)))
    for (const file of fs.readdirSync(path.join(folder, z, x))) {
      const told = propertiesOf(new Uint8Array(fs.readFileSync(path.join(folder, z, x, file))), 'names')
      found[`${z}/${x}/${path.parse(file).name}`] = told.map(one => [one.id, one.text, one.class, one.x, one.y, one.boxes,
        one.min, one.until]).sort((a, b) => (a[0] < b[0] ? -1 : 1))
    }
console.log(JSON.stringify(found))
