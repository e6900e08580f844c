// @ts-check
// Names from the vector tiles of a published atlas: of a table (pg_tileserv, martin) or of a folder. A tile holds the
// names whose places lie in it and which are shown at some zoom from its own on and below the next. A set of tiles
// that ends at some zoom says so behind the address, as `names/{z}/{x}/{y}.pbf#0-8`; its last zoom holds the names of
// all zooms behind it. Tiles are kept, and of windows that are wanted only the newest are remembered.
import { Fault, stateOf } from './request.js'
import { northing, valueOf } from './plane.js'
import { propertiesOf } from './vectortile.js'

/** @typedef {import('./types.js').Box} Box */
/** @typedef {import('./types.js').Label} Label */
/** @typedef {import('./types.js').Window} Window */
/** @typedef {import('./request.js').Come} Come */
/** @typedef {Label & { least: number, most: number }} Name */

const SCALE_OF_ZOOM_0 = 14062500, DEEPEST = 22
const KEPT = 600                                         // tiles that are kept
const REACH = 512                                        // pixels that names reach from their places at most
const SHORTEST = 500, LONGEST = 30000
const sleep = (/** @type {number} */ time) => new Promise(done => setTimeout(done, time))

/** @param {import('./vectortile.js').Properties} told
 * @returns {Name} */
function nameOf(told) {
  const boxes = String(told.boxes).split(' ').map(box => /** @type {Box} */(box.split(',').map(Number)))
  const min = String(told.min), until = String(told.until)
  return { id: String(told.id), text: String(told.text), class: Number(told.class), boxes, min, until,
    at: [Number(told.x), Number(told.y)], least: valueOf(min), most: valueOf(until) }
}

/** @param {number} value
 * @param {number} count */
const within = (value, count) => Math.min(Math.max(Math.floor(value), 0), count - 1)

/** The tiles of a zoom that have names in a window.
 * @param {Window} window
 * @param {number} z
 * @returns {string[]} */
function tilesOf({ cx, cy, w, h, s }, z) {
  const scale = valueOf(s), count = 2 ** z, wide = (w / 2) * scale, high = (h / 2) * scale
  const column = (/** @type {number} */ x) => within((x / 3.6e9 + 0.5) * count, count)
  const row = (/** @type {number} */ y) => within((0.5 - northing(y / 1e7) / 360) * count, count)
  const found = []
  for (let y = row(cy + high); y <= row(cy - high); y++)
    for (let x = column(cx - wide); x <= column(cx + wide); x++) found.push(`${z}/${x}/${y}`)
  return found
}

/** Whether a name has a box in a window.
 * @param {Name} name
 * @param {Window} window
 * @param {number} scale */
const meets = ({ at: [x, y], boxes }, { cx, cy, w, h }, scale) => boxes.some(([left, bottom, right, top]) =>
  x + left * scale < cx + w / 2 * scale && x + right * scale > cx - w / 2 * scale &&
  y + bottom * scale < cy + h / 2 * scale && y + top * scale > cy - h / 2 * scale)

export class TileSource {
  /** @param {string} address with {z}, {x} and {y}, and perhaps #FIRST-LAST
   * @param {import('./types.js').Tell} tell */
  constructor(address, tell) {
    const [path, zooms = ''] = address.split('#'), [first, last] = zooms.split('-').map(Number)
    this.address = path
    this.first = first || 0
    this.last = zooms ? last : DEEPEST
    this.tell = tell
    this.isLive = false
    this.asking = false
    this.rev = null
    this.count = 0
    /** @type {import('./types.js').State} */
    this.state = 'good'
    /** @type {Map<string, Name[]>} */
    this.tiles = new Map()
    /** @type {{ windows: Window[], come: Come } | null} */
    this.wish = null
    this.breaker = new AbortController()
  }

  end() {
    this.wish = null
    this.breaker.abort()
  }

  /** @param {import('./types.js').State} state
   * @param {number} [seconds] */
  become(state, seconds) {
    const before = this.state
    this.state = state
    if (!this.breaker.signal.aborted && (before !== state || seconds !== undefined)) this.tell(state, before, seconds)
  }

  /** @param {Window[]} windows
   * @param {Come} come */
  want(windows, come) {
    this.wish = { windows, come }
    if (!this.asking) this.ask()
  }

  async ask() {
    this.asking = true
    let pause = SHORTEST
    while (this.wish && !this.breaker.signal.aborted) {
      const wish = this.wish
      this.wish = null
      const due = [...new Set(wish.windows.flatMap(window => this.dueOf(window)))].filter(tile => !this.tiles.has(tile))
      try {
        await Promise.all(due.map(tile => this.fetch(tile)))
        if (this.breaker.signal.aborted) return
        if (due.length) this.become('good')
        wish.come(wish.windows.map(window => ({ labels: this.labelsOf(window) })))
        pause = SHORTEST
        this.drop(wish.windows)
      } catch (fault) {
        if (this.breaker.signal.aborted) return
        if (stateOf(fault) === 'refused') console.error(fault)
        this.wish ??= wish
        this.become(stateOf(fault), pause / 1000)
        await sleep(pause)
        pause = Math.min(2 * pause, LONGEST)
      }
    }
    this.asking = false
  }

  /** The tiles that have the names of a window and of those that reach into it.
   * @param {Window} window */
  dueOf(window) {
    const zoom = Math.floor(Math.log2(SCALE_OF_ZOOM_0 / valueOf(window.s)) + 1e-9)
    const wide = { ...window, w: window.w + REACH / 2, h: window.h + REACH / 8 }
    return tilesOf(wide, Math.min(Math.max(zoom, this.first), this.last))
  }

  /** @param {string} tile */
  async fetch(tile) {
    const [z, x, y] = tile.split('/')
    const address = this.address.replace('{z}', z).replace('{x}', x).replace('{y}', y)
    this.count++
    const reply = await fetch(address, { signal: this.breaker.signal }).catch(() => { throw new Fault('gone', `no answer for ${address}`) })
    if (reply.status === 429) throw new Fault('many', `status 429 for ${address}`)
    if (reply.status >= 500) throw new Fault('gone', `status ${reply.status} for ${address}`)
    const bytes = reply.ok && reply.status !== 204 ? new Uint8Array(await reply.arrayBuffer()) : new Uint8Array()
    try { this.tiles.set(tile, propertiesOf(bytes, 'names').map(nameOf)) } catch (fault) {
      throw new Fault('refused', `${address} is no vector tile of names: ${fault}`)
    }
  }

  /** @param {Window} window
   * @returns {Name[]} */
  labelsOf(window) {
    const scale = valueOf(window.s)
    /** @type {Map<string, Name>} */
    const found = new Map()
    for (const tile of this.dueOf(window))
      for (const name of this.tiles.get(tile) ?? [])
        if (name.least <= scale && name.most > scale && meets(name, window, scale)) found.set(name.id, name)
    return [...found.values()]
  }

  /** Forgets tiles that were not wanted for long, where there are too many.
   * @param {Window[]} windows those that are wanted now */
  drop(windows) {
    for (const tile of windows.flatMap(window => this.dueOf(window))) {
      const names = this.tiles.get(tile)
      this.tiles.delete(tile)
      if (names) this.tiles.set(tile, names)
    }
    for (const tile of this.tiles.keys()) {
      if (this.tiles.size <= KEPT) return
      this.tiles.delete(tile)
    }
  }
}
