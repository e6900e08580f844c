// @ts-check
// Names from files, without a server: a site's folder of names in pieces (`web/export --site`), or one file of points
// with their zooms (`web/export`). A piece is fetched once the names in it are due on the screen, and is kept.
import { classValueOf, isMade } from './facts.js'
import { stateOf, Fault } from './request.js'
import { northing, valueOf } from './plane.js'

/** @typedef {import('./types.js').Box} Box */
/** @typedef {import('./types.js').Label} Label */
/** @typedef {import('./types.js').Feature} Feature */
/** @typedef {import('./types.js').Style} Style */
/** @typedef {import('./types.js').Window} Window */
/** @typedef {import('./request.js').Come} Come */
/** @typedef {Label & { order: number, least: number, most: number }} Name */

/** A square of the map: its file, its sides in engine units, and the scale below which it has names to show.
 * @typedef {[string, number, number, number, number, number]} Piece */

/** What stands in a site's `names/index.json`.
 * @typedef {{ format: string, way: 'projected' | 'degrees', count: number, reach: number, style: Style | null, pieces: Piece[],
 *   outlines: string | null, zipped: boolean }} Index */

const FORMAT = 'maplabel names 1'
const SHORTEST = 500, LONGEST = 30000
const sleep = (/** @type {number} */ time) => new Promise(done => setTimeout(done, time))

/** The bytes of a file, unpacked where they are packed.
 * @param {Response} reply */
async function textOf(reply) {
  const bytes = new Uint8Array(await reply.arrayBuffer())
  if (bytes[0] !== 0x1f || bytes[1] !== 0x8b) return new TextDecoder().decode(bytes)
  return new Response(new Blob([bytes]).stream().pipeThrough(new DecompressionStream('gzip'))).text()
}

/** The JSON value of a file, of its packed form where there is one. What cannot be read is told in a sentence.
 * @param {URL} address
 * @param {boolean} isZipped
 * @param {AbortSignal} signal
 * @returns {Promise<any>} */
async function fetchJson(address, isZipped, signal) {
  const packed = isZipped && 'DecompressionStream' in window
  const reply = await fetch(packed ? address + '.gz' : address, { signal })
    .catch(() => { throw new Fault('gone', `no answer for ${address}`) })
  if (!reply.ok && packed) return fetchJson(address, false, signal)
  if (!reply.ok)
    throw new Fault(reply.status >= 500 ? 'gone' : 'broken',
      `The names are not there: ${address} was answered with status ${reply.status}.`)
  try { return JSON.parse(await textOf(reply)) } catch {
    if (signal.aborted) throw new Fault('gone', 'ended')
    throw new Fault('broken',
      `The names could not all be read: ${address} was cut off, or is no export. Make it anew with web/export.`)
  }
}

/** A name of a row of a piece.
 * @param {any[]} row
 * @param {Style | null} style
 * @returns {Name} */
function nameOf([order, id, text, number, x, y, min, until, sides, properties], style) {
  const own = style?.classes[number], value = classValueOf(style, own, own?.geometry, properties ?? {})
  /** @type {Box[]} */
  const boxes = []
  for (let k = 0; k < sides.length; k += 4) boxes.push(/** @type {Box} */(sides.slice(k, k + 4)))
  return { order, id, text, at: [x, y], boxes, min, until, class: number, value, kind: own?.geometry,
    properties: properties ?? {}, least: valueOf(min), most: valueOf(until) }
}

/** A name along a line has its whole text and all of its boxes with its first letter.
 * @param {Name & { isWhole?: boolean }} name
 * @param {{ name: string, boxes: string }} properties */
function takeWhole(name, properties) {
  name.isWhole = true
  name.text = properties.name
  delete name.letters
  name.boxes = properties.boxes.split(' ').map(box => /** @type {Box} */(box.split(',').map(Number)))
}

/** The names of a file of points, in which a name along a line has a point for each letter.
 * @param {any} file
 * @param {boolean} isProjected
 * @returns {Name[]} */
function namesOf(file, isProjected) {
  /** @type {Map<string, Name & { isWhole?: boolean }>} */
  const names = new Map()
  for (const { geometry: { coordinates: [lng, lat] }, properties } of file.features) {
    const { id, text, left, bottom, right, top, min, until } = properties
    const at = /** @type {[number, number]} */(isProjected ? [lng * 5e6, northing(lat) * 5e6] : [lng * 1e7, lat * 1e7])
    /** @type {Name & { isWhole?: boolean }} */
    const name = names.get(id) ?? { order: names.size, id, text: '', at, boxes: [], letters: [], min, until, class: properties.class,
      properties, least: valueOf(min), most: valueOf(until) }
    if (properties.boxes) takeWhole(name, properties)
    else if (!name.isWhole) {
      name.text += text
      name.letters?.push(text)
      name.boxes.push([left, bottom, right, top])
    }
    names.set(id, name)
  }
  return [...names.values()]
}

/** Whether a name has a box in a window.
 * @param {Name} name
 * @param {Window} window
 * @param {number} scale */
const meets = ({ at: [x, y], boxes }, { cx, cy, w, h }, scale) => boxes.some(([left, bottom, right, top]) =>
  x + left * scale < cx + w / 2 * scale && x + right * scale > cx - w / 2 * scale &&
  y + bottom * scale < cy + h / 2 * scale && y + top * scale > cy - h / 2 * scale)

export class ExportSource {
  /** @param {string | object} told an address, or what stands in the file
   * @param {import('./types.js').Tell} [tell] */
  constructor(told, tell = () => {}) {
    this.told = told
    this.tell = tell
    this.isLive = false
    this.asking = false
    this.count = 0
    this.rev = null
    this.reason = ''
    /** @type {import('./types.js').State} */
    this.state = 'good'
    /** @type {Index | null} */
    this.index = null
    /** @type {Map<string, Promise<Name[]>>} */
    this.fetched = new Map()
    /** @type {Map<string, Name[]>} */
    this.names = new Map()
    /** @type {{ windows: Window[], come: Come } | null} */
    this.wish = null
    this.breaker = new AbortController()
    this.facts = new ExportFacts(this)
    /** @type {Promise<void> | null} */
    this.loading = null
  }

  get isProjected() { return this.index?.way === 'projected' }

  end() {
    this.wish = null
    this.breaker.abort()
  }

  /** @param {import('./types.js').State} state
   * @param {number} [seconds] */
  become(state, seconds) {
    const before = this.state
    this.state = state
    if (!this.breaker.signal.aborted && (before !== state || seconds !== undefined)) this.tell(state, before, seconds)
  }

  /** @param {string} path */
  addressOf(path) { return new URL(path, new URL(typeof this.told === 'string' ? this.told : '', document.baseURI)) }

  /** Learns what there is. A fault is told, and then there is nothing.
   */
  load() {
    this.loading ??= this.learn().catch(fault => this.fail(fault))
    return this.loading
  }

  async learn() {
    this.count++
    const { signal } = this.breaker
    const told = typeof this.told === 'string' ? await fetchJson(new URL(this.told, document.baseURI), false, signal) : this.told
    if (told?.format === FORMAT) this.index = told
    else if (Array.isArray(told?.features)) this.takeFile(told)
    else {
      const called = typeof this.told === 'string' ? this.told : 'What was given'
      throw new Fault('broken', `${called} is no export of names. Make it with web/export.`)
    }
  }

  /** One file has all names.
   * @param {any} file */
  takeFile(file) {
    const way = file.maplabel?.way === 'projected' ? 'projected' : 'degrees', names = namesOf(file, way === 'projected')
    const style = file.maplabel?.style ?? null
    for (const name of names) {
      const own = style?.classes[name.class ?? -1]
      name.value = classValueOf(style, own, own?.geometry, {})
      name.kind = own?.geometry
    }
    this.index = { format: FORMAT, way, count: names.length, reach: 512, style, outlines: null, zipped: false,
      pieces: [['', -Infinity, -Infinity, Infinity, Infinity, Infinity]] }
    this.names.set('', names)
  }

  /** @param {unknown} fault */
  fail(fault) {
    if (this.breaker.signal.aborted) return
    this.reason = fault instanceof Error ? fault.message : String(fault)
    console.error('maplabel: ' + this.reason)
    this.become(stateOf(fault) === 'gone' ? 'gone' : 'broken')
  }

  /** @param {Window[]} windows
   * @param {Come} come */
  want(windows, come) {
    this.wish = { windows, come }
    if (!this.asking) this.ask()
  }

  async ask() {
    this.asking = true
    let pause = SHORTEST
    while (this.wish && !this.breaker.signal.aborted) {
      const wish = this.wish
      this.wish = null
      const due = this.dueOf(wish.windows).filter(file => !this.names.has(file))
      try {
        if (due.length) await Promise.all(due.map(file => this.fetch(file)))
        if (this.breaker.signal.aborted) return
        if (due.length && !this.reason) this.become('good')
        // What was wanted meanwhile is wanted more, but what has come is drawn.
        wish.come(wish.windows.map(window => ({ labels: this.labelsOf(window) })))
        pause = SHORTEST
      } catch {
        this.wish ??= wish
        this.become('gone', pause / 1000)
        await sleep(pause)
        pause = Math.min(2 * pause, LONGEST)
      }
    }
    this.asking = false
  }

  /** The files of the pieces that have names in these windows.
   * @param {Window[]} windows */
  dueOf(windows) {
    if (!this.index) return []
    const { pieces, reach } = this.index
    return pieces.filter(([, west, south, east, north, most]) => windows.some(({ cx, cy, w, h, s }) => {
      const scale = valueOf(s), x = (w / 2 + reach) * scale, y = (h / 2 + reach) * scale
      return most > scale && west <= cx + x && east >= cx - x && south <= cy + y && north >= cy - y
    })).map(([file]) => file)
  }

  /** A piece that is broken is told, and is as one without names; one that did not come is fetched again.
   * @param {string} file */
  async fetch(file) {
    const known = this.fetched.get(file) ?? this.read(file)
    this.fetched.set(file, known)
    try { return await known } catch (fault) {
      this.fetched.delete(file)
      throw fault
    }
  }

  /** @param {string} file */
  async read(file) {
    this.count++
    /** @type {Name[]} */
    let names = []
    try {
      const { rows } = await fetchJson(this.addressOf(file), this.index?.zipped ?? false, this.breaker.signal)
      names = rows.map((/** @type {any[]} */ row) => nameOf(row, this.index?.style ?? null))
    } catch (fault) {
      if (stateOf(fault) === 'gone') throw fault
      this.fail(fault)
    }
    this.names.set(file, names)
    return names
  }

  /** @param {Window} window
   * @returns {Name[]} */
  labelsOf(window) {
    const scale = valueOf(window.s)
    return this.dueOf([window]).flatMap(file => (this.names.get(file) ?? [])
      .filter(name => name.least <= scale && name.most > scale && meets(name, window, scale)))
  }

  /** All names in order. */
  async all() {
    await this.load()
    const pieces = await Promise.all((this.index?.pieces ?? []).map(([file]) => this.names.get(file) ?? this.fetch(file)))
    return pieces.flat().sort((a, b) => a.order - b.order)
  }
}

/** What an export tells beside its names. */
export class ExportFacts {
  /** @param {ExportSource} source */
  constructor(source) {
    this.source = source
    this.isReady = true
    this.isOld = false
    /** @type {Map<string, import('./types.js').Span> | null} */
    this.state = null
    /** @type {Set<string> | null} */
    this.hidden = null
    /** @type {Map<string, import('./facts.js').Known>} */
    this.known = new Map()
  }

  async ready() {}

  get style() { return this.source.index?.style ?? null }

  get count() { return this.source.index?.count ?? null }

  /** @param {string} id */
  of(id) { return this.known.get(id) }

  /** @param {string} _id */
  isHidden(_id) { return false }

  /** The features whose outlines are drawn.
   * @returns {Promise<Feature[]>} */
  async learnMap() {
    const { outlines = null, zipped = false } = this.source.index ?? {}
    if (outlines === null) return []
    try {
      const { features } = await fetchJson(this.source.addressOf(outlines), zipped, this.source.breaker.signal)
      for (const { id, known } of features) this.known.set(id, known)
      return features
    } catch (fault) {
      this.source.fail(fault)
      return []
    }
  }

  drop() {}

  /** @returns {Promise<import('./facts.js').Entry[]>} */
  async entries() {
    return (await this.source.all()).map(({ id, text, value, class: number }) =>
      ({ id, name: text.trim(), value, isMade: isMade(this.style?.classes[number ?? -1]) }))
  }

  /** @param {string} id */
  async span(id) {
    const name = (await this.source.all()).find(one => one.id === id)
    return name && { ...name, x: name.at[0], y: name.at[1], min: name.min ?? '0/1' }
  }

  forget() {}
}
