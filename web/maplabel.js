'use strict'
// Made by web/bundle of the modules in web/maplabel/, where the remarks are.
window.maplabel = (() => {
const labels_ = (() => {
function readState(text) {
  const lines = text.split('\n'), count = Number(lines[0].split(' ')[2])
  const plain = (id) => id === '%' ? '' : decodeURIComponent(id)
  const all = lines.slice(1, 1 + count).map(line => {
    const [id, x, y, min, max, margin, until, blocker, ...boxes] = line.split(' ')
    return { id: plain(id), x: Number(x), y: Number(y), min, max, margin: Number(margin), until, blocker,
      boxes: boxes.map(box => (box.split(',').map(Number))) }
  })
  return new Map(all.map(label =>
    [label.id, { ...label, blocker: label.blocker === '-' ? null : all[Number(label.blocker)].id }]))
}

function levelOf(labels) {
  const ends = new Map()
  const step = (height, by) => ends.set(height, (ends.get(height) ?? 0) + by)
  for (const { boxes, margin } of labels) {
    const from = Math.max(...boxes.map(box => box[1])) - margin, to = Math.min(...boxes.map(box => box[3])) + margin
    if (from <= to) { step(from, 1); step(to + 1, -1) }
  }
  let count = 0, most = 0, level = 0
  for (const height of [...ends.keys()].sort((a, b) => a - b)) {
    count += ends.get(height) ?? 0
    if (count > most) { most = count; level = height }
  }
  return level
}

const reaches = ({ boxes, margin }, level) => boxes.every(box => box[1] - margin <= level && level <= box[3] + margin)

function leftOut(state) {
  const level = levelOf(state.values())
  return new Set([...state.values()].filter(label => !reaches(label, level)).map(label => label.id))
}

const folded = text => text.normalize('NFD').replace(/\p{M}/gu, '').toLowerCase()
  .replace(/[ßæœøđðłþıŋ]/gu, letter => PLAIN[letter])

const PLAIN = { ß: 'ss', æ: 'ae', œ: 'oe', ø: 'o', đ: 'd', ð: 'd', ł: 'l', þ: 'th', ı: 'i', ŋ: 'n' }

function matches(letters, names, most) {
  const wanted = folded(letters.trim())
  const found = [[], [], []]
  if (!wanted) return []
  for (const one of names) {
    const name = folded(one.name), place = name.indexOf(wanted)
    if (place < 0) continue
    found[place === 0 ? 0 : ' -'.includes(name[place - 1]) ? 1 : 2].push(one)
    if (found[0].length >= most) break
  }
  return found.flat().slice(0, most)
}
return { readState, levelOf, reaches, leftOut, folded, matches }
})()
const request_ = (() => {
const LATE = 2000, SHORTEST = 500, LONGEST = 30000, POLL = 3000
const AWAY = [500, 502, 503]
const sleep = (time) => new Promise(done => setTimeout(done, time))

class Fault extends Error {
  constructor(state, text) {
    super(text)
    this.state = state
  }
}

const stateOf = fault => fault instanceof Fault ? fault.state : 'refused'

class Server {
  constructor(base, tell, edited) {
    this.base = base
    this.tell = tell
    this.edited = edited
    this.isLive = true
    this.asking = false
    this.count = 0
    this.rev = null
    this.state = 'good'
    this.turn = Promise.resolve()
    this.wish = null
    this.hasEnded = false
    this.breaker = new AbortController()
  }

  end() {
    this.hasEnded = true
    this.wish = null
    this.breaker.abort()
  }

  async text(path) {
    const before = this.turn
    let over = () => {}
    this.turn = new Promise(done => { over = () => done(undefined) })
    await before
    try { return await this.now(path) } finally { over() }
  }

  async json(path) { return JSON.parse(await this.text(path)) }

  async now(path) {
    const late = setTimeout(() => this.become('held'), LATE)
    try {
      this.count++
      const text = await this.reply(path)
      this.become('good')
      return text
    } catch (fault) {
      this.become(stateOf(fault))
      throw fault
    } finally { clearTimeout(late) }
  }

  async reply(path) {
    const reply = await fetch(this.base + path, { cache: 'no-store', signal: this.breaker.signal })
      .catch(() => { throw new Fault('gone', 'no answer') })
    if (AWAY.includes(reply.status)) throw new Fault('gone', `status ${reply.status}`)
    if (reply.status === 504) throw new Fault('held', 'status 504')
    if (reply.status === 429) throw new Fault('many', 'status 429')
    const text = await reply.text().catch(() => { throw new Fault('gone', 'the reply was cut off') })
    if (!reply.ok && reply.status !== 404) throw new Fault('refused', `status ${reply.status}: ${text.slice(0, 200)}`)
    return text
  }

  become(state, seconds) {
    const before = this.state
    this.state = state
    if (!this.hasEnded && (before !== state || seconds !== undefined)) this.tell(state, before, seconds)
  }

  want(windows, come) {
    this.wish = { windows, come }
    if (!this.asking) this.ask()
  }

  async ask() {
    this.asking = true
    let pause = SHORTEST
    while (this.wish && !this.hasEnded) {
      const wish = this.wish
      this.wish = null
      try {
        const views = await this.viewsOf(wish.windows)
        if (!this.hasEnded) wish.come(views)
        pause = SHORTEST
      } catch (fault) {
        if (this.hasEnded) break
        if (stateOf(fault) === 'refused') { console.error(fault); continue }
        this.wish ??= wish
        this.become(stateOf(fault), pause / 1000)
        await sleep(pause)
        pause = Math.min(2 * pause, LONGEST)
      }
    }
    this.asking = false
  }

  async viewsOf(windows) {
    const views = [], rev = this.rev === null ? '' : `&v=${this.rev}`
    for (const { cx, cy, w, h, s } of windows)
      views.push(await this.json(`/view?cx=${cx}&cy=${cy}&w=${w}&h=${h}&s=${s}${rev}`))
    return views
  }

  async watch() {
    let pause = POLL
    while (!this.hasEnded) {
      if (!document.hidden && !this.asking)
        try {
          await this.look()
          pause = POLL
        } catch { pause = Math.min(2 * pause, LONGEST) }
      await sleep(pause)
    }
  }

  async look() {
    const told = await this.json('/rev')
    const before = this.rev
    this.rev = told.rev
    if (before !== null && before !== told.rev && !this.hasEnded) this.edited(told.rev)
    return (told)
  }
}

function baseOf(words) {
  const isFile = location.protocol === 'file:'
  if (!words.has('host') && !words.has('port')) return isFile ? null : ''
  const host = words.get('host') ?? (isFile ? 'localhost' : location.hostname)
  return `${isFile ? 'http:' : location.protocol}//${host}${words.has('port') ? ':' + words.get('port') : ''}`
}
return { Fault, stateOf, Server, baseOf }
})()
const facts_ = (() => {
const { leftOut, readState } = labels_
const { stateOf } = request_

const AGAIN = 1000
const PATIENCE = 1500
const ALWAYS = ['line_height', 'line_spacing', 'line_label']
const MADE = 'line_label'
const KIND = 'kind'
const KINDS = { Point: 'point', MultiPoint: 'point', LineString: 'line', MultiLineString: 'line', Polygon: 'area', MultiPolygon: 'area' }

const textOf = value => ['string', 'number', 'boolean'].includes(typeof value) ? String(value) : null

const isMade = one => one?.key === MADE

function classValueOf(style, own, kind, properties) {
  if (own?.value !== undefined && !isMade(own)) return own.value
  const keyed = (style?.classes ?? []).filter(one => one.key !== undefined && !isMade(one))
  const key = (keyed.find(one => one.geometry === kind) ?? keyed[0])?.key
  return (key === undefined ? null : textOf(properties[key])) ?? textOf(properties[KIND])
}

function knownOf(feature, style) {
  const kind = KINDS[feature.geometry?.type ?? ''], properties = feature.properties ?? {}
  const number = (style?.classes ?? []).findIndex(one =>
    one.geometry === kind && (one.key === undefined || textOf(properties[one.key]) === one.value))
  const known = { kind, properties, value: classValueOf(style, style?.classes[number], kind, properties) }
  return number < 0 ? known : { ...known, class: number }
}

function withoutRepeats(all) {
  const seen = new Set()
  return all.filter(one => !one.isMade || !seen.has(one.name) && seen.add(one.name))
}

const chosen = (properties, wanted) => wanted === undefined || properties === undefined ? properties
  : Object.fromEntries(Object.entries(properties).filter(([key]) => wanted.includes(key) || ALWAYS.includes(key)))

class ServerFacts {
  constructor(source, plane, options, changed) {
    this.source = source
    this.plane = plane
    this.options = options
    this.changed = changed
    this.state = null
    this.hidden = null
    this.known = null
    this.titles = new Map()
    this.style = null
    this.asked = null
    this.count = null
    this.isOld = true
    this.isReady = false
    this.joining = null
  }

  async ready() {
    if (this.plane.stretches && this.isOld) await this.learn()
    if (this.known === null)
      await Promise.race([this.learnMap().catch(() => {}), new Promise(done => setTimeout(done, PATIENCE))])
    this.isReady = true
  }

  async learn() {
    const state = readState(await this.source.text('/state'))
    this.state = state
    this.hidden = this.plane.stretches ? leftOut(state) : new Set()
    this.isOld = false
    return state
  }

  learnMap() {
    if (this.joining) return this.joining
    const joining = this.joining = this.join()
    joining.catch(() => { if (this.joining === joining) this.joining = null })
    return joining
  }

  async join() {
    const { property, properties, style } = this.options
    this.asked ??= typeof style === 'string' ? styleAt(style) : Promise.resolve(style ?? null)
    this.style = await this.asked
    const rev = this.source.rev === null ? '' : `?rev=${this.source.rev}`
    const features = (await this.patient('/map' + rev)).features
    const name = property ?? this.style?.name ?? 'name'
    this.titles = new Map(features.map(one => [one.id, textOf(one.properties?.[name]) ?? one.id]))
    this.known = new Map(features.map(one => {
      const known = knownOf(one, this.style)
      return [one.id, { ...known, properties: chosen(known.properties, properties) }]
    }))
    this.changed()
    return features
  }

  async patient(path) {
    try { return await this.source.json(path) } catch (fault) {
      if (stateOf(fault) !== 'many' || this.source.hasEnded) throw fault
      await new Promise(done => setTimeout(done, AGAIN))
      return this.patient(path)
    }
  }

  of(id) { return this.known?.get(id) }

  isHidden(id) { return this.hidden?.has(id) ?? false }

  drop() { if (this.joining) this.joining = Promise.resolve([]) }

  async entries() {
    const state = this.isOld || this.state === null ? await this.learn() : this.state
    await this.learnMap()
    return [...state.keys()].map(id => {
      const { value, properties } = this.known?.get(id) ?? {}
      return { id, name: this.titles.get(id) ?? id, value, isMade: properties?.[MADE] !== undefined }
    })
  }

  async span(id) { return (this.isOld || this.state === null ? await this.learn() : this.state).get(id) }

  forget() {
    this.isOld = true
    this.joining = null
    if (this.plane.stretches) this.isReady = false
  }
}

async function styleAt(address) {
  const reply = await fetch(address, { cache: 'no-cache' }).catch(() => null)
  return reply?.ok ? reply.json().catch(() => null) : null
}

class NoFacts {
  constructor() {
    this.isReady = true
    this.style = null
    this.state = null
    this.hidden = null
    this.count = null
    this.isOld = false
  }

  async ready() {}

  of(_id) { return undefined }

  isHidden(_id) { return false }

  async learnMap() { return [] }

  drop() {}

  async entries() { return [] }

  async span(_id) { return undefined }

  forget() {}
}
return { isMade, classValueOf, knownOf, withoutRepeats, ServerFacts, NoFacts }
})()
const plane_ = (() => {
const MERCATOR_LATITUDE = 85.0511287798066
const EQUATOR = 40075016.7

const northing = latitude => {
  const kept = Math.min(Math.max(latitude, -MERCATOR_LATITUDE), MERCATOR_LATITUDE)
  return Math.log(Math.tan(Math.PI / 4 + kept * Math.PI / 360)) * 180 / Math.PI
}

const latitude = north => Math.atan(Math.exp(north * Math.PI / 180)) * 360 / Math.PI - 90

const planes = {
  degrees: {
    turn: 3.6e9, top: 0.9e9, reach: 2e9, units: 1, stretches: false,
    engineOf: (u, v) => [u, -v], flatOf: (x, y) => [x, -y],
    placeOf: (x, y) => [x / 1e7, y / 1e7]
  },
  projected: {
    turn: 1.8e9, top: 0.9e9, reach: 1e9, units: 1, stretches: false,
    engineOf: (u, v) => [u, -v], flatOf: (x, y) => [x, -y],
    placeOf: (x, y) => [x / 5e6, latitude(y / 5e6)]
  },
  stretched: {
    turn: 1.8e9, top: 0.9e9, reach: 2e9, units: 2, stretches: true,
    engineOf: (u, v) => [2 * u, latitude(-v / 5e6) * 1e7],
    flatOf: (x, y) => [x / 2, -northing(y / 1e7) * 5e6],
    placeOf: (x, y) => [x / 1e7, y / 1e7]
  }
}

function scaleNear(value) {
  const kept = Math.min(Math.max(value, 1 / 65536), 268435455)
  let d = 1
  while (d < 65536 && kept * d * 2 <= 2 ** 32 && !Number.isInteger(kept * d)) d *= 2
  const n = Math.max(1, Math.round(kept * d))
  return { text: d === 1 ? `${n}` : `${n}/${d}`, value: n / d }
}

function valueOf(fraction) {
  const [n, d = '1'] = fraction.split('/')
  return Number(n) / Number(d)
}

const zoomOf = (plane, scale) => Math.log2(plane.turn * plane.units / 256 / scale)

function middleOf(plane, frame, width, height) {
  const [x, y] = plane.engineOf((width / 2 - frame.ox) / frame.k, (height / 2 - frame.oy) / frame.k)
  const [east, north] = plane.placeOf(x, y)
  return { east, north, metres: EQUATOR * Math.max(Math.cos(north * Math.PI / 180), 0.01) / (frame.k * plane.turn) }
}

function windowsOf(plane, area, scale) {
  const most = plane.reach, turn = plane.turn * plane.units
  const [west, north] = plane.engineOf(area.west, area.north), [east, south] = plane.engineOf(area.east, area.south)
  const least = Math.max(south, -most), greatest = Math.min(north, most)
  const side = (from, to) =>
    Math.min(Math.max(2 * Math.ceil((to - from) / scale.value / 2), 2), 4096)
  const ask = (from, to, shifts) =>
    from < to && least < greatest ? [{ shifts, cx: Math.round((from + to) / 2), cy: Math.round((least + greatest) / 2),
      w: side(from, to), h: side(least, greatest), s: scale.text }] : []
  const first = Math.ceil((west - most) / turn), last = Math.floor((east + most) / turn)
  const shifts = Array.from({ length: last - first + 1 }, (_, k) => first + k)
  if (east - west >= turn) return ask(-most, most, shifts)
  return shifts.flatMap(shift =>
    ask(Math.max(west - shift * turn, -most), Math.min(east - shift * turn, most), [shift]))
}
return { MERCATOR_LATITUDE, northing, latitude, planes, scaleNear, valueOf, zoomOf, middleOf, windowsOf }
})()
const exported_ = (() => {
const { classValueOf, isMade } = facts_
const { stateOf, Fault } = request_
const { northing, valueOf } = plane_

const FORMAT = 'maplabel names 1'
const SHORTEST = 500, LONGEST = 30000
const sleep = (time) => new Promise(done => setTimeout(done, time))

async function textOf(reply) {
  const bytes = new Uint8Array(await reply.arrayBuffer())
  if (bytes[0] !== 0x1f || bytes[1] !== 0x8b) return new TextDecoder().decode(bytes)
  return new Response(new Blob([bytes]).stream().pipeThrough(new DecompressionStream('gzip'))).text()
}

async function fetchJson(address, isZipped, signal) {
  const packed = isZipped && 'DecompressionStream' in window
  const reply = await fetch(packed ? address + '.gz' : address, { signal })
    .catch(() => { throw new Fault('gone', `no answer for ${address}`) })
  if (!reply.ok && packed) return fetchJson(address, false, signal)
  if (!reply.ok)
    throw new Fault(reply.status >= 500 ? 'gone' : 'broken',
      `The names are not there: ${address} was answered with status ${reply.status}.`)
  try { return JSON.parse(await textOf(reply)) } catch {
    if (signal.aborted) throw new Fault('gone', 'ended')
    throw new Fault('broken',
      `The names could not all be read: ${address} was cut off, or is no export. Make it anew with web/export.`)
  }
}

function nameOf([order, id, text, number, x, y, min, until, sides, properties], style) {
  const own = style?.classes[number], value = classValueOf(style, own, own?.geometry, properties ?? {})
  const boxes = []
  for (let k = 0; k < sides.length; k += 4) boxes.push((sides.slice(k, k + 4)))
  return { order, id, text, at: [x, y], boxes, min, until, class: number, value, kind: own?.geometry,
    properties: properties ?? {}, least: valueOf(min), most: valueOf(until) }
}

function takeWhole(name, properties) {
  name.isWhole = true
  name.text = properties.name
  delete name.letters
  name.boxes = properties.boxes.split(' ').map(box => (box.split(',').map(Number)))
}

function namesOf(file, isProjected) {
  const names = new Map()
  for (const { geometry: { coordinates: [lng, lat] }, properties } of file.features) {
    const { id, text, left, bottom, right, top, min, until } = properties
    const at = (isProjected ? [lng * 5e6, northing(lat) * 5e6] : [lng * 1e7, lat * 1e7])
    const name = names.get(id) ?? { order: names.size, id, text: '', at, boxes: [], letters: [], min, until, class: properties.class,
      properties, least: valueOf(min), most: valueOf(until) }
    if (properties.boxes) takeWhole(name, properties)
    else if (!name.isWhole) {
      name.text += text
      name.letters?.push(text)
      name.boxes.push([left, bottom, right, top])
    }
    names.set(id, name)
  }
  return [...names.values()]
}

const meets = ({ at: [x, y], boxes }, { cx, cy, w, h }, scale) => boxes.some(([left, bottom, right, top]) =>
  x + left * scale < cx + w / 2 * scale && x + right * scale > cx - w / 2 * scale &&
  y + bottom * scale < cy + h / 2 * scale && y + top * scale > cy - h / 2 * scale)

class ExportSource {
  constructor(told, tell = () => {}) {
    this.told = told
    this.tell = tell
    this.isLive = false
    this.asking = false
    this.count = 0
    this.rev = null
    this.reason = ''
    this.state = 'good'
    this.index = null
    this.fetched = new Map()
    this.names = new Map()
    this.wish = null
    this.breaker = new AbortController()
    this.facts = new ExportFacts(this)
    this.loading = null
  }

  get isProjected() { return this.index?.way === 'projected' }

  end() {
    this.wish = null
    this.breaker.abort()
  }

  become(state, seconds) {
    const before = this.state
    this.state = state
    if (!this.breaker.signal.aborted && (before !== state || seconds !== undefined)) this.tell(state, before, seconds)
  }

  addressOf(path) { return new URL(path, new URL(typeof this.told === 'string' ? this.told : '', document.baseURI)) }

  load() {
    this.loading ??= this.learn().catch(fault => this.fail(fault))
    return this.loading
  }

  async learn() {
    this.count++
    const { signal } = this.breaker
    const told = typeof this.told === 'string' ? await fetchJson(new URL(this.told, document.baseURI), false, signal) : this.told
    if (told?.format === FORMAT) this.index = told
    else if (Array.isArray(told?.features)) this.takeFile(told)
    else {
      const called = typeof this.told === 'string' ? this.told : 'What was given'
      throw new Fault('broken', `${called} is no export of names. Make it with web/export.`)
    }
  }

  takeFile(file) {
    const way = file.maplabel?.way === 'projected' ? 'projected' : 'degrees', names = namesOf(file, way === 'projected')
    const style = file.maplabel?.style ?? null
    for (const name of names) {
      const own = style?.classes[name.class ?? -1]
      name.value = classValueOf(style, own, own?.geometry, {})
      name.kind = own?.geometry
    }
    this.index = { format: FORMAT, way, count: names.length, reach: 512, style, outlines: null, zipped: false,
      pieces: [['', -Infinity, -Infinity, Infinity, Infinity, Infinity]] }
    this.names.set('', names)
  }

  fail(fault) {
    if (this.breaker.signal.aborted) return
    this.reason = fault instanceof Error ? fault.message : String(fault)
    console.error('maplabel: ' + this.reason)
    this.become(stateOf(fault) === 'gone' ? 'gone' : 'broken')
  }

  want(windows, come) {
    this.wish = { windows, come }
    if (!this.asking) this.ask()
  }

  async ask() {
    this.asking = true
    let pause = SHORTEST
    while (this.wish && !this.breaker.signal.aborted) {
      const wish = this.wish
      this.wish = null
      const due = this.dueOf(wish.windows).filter(file => !this.names.has(file))
      try {
        if (due.length) await Promise.all(due.map(file => this.fetch(file)))
        if (this.breaker.signal.aborted) return
        if (due.length && !this.reason) this.become('good')
        wish.come(wish.windows.map(window => ({ labels: this.labelsOf(window) })))
        pause = SHORTEST
      } catch {
        this.wish ??= wish
        this.become('gone', pause / 1000)
        await sleep(pause)
        pause = Math.min(2 * pause, LONGEST)
      }
    }
    this.asking = false
  }

  dueOf(windows) {
    if (!this.index) return []
    const { pieces, reach } = this.index
    return pieces.filter(([, west, south, east, north, most]) => windows.some(({ cx, cy, w, h, s }) => {
      const scale = valueOf(s), x = (w / 2 + reach) * scale, y = (h / 2 + reach) * scale
      return most > scale && west <= cx + x && east >= cx - x && south <= cy + y && north >= cy - y
    })).map(([file]) => file)
  }

  async fetch(file) {
    const known = this.fetched.get(file) ?? this.read(file)
    this.fetched.set(file, known)
    try { return await known } catch (fault) {
      this.fetched.delete(file)
      throw fault
    }
  }

  async read(file) {
    this.count++
    let names = []
    try {
      const { rows } = await fetchJson(this.addressOf(file), this.index?.zipped ?? false, this.breaker.signal)
      names = rows.map((row) => nameOf(row, this.index?.style ?? null))
    } catch (fault) {
      if (stateOf(fault) === 'gone') throw fault
      this.fail(fault)
    }
    this.names.set(file, names)
    return names
  }

  labelsOf(window) {
    const scale = valueOf(window.s)
    return this.dueOf([window]).flatMap(file => (this.names.get(file) ?? [])
      .filter(name => name.least <= scale && name.most > scale && meets(name, window, scale)))
  }

  async all() {
    await this.load()
    const pieces = await Promise.all((this.index?.pieces ?? []).map(([file]) => this.names.get(file) ?? this.fetch(file)))
    return pieces.flat().sort((a, b) => a.order - b.order)
  }
}

class ExportFacts {
  constructor(source) {
    this.source = source
    this.isReady = true
    this.isOld = false
    this.state = null
    this.hidden = null
    this.known = new Map()
  }

  async ready() {}

  get style() { return this.source.index?.style ?? null }

  get count() { return this.source.index?.count ?? null }

  of(id) { return this.known.get(id) }

  isHidden(_id) { return false }

  async learnMap() {
    const { outlines = null, zipped = false } = this.source.index ?? {}
    if (outlines === null) return []
    try {
      const { features } = await fetchJson(this.source.addressOf(outlines), zipped, this.source.breaker.signal)
      for (const { id, known } of features) this.known.set(id, known)
      return features
    } catch (fault) {
      this.source.fail(fault)
      return []
    }
  }

  drop() {}

  async entries() {
    return (await this.source.all()).map(({ id, text, value, class: number }) =>
      ({ id, name: text.trim(), value, isMade: isMade(this.style?.classes[number ?? -1]) }))
  }

  async span(id) {
    const name = (await this.source.all()).find(one => one.id === id)
    return name && { ...name, x: name.at[0], y: name.at[1], min: name.min ?? '0/1' }
  }

  forget() {}
}
return { ExportSource, ExportFacts }
})()
const glide_ = (() => {
const TIME = 50
const LAST = 0.01

class Glide {
  constructor(step) {
    this.step = step
    this.left = 0
    this.place = [0, 0]
    this.handle = 0
    this.before = 0
  }

  get isMoving() { return this.handle !== 0 }

  add(doublings, px, py) {
    this.left += doublings
    this.place = [px, py]
    if (this.handle) return
    this.before = performance.now()
    this.handle = requestAnimationFrame(now => this.go(now))
  }

  go(now) {
    const time = Math.max(now - this.before, 1000 / 120)
    this.before = now
    const part = this.left * (1 - Math.exp(-time / TIME)), isLast = Math.abs(this.left - part) < LAST
    const done = isLast ? this.left : part
    this.left -= done
    this.handle = isLast ? 0 : requestAnimationFrame(next => this.go(next))
    this.step(2 ** done, ...this.place, isLast)
  }

  end() {
    cancelAnimationFrame(this.handle)
    this.handle = 0
    this.left = 0
  }
}
return { Glide }
})()
const input_ = (() => {
const NOTCH = 240, PINCH = 60
const MOST = 300
const STILL = 4
const STEP = 80, LONG_STEP = 300

function wheelSteps(event) {
  const unit = event.deltaMode === 1 ? 20 : event.deltaMode === 2 ? 400 : 1
  return -Math.min(Math.max(event.deltaY * unit, -MOST), MOST) / (event.ctrlKey ? PINCH : NOTCH)
}

function placeIn(element, event) {
  const box = element.getBoundingClientRect()
  return [event.clientX - box.left - element.clientLeft, event.clientY - box.top - element.clientTop]
}

function middleOf(element, pointers) {
  const all = [...pointers.values()].slice(0, 2).map(event => placeIn(element, event))
  const [a, b = a] = all
  return { x: (a[0] + b[0]) / 2, y: (a[1] + b[1]) / 2, apart: Math.hypot(a[0] - b[0], a[1] - b[1]) }
}

function listenPointers(element, act, signal) {
  const pointers = new Map()
  let from = { x: 0, y: 0, apart: 0 }, travelled = 0, were = 0
  element.addEventListener('pointerdown', event => {
    if (event.button > 0) return
    element.setPointerCapture(event.pointerId)
    if (pointers.size === 0) { travelled = 0; were = 0 }
    pointers.set(event.pointerId, event)
    were = Math.max(were, pointers.size)
    from = middleOf(element, pointers)
    element.classList.add('held')
  }, { signal })
  element.addEventListener('pointermove', event => {
    if (!pointers.has(event.pointerId)) return
    pointers.set(event.pointerId, event)
    const to = middleOf(element, pointers)
    travelled += Math.hypot(to.x - from.x, to.y - from.y)
    if (travelled > STILL || were > 1) act.move(to.x - from.x, to.y - from.y)
    if (from.apart > 0 && to.apart > 0 && from.apart !== to.apart) act.zoom(to.apart / from.apart, to.x, to.y)
    if (travelled > STILL || were > 1) from = to
  }, { signal })
  const end = (event) => {
    if (!pointers.delete(event.pointerId)) return
    if (pointers.size) { from = middleOf(element, pointers); return }
    element.classList.remove('held')
    if (event.type === 'pointerup' && were === 1 && travelled <= STILL) act.click(from.x, from.y)
  }
  element.addEventListener('pointerup', end, { signal })
  element.addEventListener('pointercancel', end, { signal })
}

const ARROWS = { ArrowLeft: [1, 0], ArrowRight: [-1, 0], ArrowUp: [0, 1], ArrowDown: [0, -1] }

function listenKeys(element, act, signal) {
  element.addEventListener('keydown', event => {
    if (event.ctrlKey || event.metaKey || event.altKey) return
    const arrow = ARROWS[event.key], step = event.shiftKey ? LONG_STEP : STEP
    if (arrow) act.move(arrow[0] * step, arrow[1] * step)
    else if (event.key === '+' || event.key === '=') act.zoom(2, element.clientWidth / 2, element.clientHeight / 2)
    else if (event.key === '-' || event.key === '_') act.zoom(1 / 2, element.clientWidth / 2, element.clientHeight / 2)
    else return
    event.preventDefault()
  }, { signal })
}

function listenWheel(element, act, signal, isShy = false) {
  element.addEventListener('wheel', event => {
    if (isShy && !event.ctrlKey && !element.contains(document.activeElement)) return
    event.preventDefault()
    act.glide(wheelSteps(event), ...placeIn(element, event))
  }, { passive: false, signal })
}

function focusByTouch(element, signal) {
  if (!element.hasAttribute('tabindex')) {
    element.tabIndex = 0
    signal.addEventListener('abort', () => element.removeAttribute('tabindex'))
  }
  element.addEventListener('pointerdown', () => element.focus({ preventScroll: true }), { signal })
}

function listen(element, act, signal, isShy = false) {
  focusByTouch(element, signal)
  listenPointers(element, act, signal)
  listenWheel(element, act, signal, isShy)
  listenKeys(element, act, signal)
  element.addEventListener('dblclick', event =>
    act.zoom(event.shiftKey ? 1 / 2 : 2, ...placeIn(element, event)), { signal })
}
return { wheelSteps, listenKeys, listenWheel, focusByTouch, listen }
})()
const plainmap_ = (() => {
const { Glide } = glide_
const { listen } = input_
const { scaleNear } = plane_

const LEAST = 10, GREATEST = 14062500

const numberOf = (words, name, or) => {
  const value = parseFloat(words.get(name) ?? '')
  return Number.isFinite(value) ? value : or
}

class PlainMap {
  constructor(element, plane, options = {}) {
    const { greatest = GREATEST, isShy = false } = options
    this.element = element
    this.plane = plane
    this.greatest = greatest
    this.u = 0
    this.v = 0
    this.scale = scaleNear(greatest / 4)
    this.changed = () => {}
    this.clicked = () => {}
    this.breaker = new AbortController()
    this.glide = new Glide((factor, px, py) => this.zoomAbout(factor, px, py))
    element.classList.add('ml-plain')
    listen(element, {
      move: (dx, dy) => this.move(dx, dy), zoom: (factor, px, py) => this.zoomAbout(factor, px, py),
      glide: (steps, px, py) => this.glide.add(steps, px, py), click: (px, py) => this.clicked(px, py)
    }, this.breaker.signal, isShy)
  }

  size() { return [this.element.clientWidth, this.element.clientHeight] }

  frame() {
    const [width, height] = this.size(), k = this.plane.units / this.scale.value
    return { k, ox: width / 2 - k * this.u, oy: height / 2 - k * this.v }
  }

  isMoving() { return this.glide.isMoving }

  read(words) {
    const [u, v] = this.plane.flatOf(numberOf(words, 'cx', 0), numberOf(words, 'cy', 0))
    this.centre(u, v, numberOf(words, 's', this.greatest / 4))
  }

  words() {
    const [x, y] = this.plane.engineOf(this.u, this.v)
    return { cx: Math.round(x), cy: Math.round(y), s: this.scale.value }
  }

  centre(u, v, scale) {
    this.scale = scaleNear(Math.min(Math.max(scale, LEAST), this.greatest))
    const half = this.size()[1] / 2 * this.scale.value / this.plane.units, free = Math.max(this.plane.top - half, 0)
    this.u = u - this.plane.turn * Math.round(u / this.plane.turn)
    this.v = Math.min(Math.max(v, -free), free)
    this.changed()
  }

  move(dx, dy) {
    const step = this.scale.value / this.plane.units
    this.centre(this.u - dx * step, this.v - dy * step, this.scale.value)
  }

  zoomAbout(factor, px, py) {
    const [width, height] = this.size(), before = this.scale.value / this.plane.units
    const wanted = scaleNear(Math.min(Math.max(this.scale.value / factor, LEAST), this.greatest))
    const step = before - wanted.value / this.plane.units
    this.centre(this.u + (px - width / 2) * step, this.v + (py - height / 2) * step, wanted.value)
  }

  end() {
    this.glide.end()
    this.breaker.abort()
    this.element.classList.remove('ml-plain', 'held')
  }
}
return { numberOf, PlainMap }
})()
const leafletmap_ = (() => {
const { Glide } = glide_
const { scaleNear, zoomOf } = plane_
const { numberOf } = plainmap_

const WAY = 1000

const frameOf = (plane, zoom, left, top) => {
  const k = 256 * 2 ** zoom / plane.turn
  return { k, ox: 128 * 2 ** zoom - left, oy: 128 * 2 ** zoom - top }
}

class LeafletMap {
  constructor(L, map, plane) {
    this.L = L
    this.map = map
    this.plane = plane
    this.probe = L.DomUtil.create('div', 'leaflet-zoom-animated', map.getPane('mapPane'))
    this.moving = null
    this.hasBegun = false
    this.held = null
    this.glide = new Glide((factor, px, py, isLast) => this.glideAbout(factor, px, py, isLast))
  }

  size() {
    const { x, y } = this.map.getSize()
    return [x, y]
  }

  isMoving() { return this.moving !== null || this.glide.isMoving }

  frame() {
    if (this.moving) return this.between(this.moving)
    const origin = this.map.getPixelOrigin(), pane = this.map.layerPointToContainerPoint([0, 0])
    return frameOf(this.plane, this.map.getZoom(), origin.x - pane.x, origin.y - pane.y)
  }

  between({ from, to }) {
    const part = new DOMMatrix(getComputedStyle(this.probe).transform).e / WAY
    const mix = (a, b) => a + part * (b - a)
    return { k: mix(from.k, to.k), ox: mix(from.ox, to.ox), oy: mix(from.oy, to.oy) }
  }

  begin({ center, zoom }) {
    const from = this.frame(), middle = this.map.project(center, zoom), [width, height] = this.size()
    this.moving = { from, to: frameOf(this.plane, zoom, middle.x - width / 2, middle.y - height / 2) }
    this.probe.style.transform = `translateX(${WAY}px)`
    return this.moving.to
  }

  arrive() {
    this.moving = null
    this.probe.style.transform = 'translateX(0)'
  }

  words() {
    const { lat, lng } = this.map.getCenter().wrap()
    return { lat: lat.toFixed(5), lng: lng.toFixed(5), z: +this.map.getZoom().toFixed(4) }
  }

  exact(zoom) {
    const base = zoomOf(this.plane, 1)
    return base - Math.log2(scaleNear(2 ** (base - zoom)).value)
  }

  read(words) {
    const { lat, lng } = this.map.getCenter()
    const place = [numberOf(words, 'lat', lat), numberOf(words, 'lng', lng)]
    this.map.setView(place, numberOf(words, 'z', this.map.getZoom()), { animate: false })
  }

  centre(u, v, scale) {
    const place = this.map.unproject([128 + 256 * u / this.plane.turn, 128 + 256 * v / this.plane.turn], 0)
    this.map.setView(place, this.limited(this.exact(zoomOf(this.plane, scale))), { animate: false })
  }

  limited(zoom) { return Math.min(Math.max(zoom, this.map.getMinZoom()), this.map.getMaxZoom()) }

  move(dx, dy) { this.map.panBy([-dx, -dy], { animate: false }) }

  zoomAbout(factor, px, py) {
    this.map.setZoomAround(this.L.point(px, py), this.limited(this.exact(this.map.getZoom() + Math.log2(factor))), { animate: false })
  }

  glideAbout(factor, px, py, isLast) {
    const { map, L } = this, wanted = this.limited(map.getZoom() + Math.log2(factor))
    const zoom = isLast ? this.limited(this.exact(wanted)) : wanted
    const place = L.point(px, py), half = map.getSize().divideBy(2)
    if (!this.hasBegun || !this.held?.place.equals(place)) this.held = { place, at: map.containerPointToLatLng(place) }
    const centre = map.unproject(map.project(this.held.at, zoom).subtract(place).add(half), zoom)
    if (!this.hasBegun) map.fire('zoomstart').fire('movestart')
    this.hasBegun = true
    const isSame = zoom === map.getZoom()
    map._move(map._limitCenter(centre, zoom, map.options.maxBounds), zoom, isLast ? {} : { pinch: true, round: false })
    if (!isLast) return
    if (isSame) map.fire('zoom')
    this.hasBegun = false
    map.fire('zoomend').fire('moveend')
  }

  end() {
    this.glide.end()
    this.probe.remove()
  }
}
return { LeafletMap }
})()
const vectortile_ = (() => {
const VARINT = 0, FIXED_64 = 1, BYTES = 2, FIXED_32 = 5

class Reader {
  constructor(bytes) {
    this.bytes = bytes
    this.at = 0
  }

  get hasMore() { return this.at < this.bytes.length }

  big() {
    let value = 0n, shift = 0n
    for (;;) {
      if (!this.hasMore || shift > 63n) throw new Error('the tile is cut off')
      const byte = this.bytes[this.at++]
      value |= BigInt(byte & 0x7f) << shift
      if (byte < 0x80) return value
      shift += 7n
    }
  }

  number() { return Number(this.big()) }

  part() {
    const length = this.number(), begin = this.at
    this.at += length
    if (this.at > this.bytes.length) throw new Error('the tile is cut off')
    return this.bytes.subarray(begin, this.at)
  }

  text() { return new TextDecoder().decode(this.part()) }

  float(size) {
    const view = new DataView(this.bytes.buffer, this.bytes.byteOffset + this.at, size)
    this.at += size
    return size === 8 ? view.getFloat64(0, true) : view.getFloat32(0, true)
  }

  skip(kind) {
    if (kind === VARINT) this.big()
    else if (kind === BYTES) this.part()
    else if (kind === FIXED_64) this.at += 8
    else if (kind === FIXED_32) this.at += 4
    else throw new Error('this is no vector tile')
  }

  fields(take) {
    while (this.hasMore) {
      const head = this.number()
      if (!take(head >> 3, this)) this.skip(head & 7)
    }
  }
}

function valueOf(bytes) {
  let value = ''
  new Reader(bytes).fields((field, reader) => {
    if (field === 1) value = reader.text()
    else if (field === 2) value = reader.float(4)
    else if (field === 3) value = reader.float(8)
    else if (field === 4) value = Number(BigInt.asIntN(64, reader.big()))
    else if (field === 5) value = reader.number()
    else if (field === 6) value = signed(reader.big())
    else if (field === 7) value = reader.number() !== 0
    else return false
    return true
  })
  return value
}

const signed = coded => Number(coded & 1n ? -(coded + 1n) / 2n : coded / 2n)

function tagsOf(bytes) {
  const tags = []
  new Reader(bytes).fields((field, reader) => {
    if (field !== 2) return false
    const packed = new Reader(reader.part())
    while (packed.hasMore) tags.push(packed.number())
    return true
  })
  return tags
}

function layerOf(bytes) {
  const layer = { name: '', keys: [], values: [], features: [] }
  new Reader(bytes).fields((field, reader) => {
    if (field === 1) layer.name = reader.text()
    else if (field === 2) layer.features.push(tagsOf(reader.part()))
    else if (field === 3) layer.keys.push(reader.text())
    else if (field === 4) layer.values.push(valueOf(reader.part()))
    else return false
    return true
  })
  return layer
}

function propertiesOf(bytes, name) {
  const found = []
  new Reader(bytes).fields((field, reader) => {
    if (field !== 3) return false
    const layer = layerOf(reader.part())
    if (layer.name !== name) return true
    for (const tags of layer.features) {
      const properties = {}
      for (let k = 0; k + 1 < tags.length; k += 2) properties[layer.keys[tags[k]]] = layer.values[tags[k + 1]]
      found.push(properties)
    }
    return true
  })
  return found
}
return { propertiesOf }
})()
const tiles_ = (() => {
const { Fault, stateOf } = request_
const { northing, valueOf } = plane_
const { propertiesOf } = vectortile_

const SCALE_OF_ZOOM_0 = 14062500, DEEPEST = 22
const KEPT = 600
const REACH = 512
const SHORTEST = 500, LONGEST = 30000
const sleep = (time) => new Promise(done => setTimeout(done, time))

function nameOf(told) {
  const boxes = String(told.boxes).split(' ').map(box => (box.split(',').map(Number)))
  const min = String(told.min), until = String(told.until)
  return { id: String(told.id), text: String(told.text), class: Number(told.class), boxes, min, until,
    at: [Number(told.x), Number(told.y)], least: valueOf(min), most: valueOf(until) }
}

const within = (value, count) => Math.min(Math.max(Math.floor(value), 0), count - 1)

function tilesOf({ cx, cy, w, h, s }, z) {
  const scale = valueOf(s), count = 2 ** z, wide = (w / 2) * scale, high = (h / 2) * scale
  const column = (x) => within((x / 3.6e9 + 0.5) * count, count)
  const row = (y) => within((0.5 - northing(y / 1e7) / 360) * count, count)
  const found = []
  for (let y = row(cy + high); y <= row(cy - high); y++)
    for (let x = column(cx - wide); x <= column(cx + wide); x++) found.push(`${z}/${x}/${y}`)
  return found
}

const meets = ({ at: [x, y], boxes }, { cx, cy, w, h }, scale) => boxes.some(([left, bottom, right, top]) =>
  x + left * scale < cx + w / 2 * scale && x + right * scale > cx - w / 2 * scale &&
  y + bottom * scale < cy + h / 2 * scale && y + top * scale > cy - h / 2 * scale)

class TileSource {
  constructor(address, tell) {
    const [path, zooms = ''] = address.split('#'), [first, last] = zooms.split('-').map(Number)
    this.address = path
    this.first = first || 0
    this.last = zooms ? last : DEEPEST
    this.tell = tell
    this.isLive = false
    this.asking = false
    this.rev = null
    this.count = 0
    this.state = 'good'
    this.tiles = new Map()
    this.wish = null
    this.breaker = new AbortController()
  }

  end() {
    this.wish = null
    this.breaker.abort()
  }

  become(state, seconds) {
    const before = this.state
    this.state = state
    if (!this.breaker.signal.aborted && (before !== state || seconds !== undefined)) this.tell(state, before, seconds)
  }

  want(windows, come) {
    this.wish = { windows, come }
    if (!this.asking) this.ask()
  }

  async ask() {
    this.asking = true
    let pause = SHORTEST
    while (this.wish && !this.breaker.signal.aborted) {
      const wish = this.wish
      this.wish = null
      const due = [...new Set(wish.windows.flatMap(window => this.dueOf(window)))].filter(tile => !this.tiles.has(tile))
      try {
        await Promise.all(due.map(tile => this.fetch(tile)))
        if (this.breaker.signal.aborted) return
        if (due.length) this.become('good')
        wish.come(wish.windows.map(window => ({ labels: this.labelsOf(window) })))
        pause = SHORTEST
        this.drop(wish.windows)
      } catch (fault) {
        if (this.breaker.signal.aborted) return
        if (stateOf(fault) === 'refused') console.error(fault)
        this.wish ??= wish
        this.become(stateOf(fault), pause / 1000)
        await sleep(pause)
        pause = Math.min(2 * pause, LONGEST)
      }
    }
    this.asking = false
  }

  dueOf(window) {
    const zoom = Math.floor(Math.log2(SCALE_OF_ZOOM_0 / valueOf(window.s)) + 1e-9)
    const wide = { ...window, w: window.w + REACH / 2, h: window.h + REACH / 8 }
    return tilesOf(wide, Math.min(Math.max(zoom, this.first), this.last))
  }

  async fetch(tile) {
    const [z, x, y] = tile.split('/')
    const address = this.address.replace('{z}', z).replace('{x}', x).replace('{y}', y)
    this.count++
    const reply = await fetch(address, { signal: this.breaker.signal }).catch(() => { throw new Fault('gone', `no answer for ${address}`) })
    if (reply.status === 429) throw new Fault('many', `status 429 for ${address}`)
    if (reply.status >= 500) throw new Fault('gone', `status ${reply.status} for ${address}`)
    const bytes = reply.ok && reply.status !== 204 ? new Uint8Array(await reply.arrayBuffer()) : new Uint8Array()
    try { this.tiles.set(tile, propertiesOf(bytes, 'names').map(nameOf)) } catch (fault) {
      throw new Fault('refused', `${address} is no vector tile of names: ${fault}`)
    }
  }

  labelsOf(window) {
    const scale = valueOf(window.s)
    const found = new Map()
    for (const tile of this.dueOf(window))
      for (const name of this.tiles.get(tile) ?? [])
        if (name.least <= scale && name.most > scale && meets(name, window, scale)) found.set(name.id, name)
    return [...found.values()]
  }

  drop(windows) {
    for (const tile of windows.flatMap(window => this.dueOf(window))) {
      const names = this.tiles.get(tile)
      this.tiles.delete(tile)
      if (names) this.tiles.set(tile, names)
    }
    for (const tile of this.tiles.keys()) {
      if (this.tiles.size <= KEPT) return
      this.tiles.delete(tile)
    }
  }
}
return { TileSource }
})()
const along_ = (() => {
const RISE = 0.29
const BOUNDS = [[1, 0.62], [2, 0.72], [3, 1.1]]
const LEAST = 0.7, LEAST_WHOLE = 0.4
const MOST_TURN = 15
const CLOSE = 1e-9
const PROBE = 250, STEP = 2
const EXACT = 'geometricPrecision'
const LEVEL = 1e-5
const NEAR = 1e-12
const MOST_NAMES = 5000
const WHOLE_SCRIPTS = ['Arabic', 'Hebrew', 'Syriac', 'Thaana', 'Nko', 'Mongolian', 'Devanagari', 'Bengali', 'Gurmukhi',
  'Gujarati', 'Oriya', 'Tamil', 'Telugu', 'Kannada', 'Malayalam', 'Sinhala', 'Myanmar', 'Khmer', 'Tibetan']
const WHOLE = new RegExp(`(?=\\p{L})[${WHOLE_SCRIPTS.map(name => `\\p{Script=${name}}`).join('')}]`, 'u')

const segmenter = Intl.Segmenter && new Intl.Segmenter(undefined, { granularity: 'grapheme' })

const lettersOf = text =>
  segmenter ? Array.from(segmenter.segment(text), part => part.segment) : Array.from(text)

const isWhole = text => WHOLE.test(text)

const sumOf = values => values.reduce((all, one) => all + one, 0)

function solve(rows, right) {
  const count = rows.length, table = rows.map((row, k) => [...row, right[k]])
  for (let k = 0; k < count; k++) {
    let best = k
    for (let i = k + 1; i < count; i++) if (Math.abs(table[i][k]) > Math.abs(table[best][k])) best = i
    const row = table[best]
    table[best] = table[k]
    table[k] = row
    if (Math.abs(table[k][k]) < 1e-12) return null
    for (let i = k + 1; i < count; i++) {
      const factor = table[i][k] / table[k][k]
      for (let j = k; j <= count; j++) table[i][j] -= factor * table[k][j]
    }
  }
  const found = Array(count).fill(0)
  for (let k = count - 1; k >= 0; k--) {
    let rest = table[k][count]
    for (let j = k + 1; j < count; j++) rest -= table[k][j] * found[j]
    found[k] = rest / table[k][k]
  }
  return found
}

const valueAt = (poly, u) => poly.reduceRight((value, factor) => value * u + factor, 0)

function slopeAt(poly, u) {
  let value = 0
  for (let k = poly.length - 1; k > 0; k--) value = value * u + k * poly[k]
  return value
}

function fit(points, degree) {
  const size = Math.max(1e-9, ...points.map(([u]) => Math.abs(u)))
  const scaled = points.map(([u, w]) => [u / size, w])
  const sums = Array.from({ length: 2 * degree + 1 }, (_, k) => sumOf(scaled.map(([u]) => u ** k)))
  const right = Array.from({ length: degree + 1 }, (_, k) => sumOf(scaled.map(([u, w]) => w * u ** k)))
  const found = solve(right.map((_, i) => sums.slice(i, i + degree + 1)), right)
  if (!found) return [null, Infinity]
  const poly = found.map((factor, k) => factor / size ** k)
  return [poly, Math.max(...points.map(([u, w]) => Math.abs(valueAt(poly, u) - w)))]
}

class Curve {
  constructor([x, y], angle, poly, reach = Infinity) {
    this.x = x
    this.y = y
    this.angle = angle
    this.poly = poly
    this.reach = reach
    this.isStraight = poly.length <= 2
    this.cos = Math.cos(angle)
    this.sin = Math.sin(angle)
  }

  kept(u) { return Math.min(Math.max(u, -this.reach), this.reach) }

  slope(u) { return slopeAt(this.poly, this.kept(u)) }

  place(u) {
    const end = this.kept(u)
    const w = valueAt(this.poly, end) + (u === end ? 0 : (u - end) * this.slope(u))
    return [this.x + u * this.cos - w * this.sin, this.y + u * this.sin + w * this.cos]
  }

  step(u, length) {
    if (this.isStraight) return u + length / Math.hypot(1, this.slope(0))
    const count = Math.max(1, Math.ceil(Math.abs(length) / STEP))
    for (let k = 0; k < count; k++) {
      const middle = u + length / count / 2 / Math.hypot(1, this.slope(u))
      u += length / count / Math.hypot(1, this.slope(middle))
    }
    return u
  }

  atX(x) {
    if (this.cos < 1e-6) return 0
    let u = (x - this.x) / this.cos
    for (let k = 0, off = 1; k < (this.isStraight ? 1 : 8) && Math.abs(off) >= NEAR; k++) {
      off = (this.place(u)[0] - x) / Math.max(this.cos - this.slope(u) * this.sin, 0.05)
      u -= off
    }
    return u
  }
}

const isUpright = boxes => boxes.every(box => box[1] === boxes[0][1]) &&
  boxes[0][3] - boxes[0][1] > 3 * (Math.max(...boxes.map(box => box[2])) - boxes[0][0])

function curveOf(boxes, isRun) {
  const middles = boxes.map(([left, bottom, right, top]) => ([(left + right) / 2, (bottom + top) / 2]))
  const count = middles.length
  const origin = ([sumOf(middles.map(([x]) => x)) / count, sumOf(middles.map(([, y]) => y)) / count])
  if (isUpright(boxes)) return { curve: new Curve(origin, Math.PI / 2, [0]), isStraight: true }
  const moved = middles.map(([x, y]) => ([x - origin[0], y - origin[1]]))
  const [line] = fit(moved, 1)
  const angle = Math.atan(line ? line[1] : 0), cos = Math.cos(angle), sin = Math.sin(angle)
  const straight = { curve: new Curve(origin, angle, [0]), isStraight: true }
  if (isRun) return straight
  const turned = moved.map(([x, y]) => ([x * cos + y * sin, y * cos - x * sin]))
  for (const [degree, bound] of BOUNDS) {
    if (count <= degree) break
    const [poly, off] = fit(turned, degree)
    if (!poly || off > bound) continue
    const reach = Math.max(...turned.map(([u]) => Math.abs(u)))
    return degree === 1 ? straight : { curve: new Curve(origin, angle, poly, reach), isStraight: false }
  }
  return null
}

function clipped(shape, low, high) {
  const ys = shape.filter(([x]) => low <= x && x <= high).map(([, y]) => y)
  shape.forEach(([ax, ay], k) => {
    const [bx, by] = shape[(k + 1) % shape.length]
    for (const x of [low, high]) if ((ax - x) * (bx - x) < 0) ys.push(ay + (by - ay) * (x - ax) / (bx - ax))
  })
  return ys.length ? [Math.min(...ys), Math.max(...ys)] : null
}

function joined(spans) {
  const found = []
  for (const [bottom, top] of [...spans].sort((a, b) => a[0] - b[0])) {
    const last = found[found.length - 1]
    if (last && bottom <= last[1]) last[1] = Math.max(last[1], top)
    else found.push([bottom, top])
  }
  return found
}

class Room {
  constructor(boxes) {
    const edges = [...new Set(boxes.flatMap(([left, , right]) => [left, right]))].sort((a, b) => a - b)
    this.left = edges[0]
    this.right = edges[edges.length - 1]
    this.columns = edges.slice(1).map((high, k) => {
      const low = edges[k], over = boxes.filter(box => box[0] <= low && high <= box[2])
      return { low, high, spans: joined(over.map(box => [box[1], box[3]])) }
    })
  }

  lack(shape) {
    const least = Math.min(...shape.map(([x]) => x)), most = Math.max(...shape.map(([x]) => x))
    let out = Math.max(0, this.left - least, most - this.right)
    for (const { low, high, spans } of this.columns) {
      if (high <= least || low >= most) continue
      const part = clipped(shape, Math.max(low, least), Math.min(high, most))
      if (!part) continue
      const lacks = spans.map(([bottom, top]) => Math.max(0, bottom - part[0], part[1] - top))
      out = Math.max(out, lacks.length ? Math.min(...lacks) : part[1] - part[0])
    }
    return out
  }
}

function cornersOf(ink, [x, y, angle], height) {
  const [left, bottom, right, top] = ink.map(one => one * height), cos = Math.cos(angle), sin = Math.sin(angle)
  return [[left, bottom], [right, bottom], [right, top], [left, top]].map(([u, w]) =>
    [x + u * cos - w * sin, y + u * sin + w * cos])
}

function measured(pen, text) {
  const size = pen.measureText(text)
  const ink = [-size.actualBoundingBoxLeft, -size.actualBoundingBoxDescent, size.actualBoundingBoxRight, size.actualBoundingBoxAscent]
  return { text, wide: size.width / PROBE, ink: /^\s*$/u.test(text) ? null : ink.map(one => one / PROBE) }
}

function lettersIn(pen, run, family) {
  pen.save()
  pen.font = `${PROBE}px ${family}`
  pen.textAlign = 'left'
  pen.textRendering = EXACT
  pen.fontKerning = isWhole(run) ? 'auto' : 'none'
  const found = (isWhole(run) ? [run] : lettersOf(run)).map(one => measured(pen, one))
  pen.restore()
  return found
}

function placesOf(letters, curve, height, middle, spacing) {
  const total = sumOf(letters.map(({ wide }) => wide)) * height + spacing * (letters.length - 1)
  let u = curve.step(middle, -total / 2)
  return letters.map(({ wide }) => {
    const after = curve.step(u, wide * height), [ax, ay] = curve.place(u), [bx, by] = curve.place(after)
    const angle = after > u ? Math.atan2(by - ay, bx - ax) : curve.angle
    u = spacing ? curve.step(after, spacing) : after
    return [ax + RISE * height * Math.sin(angle), ay - RISE * height * Math.cos(angle), angle]
  })
}

function mostTurn(letters, places) {
  const angles = places.filter((_, k) => letters[k].ink).map(([, , angle]) => angle * 180 / Math.PI)
  return Math.max(0, ...angles.slice(1).map((angle, k) => Math.abs(angle - angles[k])))
}

function coreOf(text, boxes) {
  const parts = lettersOf(text), inked = parts.flatMap((part, k) => part.trim() ? [k] : [])
  return parts.length === boxes.length && inked.length ? boxes.slice(inked[0], inked[inked.length - 1] + 1) : boxes
}

function drawnOf(letters, places, height, { run, isRun, isOne }) {
  const drawn = letters.map(({ text, wide, ink }, k) => {
    const [x, y, angle] = places[k], half = isRun ? wide * height / 2 : 0
    return { text, x: x + half * Math.cos(angle), y: y + half * Math.sin(angle), angle, ink }
  })
  const inked = drawn.filter(({ ink }) => ink)
  return { height, isRun, kerning: isRun ? 'auto' : 'none', pieces: isOne ? [{ ...drawn[0], text: run }] : inked, letters: inked }
}

function reckoned(pen, { text, boxes, height: wanted, family, spacing = 0 }) {
  const run = text.trim()
  if (!run || !boxes.length || wanted < 1) return null
  const isRun = isWhole(run), core = coreOf(text, boxes), shape = curveOf(core, isRun)
  if (!shape) return null
  const letters = lettersIn(pen, run, family), apart = isRun ? 0 : spacing
  const room = new Room(boxes), middle = shape.curve.atX((core[0][0] + Math.max(...core.map(box => box[2]))) / 2)
  for (let height = wanted; height >= (isRun ? LEAST_WHOLE : LEAST) * wanted; height--) {
    const places = placesOf(letters, shape.curve, height, middle, apart)
    if (mostTurn(letters, places) > MOST_TURN) return null
    const isOut = letters.some(({ ink }, k) => ink && room.lack(cornersOf(ink, places[k], height)) > CLOSE)
    if (!isOut) return drawnOf(letters, places, height, { run, isRun, isOne: !isRun && shape.isStraight && !apart })
  }
  return null
}

const known = new Map()

function layAlong(pen, name) {
  const key = JSON.stringify([name.family, name.height, name.spacing ?? 0, name.text, name.boxes])
  const before = known.get(key)
  if (before !== undefined) return before
  if (known.size >= MOST_NAMES) known.clear()
  const found = reckoned(pen, name)
  known.set(key, found)
  return found
}

const forgetLays = () => known.clear()

function drawAlong(pen, lies, x, y, { colour, halo, haloWidth, family }) {
  pen.save()
  pen.font = `${lies.height}px ${family}`
  pen.textRendering = EXACT
  pen.fontKerning = lies.kerning
  pen.textAlign = lies.isRun ? 'center' : 'left'
  pen.textBaseline = 'alphabetic'
  pen.lineJoin = 'round'
  pen.lineWidth = haloWidth
  pen.strokeStyle = halo
  pen.fillStyle = colour
  for (const way of (haloWidth > 0 ? ['strokeText', 'fillText'] : ['fillText'])) {
    for (const piece of lies.pieces) drawPiece(pen, way, piece, x, y)
  }
  pen.restore()
}

function drawPiece(pen, way, piece, x, y) {
  pen.save()
  pen.translate(x + piece.x, y - piece.y)
  pen.rotate(-piece.angle || LEVEL)
  pen[way](piece.text, 0, 0)
  pen.restore()
}
return { WHOLE_SCRIPTS, lettersOf, isWhole, Room, layAlong, forgetLays, drawAlong }
})()
const draw_ = (() => {
const { layAlong, drawAlong } = along_

const BASE = 0.21                                        // of the text's height: how far the base line is above its box
const HALO = 3, DOT = 2.5, SLACK = 4, MOST_WIDTHS = 20000
const segmenter = Intl.Segmenter && new Intl.Segmenter(undefined, { granularity: 'grapheme' })

const lettersOf = text => segmenter ? Array.from(segmenter.segment(text), part => part.segment) : Array.from(text)

const pixelRatio = () => window.devicePixelRatio || 1

const whole = value => {
  const ratio = Number.isInteger(pixelRatio()) ? pixelRatio() : 1
  return Math.floor(value * ratio + 0.5) / ratio
}

function clear(canvas, width, height) {
  const ratio = pixelRatio()
  if (canvas.width !== Math.round(width * ratio) || canvas.height !== Math.round(height * ratio)) {
    canvas.width = Math.round(width * ratio)
    canvas.height = Math.round(height * ratio)
    canvas.style.width = width + 'px'
    canvas.style.height = height + 'px'
  }
  const pen = (canvas.getContext('2d'))
  pen.setTransform(ratio, 0, 0, ratio, 0, 0)
  pen.clearRect(0, 0, width, height)
  return pen
}

const widths = new Map()

function widthOf(pen, text, font) {
  const key = font + '\n' + text, known = widths.get(key)
  if (known !== undefined) return known
  if (widths.size >= MOST_WIDTHS) widths.clear()
  pen.font = font
  const { width } = pen.measureText(text)
  widths.set(key, width)
  return width
}

function forgetWidths() {
  widths.clear()
  pictures.clear()
}

function write(pen, text, { left, base, width, height }, look) {
  const own = widthOf(pen, text, `${height}px ${look.font}`)
  const size = own > width + 0.5 ? height * width / own : height
  pen.font = `${size}px ${look.font}`
  const x = whole(left + (width - Math.min(own, width)) / 2), y = base - (height - size) / 3
  pen.strokeStyle = look.halo
  pen.lineWidth = HALO
  pen.strokeText(text, x, y)
  pen.fillStyle = look.colour
  pen.fillText(text, x, y)
}

function drawDot(pen, look, x, y) {
  pen.fillStyle = look.dot || look.colour
  pen.strokeStyle = look.halo
  pen.lineWidth = 2
  pen.beginPath()
  pen.arc(x, y, DOT, 0, 2 * Math.PI)
  pen.stroke()
  pen.fill()
}

const numberOr = (value, or) => typeof value === 'number' && Number.isFinite(value) ? value : or

function liesOf(pen, label, look) {
  if (label.boxes.length < 2) return null
  const [, bottom, , top] = label.boxes[0], told = label.properties ?? {}
  const height = Math.min(numberOr(told.line_height, look.height ?? 12), top - bottom)
  return layAlong(pen, { text: label.text, boxes: label.boxes, height, family: look.font ?? 'serif',
    spacing: numberOr(told.line_spacing, 0) })
}

const pictures = new Map()
const MOST_PICTURES = 2500, MARGIN = 6

function pictureOf(label, look) {
  const ratio = pixelRatio(), told = label.properties
  if (!Number.isInteger(ratio) || !('OffscreenCanvas' in window)) return null
  const key = [label.text, label.boxes, look.colour, look.halo, look.dot, look.font, look.height, told?.line_height,
    told?.line_spacing, ratio].join('|')
  const known = pictures.get(key)
  if (known) return known
  if (pictures.size >= MOST_PICTURES) pictures.clear()
  const made = paint(label, look, ratio)
  pictures.set(key, made)
  return made
}

function paint(label, look, ratio) {
  const [l, b, r, t] = label.hull, high = Math.ceil((t - b) / 2)
  const left = Math.min(l, 0) - MARGIN, top = Math.min(-t, 0) - MARGIN
  const width = Math.max(r, 0) + MARGIN - left, height = Math.max(-b, 0) + MARGIN + high - top
  const canvas = new OffscreenCanvas(width * ratio, height * ratio)
  const pen = ((canvas.getContext('2d')))
  pen.scale(ratio, ratio)
  prepare(pen)
  drawOne(pen, label, -left, -top, look)
  return { image: canvas.transferToImageBitmap(), left, top, width, height }
}

function prepare(pen) {
  pen.lineJoin = 'round'
  pen.textBaseline = 'alphabetic'
}

function drawOne(pen, label, x, y, look) {
  if (look.dot) drawDot(pen, look, x, y)
  const lies = liesOf(pen, label, look)
  if (lies) {
    drawAlong(pen, lies, x, y, { colour: look.colour, halo: look.halo, haloWidth: HALO, family: look.font ?? 'serif' })
    return
  }
  if (label.boxes.length > 1 && label.properties?.line_height !== undefined) return
  const parts = label.boxes.length === 1 ? [label.text] : label.letters ?? lettersOf(label.text)
  label.boxes.forEach(([left, bottom, right, top], k) => write(pen, parts[k] ?? '', {
    left: x + left, base: y - bottom - Math.round(BASE * (top - bottom)), width: right - left, height: top - bottom }, look))
}

const overlaps = (a, b) => a.boxes.some(p => b.boxes.some(q =>
  a.x + p[0] < b.x + q[2] && b.x + q[0] < a.x + p[2] && a.y - p[3] < b.y - q[1] && b.y - q[3] < a.y - p[1]))

function placed(pieces, frame, plane, width, height, isDrawn) {
  const all = []
  for (const { shift, labels } of [...pieces].sort((a, b) => a.shift - b.shift)) {
    const before = all.slice()
    for (const label of labels) {
      if (!isDrawn(label)) continue
      const x = whole(frame.k * (label.flat[0] + shift * plane.turn) + frame.ox), y = whole(frame.k * label.flat[1] + frame.oy)
      const [left, bottom, right, top] = label.hull
      if (x + right < -SLACK || x + left > width + SLACK || y - bottom < -SLACK || y - top > height + SLACK) continue
      const one = { label, shift, x, y, boxes: label.boxes }
      if (!before.some(other => overlaps(one, other))) all.push(one)
    }
  }
  return all
}

function drawNames(pen, all, look) {
  prepare(pen)
  for (const { label, x, y } of all) {
    const own = look(label), picture = pictureOf(label, own)
    if (picture) pen.drawImage(picture.image, x + picture.left, y + picture.top, picture.width, picture.height)
    else drawOne(pen, label, x, y, own)
  }
}

function drawRing(pen, [u, v], frame, plane, width, colour) {
  const turns = Math.round(((width / 2 - frame.ox) / frame.k - u) / plane.turn)
  pen.strokeStyle = colour
  pen.lineWidth = 2
  pen.beginPath()
  pen.arc(frame.k * (u + turns * plane.turn) + frame.ox, frame.k * v + frame.oy, 9, 0, 2 * Math.PI)
  pen.stroke()
}

const nameAt = (all, px, py, look) => all.find(({ x, y, boxes }) =>
  boxes.some(([left, bottom, right, top]) =>
    px >= x + left - SLACK && px <= x + right + SLACK && py >= y - top - SLACK && py <= y - bottom + SLACK)) ??
  all.find(({ label, x, y }) => look(label).dot && Math.hypot(px - x, py - y) <= 2 * SLACK)
return { lettersOf, clear, forgetWidths, liesOf, placed, drawNames, drawRing, nameAt }
})()
const names_ = (() => {
const { clear, drawNames, placed } = draw_
const { scaleNear, valueOf, windowsOf } = plane_

const PAD = 256

const hullOf = boxes => [Math.min(...boxes.map(b => b[0])), Math.min(...boxes.map(b => b[1])),
  Math.max(...boxes.map(b => b[2])), Math.max(...boxes.map(b => b[3]))]

class Names {
  constructor(canvas, plane, source, facts, look, changed) {
    this.canvas = canvas
    this.plane = plane
    this.source = source
    this.facts = facts
    this.look = look
    this.changed = changed
    this.pieces = []
    this.scale = null
    this.placed = []
    this.asked = ''
    this.replies = 0
  }

  scaleOf(frame) { return scaleNear(this.plane.units / frame.k) }

  see(frame, width, height) {
    if (!(width > 0 && height > 0)) return
    const scale = this.scaleOf(frame), { top } = this.plane
    const area = { west: (-PAD - frame.ox) / frame.k, east: (width + PAD - frame.ox) / frame.k,
      north: Math.max((-PAD - frame.oy) / frame.k, -top), south: Math.min((height + PAD - frame.oy) / frame.k, top) }
    const windows = windowsOf(this.plane, area, scale)
    const asked = JSON.stringify([windows, this.source.rev])
    if (asked === this.asked) return
    this.asked = asked
    this.source.want(windows, views => this.come(windows, views, scale))
  }

  come(windows, views, scale) {
    if (!this.facts.isReady) {
      this.facts.ready().then(() => this.come(windows, views, scale), () => { this.asked = '' })
      return
    }
    this.pieces = views.flatMap(({ labels }, k) => {
      const made = labels.map(label => this.ready(label))
      return windows[k].shifts.map(shift => ({ shift, labels: made }))
    })
    this.scale = scale
    this.replies++
    this.changed()
  }

  ready(label) {
    return { ...label, ...this.facts.of(label.id), flat: this.plane.flatOf(...label.at), hull: hullOf(label.boxes),
      end: valueOf(label.until) }
  }

  refresh() {
    for (const { labels } of this.pieces)
      for (const label of labels) Object.assign(label, this.facts.of(label.id))
  }

  draw(frame, width, height) {
    const now = this.plane.units / frame.k
    const isSame = this.scale !== null && Math.abs(now / this.scale.value - 1) < 1e-6
    const isDrawn = (label) => (isSame || label.end > now) && !this.facts.isHidden(label.id)
    this.placed = placed(this.pieces, frame, this.plane, width, height, isDrawn)
    drawNames(clear(this.canvas, width, height), this.placed, this.look)
  }

  forget() { this.asked = '' }

  drawn() {
    return this.placed.map(({ label, shift, x, y }) =>
      ({ id: label.id, text: label.text, at: label.at, until: label.until, boxes: label.boxes, shift, x, y }))
  }
}
return { Names }
})()
const outlines_ = (() => {
const ORDER = ['area', 'line', 'point']

const PARTS = {
  Point: place => [[[place]]], MultiPoint: places => places.map((place) => [[place]]),
  LineString: line => [[line]], MultiLineString: lines => lines.map((line) => [line]),
  Polygon: rings => [rings], MultiPolygon: parts => parts
}
const KIND = { Point: 'point', MultiPoint: 'point', LineString: 'line', MultiLineString: 'line', Polygon: 'area', MultiPolygon: 'area' }

function shapesOf(features, plane, knownOf) {
  const shapes = []
  for (const feature of features) {
    if (feature.properties?.line_label !== undefined) continue
    const type = feature.geometry?.type ?? ''
    for (const part of PARTS[type]?.(feature.geometry?.coordinates) ?? []) {
      const lines = part.map(line => line.map(([x, y]) => plane.flatOf(x * 1e7, y * 1e7)))
      shapes.push({ id: feature.id, ...knownOf(feature.id), kind: KIND[type], lines, ...boxOf(lines) })
    }
  }
  return shapes.sort((a, b) => ORDER.indexOf(a.kind) - ORDER.indexOf(b.kind) || sizeOf(b) - sizeOf(a))
}

const sizeOf = ({ kind, west, east, north, south }) => kind === 'area' ? (east - west) * (south - north) : 0

function boxOf(lines) {
  const box = { west: Infinity, east: -Infinity, north: Infinity, south: -Infinity }
  for (const line of lines)
    for (const [u, v] of line) {
      if (u < box.west) box.west = u
      if (u > box.east) box.east = u
      if (v < box.north) box.north = v
      if (v > box.south) box.south = v
    }
  return box
}

function trace(pen, line, { k, ox, oy }, shift) {
  let lastX = Infinity, lastY = Infinity
  for (let i = 0, last = line.length - 1; i <= last; i++) {
    const x = k * (line[i][0] + shift) + ox, y = k * line[i][1] + oy
    if (i && i < last && Math.abs(x - lastX) + Math.abs(y - lastY) < 1) continue
    if (i) pen.lineTo(x, y)
    else pen.moveTo(x, y)
    lastX = x
    lastY = y
  }
}

function drawShape(pen, shape, frame, shift, stroke) {
  pen.beginPath()
  if (shape.kind === 'point') {
    if (!stroke.radius) return
    const [[[u, v]]] = shape.lines
    pen.arc(frame.k * (u + shift) + frame.ox, frame.k * v + frame.oy, stroke.radius, 0, 2 * Math.PI)
  } else for (const line of shape.lines) trace(pen, line, frame, shift)
  if (stroke.fill && shape.kind !== 'line') {
    pen.fillStyle = stroke.fill
    pen.fill('evenodd')
  }
  if (stroke.line) {
    pen.strokeStyle = stroke.line
    pen.lineWidth = stroke.width ?? 1
    pen.stroke()
  }
}

function drawShapes(pen, shapes, frame, plane, width, height, strokeOf) {
  pen.lineJoin = 'round'
  const first = Math.floor((-frame.ox / frame.k + plane.turn / 2) / plane.turn) - 1
  const last = Math.ceil(((width - frame.ox) / frame.k - plane.turn / 2) / plane.turn) + 1
  for (const shape of shapes) {
    if (frame.k * shape.south + frame.oy < 0 || frame.k * shape.north + frame.oy > height) continue
    const stroke = strokeOf(shape)
    for (let turn = first; turn <= last; turn++) {
      const shift = turn * plane.turn
      if (frame.k * (shape.east + shift) + frame.ox >= 0 && frame.k * (shape.west + shift) + frame.ox <= width)
        drawShape(pen, shape, frame, shift, stroke)
    }
  }
}
return { shapesOf, drawShapes }
})()
const look_ = (() => {
const LIGHT = {
  sea: '#d6e4ec', land: '#f4f1e8', halo: '#ffffffe0', ring: '#c0392b',
  names: {
    country: { colour: '#4b2e6b' }, state: { colour: '#6a4f86' },
    point: { colour: '#1a1a1a', dot: '#222222' }, small: { colour: '#1a1a1a', dot: '#666666' },
    line: { colour: '#1f5f96' }, area: { colour: '#4b2e6b' }, 'small area': { colour: '#6a4f86' },
    road: { colour: '#5d4a2c' }, street: { colour: '#5d4a2c' }, park: { colour: '#2b6231' }, forest: { colour: '#2b6231' },
    lake: { colour: '#1f5f96' }, water: { colour: '#1f5f96' }, sea: { colour: '#1f5f96' }, peak: { colour: '#6b3f1d', dot: '#6b3f1d' }
  },
  shapes: {
    area: { fill: '#f4f1e8', line: '#c9c2b2', width: 1 }, line: { line: '#a9c6dd', width: 1 }, point: {},
    water: { fill: '#c3d9e6', line: '#a9c6dd' }, lake: { fill: '#c3d9e6', line: '#a9c6dd' }, river: { line: '#a9c6dd', width: 1.5 },
    park: { fill: '#dcebd2', line: '#c2d6b4' }, forest: { fill: '#dcebd2', line: '#c2d6b4' },
    road: { line: '#d8cbb0', width: 2 }, street: { line: '#d8cbb0', width: 1.5 }, border: { line: '#b39bb0', width: 1 }
  }
}

const DARK = {
  sea: '#17212a', land: '#252b30', halo: '#101519d0', ring: '#ff8a75',
  names: {
    country: { colour: '#cdb4ea' }, state: { colour: '#b59fd2' },
    point: { colour: '#eceae4', dot: '#d9d5ca' }, small: { colour: '#d9d7d0', dot: '#98958c' },
    line: { colour: '#8ec1ea' }, area: { colour: '#cdb4ea' }, 'small area': { colour: '#b59fd2' },
    road: { colour: '#d8c39a' }, street: { colour: '#d8c39a' }, park: { colour: '#9fd0a3' }, forest: { colour: '#9fd0a3' },
    lake: { colour: '#8ec1ea' }, water: { colour: '#8ec1ea' }, sea: { colour: '#8ec1ea' }, peak: { colour: '#dfb08c', dot: '#dfb08c' }
  },
  shapes: {
    area: { fill: '#252b30', line: '#465058', width: 1 }, line: { line: '#335a78', width: 1 }, point: {},
    water: { fill: '#1b2f3d', line: '#335a78' }, lake: { fill: '#1b2f3d', line: '#335a78' }, river: { line: '#335a78', width: 1.5 },
    park: { fill: '#21342a', line: '#35503f' }, forest: { fill: '#21342a', line: '#35503f' },
    road: { line: '#5a5242', width: 2 }, street: { line: '#5a5242', width: 1.5 }, border: { line: '#6c5a72', width: 1 }
  }
}

const SMALL = 12

const mixed = (base, own = {}) => ({
  ...base, ...own, names: { ...base.names, ...own.names }, shapes: { ...base.shapes, ...own.shapes }
})

const covers = ({ boxes: [[left, bottom, right, top]] }) => left <= 0 && bottom <= 0 && right >= 0 && top >= 0

const kindOf = label => label.kind ?? (label.boxes.length > 1 ? 'line' : covers(label) ? 'area' : 'point')

const entryOf = (entries, value) => value === undefined || value === null ? undefined
  : entries[value] ?? entries[value.toLowerCase().split(/[ _]/)[0]]

function lookOf(label, colours) {
  const [, bottom, , top] = label.boxes[0], kind = kindOf(label), isSmall = top - bottom <= SMALL
  const usual = colours.names[isSmall && kind === 'area' ? 'small area' : isSmall && kind === 'point' ? 'small' : kind]
  const { colour, dot = '' } = { ...usual, ...entryOf(colours.names, label.value) }
  return { colour, halo: colours.halo, dot: kind === 'point' && !covers(label) && dot ? dot : false, height: SMALL }
}

const strokeOf = ({ kind, value }, colours) =>
  ({ ...colours.shapes[kind], ...entryOf(colours.shapes, value) })
return { LIGHT, DARK, mixed, kindOf, lookOf, strokeOf }
})()
const fonts_ = (() => {
const { isMade } = facts_

const SERIF = '"Liberation Serif", "Times New Roman", Times, serif'
const SANS = '"Liberation Sans", Arial, Helvetica, sans-serif'
const MONO = '"Liberation Mono", "Courier New", monospace'
const PROBE = 1000, NEAR = 0.02, FEW = 0.2

function familyOf(name, font) {
  const others = /mono|courier|code/i.test(name) ? MONO : /sans|arial|helvet/i.test(name) ? SANS : SERIF
  return font?.family ? `"${font.family.replace(/["\\]/g, '')}", ${others}` : others
}

function isAsMeasured(pen, family, font, isWider = false) {
  const letters = Object.keys(font.advances).filter(letter => /[!-~\u00c0-\u024f]/.test(letter)).slice(0, 120)
  if (!letters.length) return true
  pen.save()
  pen.font = `${PROBE}px ${family}`
  const widths = letters.map(letter => [font.advances[letter] / font.units * PROBE, pen.measureText(letter).width])
  pen.restore()
  const ratios = widths.map(([wanted, own]) => own / wanted).sort((a, b) => a - b)
  const by = isWider ? ratios[Math.floor(ratios.length / 2)] : 1
  return widths.filter(([wanted, own]) => Math.abs(own - by * wanted) > NEAR * PROBE).length <= FEW * letters.length
}

function lackingFonts(pen, { classes, fonts }, own) {
  const made = new Set(classes.filter(isMade).map(one => one.font)), seen = new Set()
  return Object.entries(fonts)
    .filter(([name, { family }]) => !made.has(name) || !seen.has(family) && seen.add(family))
    .filter(([name, font]) => !isAsMeasured(pen, own ?? familyOf(name, font), font, made.has(name)))
    .map(([name, font]) => {
      const meant = font.family ? `the font ${font.family}` : `another font (“${name}” in the style)`
      return `The names were measured with ${meant}, which this browser does not have: some are smaller than they should be.`
    })
}
return { familyOf, isAsMeasured, lackingFonts }
})()
const explain_ = (() => {
const { valueOf, zoomOf } = plane_

const REASONS = {
  NoGeometry: 'It has no place on the map.', NoClass: 'The style has no class for it.',
  NoName: 'It has no text that could be shown.', TooWide: 'Its text is too wide for a label.'
}

const round = value => value >= 100 ? Math.round(value).toLocaleString('en') : String(+value.toPrecision(4))

const told = (fraction, plane) => {
  const value = valueOf(fraction)
  return value > 0 ? `scale ${round(value)} (zoom ${zoomOf(plane, value).toFixed(2)})` : 'as far in as one likes'
}

function explain(why, scale, plane, nameOf, isHidden) {
  if (why.error) return ['No feature has this id.']
  if (why.reason) return [REASONS[why.reason] ?? why.reason]
  const min = valueOf(why.min), until = valueOf(why.until), lines = []
  if (isHidden) lines.push('Left out on this plane: where y is stretched it could lie over another name.')
  if (until <= min) lines.push('It is shown at no scale.')
  else if (scale < min) lines.push(`Not shown at this scale: the names of its class begin at ${told(why.min, plane)}.`)
  else if (scale >= until) lines.push('Not shown at this scale.')
  else if (!isHidden) lines.push('Shown at this scale.')
  const end = told(why.until, plane)
  lines.push(why.blocker === null ? `It ends where its class ends, at ${end}.` : `It ends at ${end}: from there on out ` +
    `it would lie over ${nameOf(why.blocker)} (${why.blocker}), which comes before it.`)
  return lines
}

function scaleFor(span, scale) {
  if (span.until === undefined || span.min === undefined) return null
  const min = valueOf(span.min), until = valueOf(span.until)
  if (until <= min) return null
  if (scale < min) return Math.min(min * 1.05, (min + until) / 2)
  return scale >= until ? Math.max(until * 0.95, (min + until) / 2) : scale
}
return { explain, scaleFor }
})()
const panel_ = (() => {
function make(tag, words, ...inner) {
  const made = document.createElement(tag)
  for (const [name, value] of Object.entries(words))
    if (name.includes('-') || name === 'role') made.setAttribute(name, String(value))
    else Reflect.set(made, name, value)
  made.append(...inner)
  return made
}

const STATES = {
  held: () => 'Another client holds the server: waiting.',
  gone: seconds => `The server does not answer${seconds ? `: asked again in ${seconds} s` : ''}.`,
  many: () => 'The proxy takes no more requests for now: waiting.',
  refused: () => 'The server refused a request: see the console.',
  broken: () => 'Some of the names could not be read: see the console.'
}
const PASSING = 5000

class Notice {
  constructor() {
    this.element = make('span', { className: 'ml-note', role: 'status' })
    this.lasting = ''
    this.passing = 0
  }

  put(text, isBad) {
    this.element.textContent = text
    this.element.className = 'ml-note' + (isBad ? ' ml-bad' : '')
  }

  tell(state, before, seconds) {
    clearTimeout(this.passing)
    if (state !== 'good') this.put(STATES[state](seconds), true)
    else if (before === 'held' || before === 'gone') this.pass('The server is back.')
    else this.put(this.lasting, this.lasting !== '')
  }

  pass(text) {
    clearTimeout(this.passing)
    this.put(text, false)
    this.passing = window.setTimeout(() => this.put(this.lasting, this.lasting !== ''), PASSING)
  }

  stay(text) {
    if (this.lasting.includes(text)) return
    this.lasting = this.lasting ? `${this.lasting} ${text}` : text
    this.put(this.lasting, true)
  }

  end() { clearTimeout(this.passing) }
}

class Finder {
  constructor(find, choose, hasIds) {
    this.find = find
    this.choose = choose
    this.hasIds = hasIds
    this.active = -1
    const id = `ml-found-${Finder.count++}`
    this.list = make('ul', { id, hidden: true, role: 'listbox', 'aria-label': 'Names found' })
    this.field = make('input', { type: 'search', placeholder: 'Find a name', autocomplete: 'off', role: 'combobox',
      'aria-label': 'Find a name', 'aria-controls': id, 'aria-expanded': 'false', 'aria-autocomplete': 'list' })
    this.element = make('form', { className: 'ml-find', role: 'search' }, this.field, this.list)
    this.element.addEventListener('submit', event => { event.preventDefault(); this.take(Math.max(this.active, 0)) })
    this.field.addEventListener('input', () => this.look())
    this.field.addEventListener('focus', () => this.look())
    this.field.addEventListener('blur', () => this.close())
    this.field.addEventListener('keydown', event => this.key(event))
    this.found = []
  }

  async look() {
    const letters = this.field.value
    const found = letters.trim() ? await this.find(letters).catch(() => null) : []
    if (letters !== this.field.value || document.activeElement !== this.field && found?.length === 0 && this.list.hidden) return
    this.found = found ?? []
    this.list.replaceChildren(...this.found.map((one, k) => this.item(one, k)))
    if (found !== null && letters.trim() && !found.length)
      this.list.append(make('li', { textContent: 'No name has these letters.' }))
    this.mark(-1)
    this.list.hidden = !letters.trim() || document.activeElement !== this.field
    this.field.setAttribute('aria-expanded', String(!this.list.hidden))
  }

  item({ id, name, value }, k) {
    const told = this.hasIds ? id : value ?? ''
    const item = make('li', { id: `${this.list.id}-${k}`, role: 'option', 'aria-selected': 'false' }, name,
      ...(told ? [make('small', { textContent: ' ' + told })] : []))
    item.addEventListener('pointerdown', event => event.preventDefault())
    item.addEventListener('click', () => this.take(k))
    return item
  }

  key(event) {
    const step = event.key === 'ArrowDown' ? 1 : event.key === 'ArrowUp' ? -1 : 0
    const { length } = this.found, from = this.active < 0 && step < 0 ? 0 : this.active
    if (step && length) this.mark((from + step + length) % length)
    else if (event.key === 'Escape') this.close()
    else return
    event.preventDefault()
  }

  mark(k) {
    this.active = k
    const items = [...this.list.children]
    items.forEach((item, number) => item.setAttribute('aria-selected', String(number === k)))
    if (k >= 0) {
      this.field.setAttribute('aria-activedescendant', items[k].id)
      items[k].scrollIntoView({ block: 'nearest' })
    } else this.field.removeAttribute('aria-activedescendant')
  }

  take(k) {
    const one = this.found[k]
    if (!one) return
    this.close()
    this.field.blur()
    this.choose(one.id)
  }

  close() {
    this.list.hidden = true
    this.field.setAttribute('aria-expanded', 'false')
  }
}
Finder.count = 0

class Card {
  constructor() {
    this.element = make('section', { className: 'ml-card', hidden: true, 'aria-label': 'About the name' })
  }

  show(title, lines, button = false) {
    const close = make('button', { type: 'button', className: 'ml-close', textContent: '\u00d7', title: 'Close',
      onclick: () => this.hide() })
    this.element.replaceChildren(close, make('h2', { textContent: title }),
      ...lines.map(line => typeof line === 'string' ? make('p', { textContent: line }) : line))
    if (button) this.element.append(make('button', { type: 'button', textContent: button.text, onclick: button.act }))
    this.element.hidden = false
  }

  hide() { this.element.hidden = true }
}

const creditOf = attribution => make('span', { className: 'ml-credit', hidden: !attribution, innerHTML: attribution })

const ROUND = [1, 2, 5]

function roundLength(metres, most) {
  const power = 10 ** Math.floor(Math.log10(metres * most))
  const length = power * (ROUND.filter(by => by * power <= metres * most).pop() ?? 1)
  return [length / metres, length >= 1000 ? `${(length / 1000).toLocaleString('en')} km` : `${+length.toPrecision(3)} m`]
}

class ScaleBar {
  constructor() {
    this.line = make('span', { className: 'ml-length' })
    this.text = make('span', {})
    this.element = make('span', { className: 'ml-scale' }, this.line, this.text)
    this.before = 0
  }

  show(metres) {
    if (Math.abs(metres / this.before - 1) < 0.002) return
    this.before = metres
    const [pixels, text] = roundLength(metres, 90)
    this.line.style.width = `${Math.round(pixels)}px`
    this.text.textContent = text
  }
}

class Panel {
  constructor(act, { isExplained, hasAgain, attribution, notice }) {
    this.finder = new Finder(act.find, act.choose, isExplained)
    this.field = this.finder.field
    this.list = this.finder.list
    this.about = new Card()
    this.card = this.about.element
    this.scale = new ScaleBar()
    this.where = make('span', { className: 'ml-where', hidden: !isExplained })
    this.note = notice.element
    this.again = make('button', { type: 'button', textContent: 'Ask again', hidden: !hasAgain,
      title: 'The map was edited: ask for its names again', onclick: act.again })
    this.bar = make('footer', { className: 'ml-bar' }, this.scale.element, this.where, this.note, this.again, creditOf(attribution))
    this.parts = [this.finder.element, this.card, this.bar]
    const { zoom } = act
    if (zoom)
      this.parts.push(make('div', { className: 'ml-zoom' },
        make('button', { type: 'button', textContent: '+', title: 'Nearer', onclick: () => zoom(2) }),
        make('button', { type: 'button', textContent: '\u2212', title: 'Further out', onclick: () => zoom(1 / 2) })))
  }
}
return { make, Notice, Finder, Card, creditOf, roundLength, ScaleBar, Panel }
})()
const reader_ = (() => {
const { make } = panel_

const REST = 300, MOST = 300

class ReaderList {
  constructor() {
    this.element = make('ul', { className: 'ml-heard', 'aria-label': 'Names on the map' })
    this.waiting = 0
    this.before = ''
  }

  later(names) {
    clearTimeout(this.waiting)
    this.waiting = window.setTimeout(() => this.tell([...new Set(names())].slice(0, MOST)), REST)
  }

  tell(names) {
    const now = names.join('\n')
    if (now === this.before) return
    this.before = now
    this.element.replaceChildren(...names.map(name => make('li', { textContent: name })))
  }

  end() { clearTimeout(this.waiting) }
}
return { ReaderList }
})()
const viewer_ = (() => {
const { baseOf, Server } = request_
const { ServerFacts, NoFacts, withoutRepeats } = facts_
const { ExportSource } = exported_
const { TileSource } = tiles_
const { Names } = names_
const { clear, drawRing, forgetWidths, nameAt } = draw_
const { forgetLays } = along_
const { drawShapes, shapesOf } = outlines_
const { DARK, LIGHT, lookOf, mixed, strokeOf } = look_
const { familyOf, lackingFonts } = fonts_
const { middleOf, zoomOf } = plane_
const { matches } = labels_
const { explain, scaleFor } = explain_
const { creditOf, make, Notice, Panel } = panel_
const { ReaderList } = reader_

const canvasOf = name => make('canvas', { className: name, 'aria-hidden': 'true' })

function sourceOf(told, tell, edited) {
  if (told instanceof ExportSource) return Object.assign(told, { tell })
  if (typeof told !== 'string') return new ExportSource(told, tell)
  if (told.includes('{z}')) return new TileSource(told, tell)
  return /\.(geo)?json($|[?#])/.test(told) ? new ExportSource(told, tell) : new Server(told.replace(/\/$/, ''), tell, edited)
}

class Viewer {
  constructor(element, plane, map, source, options = {}) {
    this.element = element
    this.plane = plane
    this.map = map
    this.options = options
    this.breaker = new AbortController()
    this.hasStarted = false
    this.shapes = null
    this.chosen = null
    this.settled = () => {}
    this.notice = new Notice()
    this.list = new ReaderList()
    const found = sourceOf(source, (...state) => this.tell(...state), rev => this.edited(rev))
    this.source = found
    this.facts = found instanceof Server ? new ServerFacts(found, plane, options, () => this.learned())
      : found instanceof ExportSource ? found.facts : new NoFacts()
    this.colours = LIGHT
    this.followScheme()
    this.ground = canvasOf('ml-land')
    this.canvas = canvasOf('ml-names')
    this.hasOutlines = options.outlines ?? true
    this.panel = options.panel ?? true ? this.panelOf() : null
    this.root = this.place()
    this.names = new Names(this.canvas, plane, found, this.facts, label => this.lookOf(label), () => this.draw())
  }

  place() {
    const { title = 'Map of names', attribution = '' } = this.options
    const parts = this.panel?.parts ?? [make('footer', { className: 'ml-bar ml-quiet' }, this.notice.element, creditOf(attribution))]
    const root = make('div', { className: 'ml-panel' }, ...parts, this.list.element)
    for (const kind of ['pointerdown', 'mousedown', 'touchstart', 'click', 'dblclick', 'contextmenu', 'wheel', 'keydown'])
      root.addEventListener(kind, event => event.stopPropagation(), { passive: true })
    this.was = { role: this.element.getAttribute('role'), label: this.element.getAttribute('aria-label') }
    this.element.setAttribute('role', 'region')
    this.element.setAttribute('aria-label', title)
    this.element.classList.add('ml-map')
    this.element.append(this.ground, this.canvas, root)
    const { signal } = this.breaker, observer = new ResizeObserver(() => this.see())
    observer.observe(this.element)
    signal.addEventListener('abort', () => observer.disconnect())
    document.fonts?.addEventListener('loadingdone', () => this.fontCame(), { signal })
    return root
  }

  panelOf() {
    const { attribution = '', poll = true, buttons = false } = this.options
    return new Panel({
      find: letters => this.find(letters), choose: id => this.goTo(id, this.isExplained), again: () => this.renew(),
      zoom: buttons ? factor => this.map.zoomAbout(factor, this.map.size()[0] / 2, this.map.size()[1] / 2) : null
    }, { isExplained: this.isExplained, hasAgain: this.source.isLive && !poll, attribution, notice: this.notice })
  }

  get isExplained() { return this.options.explain ?? false }

  followScheme() {
    const { scheme = 'auto' } = this.options, query = matchMedia('(prefers-color-scheme: dark)')
    const choose = () => {
      const isDark = scheme === 'auto' ? query.matches : scheme === 'dark'
      this.colours = mixed(isDark ? DARK : LIGHT, this.options.colours?.[isDark ? 'dark' : 'light'])
      this.element.classList.toggle('ml-dark', isDark)
    }
    choose()
    if (scheme === 'auto') query.addEventListener('change', () => { choose(); this.draw() }, { signal: this.breaker.signal })
  }

  async start() {
    this.draw()
    if (this.source instanceof Server) await this.meet(this.source)
    else if (this.source instanceof ExportSource) {
      await this.source.load()
      if (this.source.reason) this.notice.stay(this.source.reason)
    }
    if (this.breaker.signal.aborted) return
    this.hasStarted = true
    this.see()
    if (this.hasOutlines) this.outline()
    if (!(this.source instanceof Server)) this.checkNames()
  }

  async meet(server) {
    const told = await server.look().catch(() => this.blocked())
    if (told?.labels === 0) this.notice.stay('This map has no names: its style gives no feature one.')
    if (this.options.poll ?? true) server.watch()
  }

  blocked() {
    if (location.protocol === 'file:')
      this.panel?.about.show('Nothing to read', ['The server does not answer, or lets no page of another origin read its ' +
        'names. Start web/serve and open the page from there.'])
    return null
  }

  async outline() {
    const asked = this.facts.learnMap(), features = await asked.catch(() => null)
    if (features === null || this.breaker.signal.aborted) return
    this.shapes = shapesOf(features, this.plane, id => this.facts.of(id))
    this.facts.drop()
    this.draw()
  }

  learned() {
    if (this.breaker.signal.aborted) return
    this.names.refresh()
    this.checkNames()
    this.draw()
  }

  checkNames() {
    if (this.facts.count === 0) this.notice.stay('This map has no names: its style gives no feature one.')
    const pen = this.canvas.getContext('2d')
    for (const sentence of pen && this.facts.style ? lackingFonts(pen, this.facts.style, this.options.font) : []) {
      if (!this.notice.lasting.includes(sentence)) console.warn('maplabel: ' + sentence)
      this.notice.stay(sentence)
    }
  }

  fontCame() {
    forgetWidths()
    forgetLays()
    this.draw()
  }

  get background() {
    const hasAreas = this.shapes === null || this.shapes[0]?.kind === 'area'
    return this.options.background ?? (hasAreas ? 'sea' : 'land')
  }

  lookOf(label) {
    const usual = lookOf(label, this.colours), { style } = this.facts
    const name = label.class === undefined ? Object.keys(style?.fonts ?? {})[0] : style?.classes[label.class]?.font
    usual.font = this.options.font ?? familyOf(name ?? 'serif', name === undefined ? undefined : style?.fonts[name])
    return this.options.look ? { ...usual, ...this.options.look(label, usual) } : usual
  }

  strokeOf(shape) {
    const usual = strokeOf(shape, this.colours)
    return this.options.outline ? { ...usual, ...this.options.outline(shape, usual) } : usual
  }

  see(frame = this.map.frame()) {
    this.draw()
    if (this.hasStarted) this.names.see(frame, ...this.map.size())
    this.settled()
  }

  draw(frame = this.map.frame()) {
    if (!this.names || this.breaker.signal.aborted) return
    const [width, height] = this.map.size(), { colours } = this
    if (!(width > 0 && height > 0)) return
    const { background } = this
    this.ground.style.background = !this.hasOutlines || background === 'none' ? 'none' : colours[background]
    if (this.hasOutlines) {
      const pen = clear(this.ground, width, height)
      drawShapes(pen, this.shapes ?? [], frame, this.plane, width, height, shape => this.strokeOf(shape))
    }
    this.names.draw(frame, width, height)
    const pen = this.canvas.getContext('2d')
    if (this.chosen && pen) drawRing(pen, this.chosen, frame, this.plane, width, colours.ring)
    this.list.later(() => this.names.placed.map(one => one.label.text.trim()))
    if (this.panel) this.drawBar(this.panel, frame, width, height)
  }

  drawBar(panel, frame, width, height) {
    const { east, north, metres } = middleOf(this.plane, frame, width, height)
    panel.scale.show(metres)
    if (!this.isExplained) return
    const zoom = zoomOf(this.plane, this.plane.units / frame.k).toFixed(2), count = this.facts.hidden?.size ?? 0
    panel.where.textContent = `${east.toFixed(3)}\u00b0 E, ${north.toFixed(3)}\u00b0 N, zoom ${zoom}` +
      (count ? `; ${count} names along lines or beside their places are left out, since y is stretched` : '')
  }

  tell(state, before, seconds) {
    if (state === 'broken' && this.source instanceof ExportSource) this.notice.stay(this.source.reason)
    else this.notice.tell(state, before, seconds)
    if (state === 'good' && before === 'gone') this.renew()
  }

  renew() {
    this.forget()
    if (this.source instanceof Server) this.source.look().catch(() => {}).then(() => this.see())
  }

  edited(rev) {
    this.forget()
    this.see()
    this.notice.pass(`The map was edited: revision ${rev}.`)
    if (this.panel && !this.panel.list.hidden) this.panel.finder.look()
  }

  forget() {
    this.facts.forget()
    this.names.forget()
    if (this.hasOutlines) this.outline()
    else this.facts.learnMap().catch(() => {})
  }

  scale() { return this.names.scaleOf(this.map.frame()).value }

  async find(letters) { return matches(letters, withoutRepeats(await this.facts.entries()), 12) }

  async goTo(id, stays = false, scale = null) {
    const span = await this.facts.span(id)
    if (!span || this.breaker.signal.aborted) return
    this.chosen = this.plane.flatOf(span.x, span.y)
    const near = scale ?? scaleFor(span, this.scale())
    this.map.centre(...this.chosen, stays ? this.scale() : near ?? this.scale())
    await this.ask(id)
  }

  async ask(id, label) {
    const entries = label && !this.isExplained ? [] : await this.facts.entries().catch(() => [])
    const nameOf = (other) => entries.find(one => one.id === other)?.name ?? other
    const span = label ? undefined : await this.facts.span(id).catch(() => undefined)
    const told = label ?? { id, at: [0, 0], boxes: [], until: '0', ...this.facts.of(id), ...span, text: nameOf(id) }
    if (this.isExplained && this.source instanceof Server) return this.askServer(id, told.text, nameOf, this.source)
    this.options.chosen?.(told)
    const lines = this.options.card?.(told) ?? []
    const never = span && scaleFor(span, 1) === null ? ['There is no room for this name at any zoom.'] : []
    this.panel?.about.show(told.text, [...lines, ...never])
  }

  async askServer(id, text, nameOf, server) {
    const why = await server.json('/why?id=' + encodeURIComponent(id)).catch(() => null)
    if (why === null) return
    const scale = this.scale(), near = scaleFor(why, scale)
    const lines = explain(why, scale, this.plane, nameOf, this.facts.isHidden(id))
    const isFar = near !== null && near !== scale
    this.panel?.about.show(text, [`id ${id}`, ...lines],
      isFar && { text: 'Go to a scale that shows it', act: () => this.goTo(id, false, near) })
  }

  click(x, y) {
    const found = nameAt(this.names.placed, x, y, label => this.lookOf(label))
    this.chosen = null
    if (found) this.ask(found.label.id, found.label)
    else this.panel?.about.hide()
    this.draw()
  }

  end() {
    this.breaker.abort()
    this.source.end()
    this.notice.end()
    this.list.end()
    this.map.end()
    for (const part of [this.ground, this.canvas, this.root]) part.remove()
    this.element.classList.remove('ml-map', 'ml-dark')
    for (const [name, before] of ([['role', this.was?.role], ['aria-label', this.was?.label]]))
      if (before === null || before === undefined) this.element.removeAttribute(name)
      else this.element.setAttribute(name, before)
  }
}

function serverOf(words) {
  const base = baseOf(words)
  if (base === null)
    throw new Error('This page was opened from a file. Say where the server is in the address, as #port=8080, ' +
      'or start web/serve and open the page from there.')
  return base
}
return { Viewer, serverOf }
})()
const layer_ = (() => {
const { ExportSource } = exported_
const { LeafletMap } = leafletmap_
const { focusByTouch, listenKeys, listenWheel } = input_
const { planes } = plane_
const { Viewer } = viewer_

function prepared(told, options) {
  const planeOf = (way) => planes[way === 'projected' ? 'projected' : 'stretched']
  if (typeof told === 'string' && (told.includes('{z}') || !/\.(geo)?json($|[?#])/.test(told)))
    return { plane: planeOf(options.way), source: told }
  const source = new ExportSource(told)
  return source.load().then(() => ({ plane: planeOf(options.way ?? source.index?.way ?? 'projected'), source }))
}

function attach(L, map, plane, source, options) {
  const element = map.getContainer(), ground = new LeafletMap(L, map, plane)
  const viewer = new Viewer(element, plane, ground, source, { ...options, attribution: '' })
  const follow = () => { if (ground.moving) { viewer.draw(); requestAnimationFrame(follow) } }
  const heard = {
    'move zoom resize': () => viewer.see(),
    zoomanim: (how) => { viewer.names.see(ground.begin(how), ...ground.size()); follow() },
    zoomend: () => { ground.arrive(); viewer.see() },
    click: ({ containerPoint }) => viewer.click(containerPoint.x, containerPoint.y)
  }
  for (const [kinds, act] of Object.entries(heard)) map.on(kinds, act)
  const act = { move: (dx, dy) => ground.move(dx, dy), click: () => {},
    zoom: (factor, px, py) => ground.zoomAbout(factor, px, py),
    glide: (steps, px, py) => ground.glide.add(steps, px, py) }
  const { signal } = viewer.breaker, were = { wheel: map.scrollWheelZoom.enabled(), keys: map.keyboard?.enabled() ?? false }
  if (options.smooth) {
    map.scrollWheelZoom.disable()
    map.keyboard?.disable()
    focusByTouch(element, signal)
    listenWheel(element, act, signal, options.shy)
    listenKeys(element, act, signal)
  }
  const remove = () => {
    for (const [kinds, heardBy] of Object.entries(heard)) map.off(kinds, heardBy)
    viewer.end()
    if (options.smooth && were.wheel) map.scrollWheelZoom.enable()
    if (options.smooth && were.keys) map.keyboard?.enable()
  }
  return { viewer, remove }
}

function layerOf(L) {
  return L.Layer.extend({
    initialize(source, options) {
      this.told = source
      L.setOptions(this, options)
    },
    onAdd(map) {
      const turn = this.turn = {}
      const begin = ({ plane, source }) => {
        if (this.turn !== turn) { source.end?.(); return }
        this.attached = attach(L, map, plane, source, this.options)
        this.viewer = this.attached.viewer
        this.viewer.start()
        this.fire('load')
      }
      const ready = prepared(this.told, this.options)
      if (ready instanceof Promise) ready.then(begin)
      else begin(ready)
    },
    onRemove() {
      this.turn = null
      this.attached?.remove()
      this.attached = this.viewer = null
    },
    getAttribution() { return this.options.attribution }
  })
}

function register(L) {
  L.MapLabel ??= layerOf(L)
  L.maplabel ??= (source, options) => new L.MapLabel(source, options)
}
return { prepared, attach, register }
})()
const pages_ = (() => {
const { attach, prepared, register } = layer_
const { MERCATOR_LATITUDE, planes } = plane_
const { numberOf, PlainMap } = plainmap_
const { serverOf, Viewer } = viewer_

const STILL = 200

const wordsOf = () => new URLSearchParams(location.hash.slice(1))

function tellFault(element, error) {
  const told = document.createElement('p')
  told.className = 'ml-fault'
  told.setAttribute('role', 'alert')
  told.textContent = error instanceof Error ? error.message : String(error)
  element.append(told)
}

function chosenBy(options, words) {
  const has = (word) => words.get(word) === 'no'
  return { style: options.source === undefined ? 'style.json' : null, explain: new URLSearchParams(location.search).has('explain'),
    ...options, ...has('land') && { outlines: false }, ...has('poll') && { poll: false } }
}

function followAddress(viewer) {
  let still = 0
  const write = () => {
    const words = wordsOf()
    for (const [name, value] of Object.entries(viewer.map.words())) words.set(name, String(value))
    history.replaceState(null, '', '#' + words)
  }
  viewer.settled = () => {
    clearTimeout(still)
    still = window.setTimeout(write, STILL)
  }
  const { signal } = viewer.breaker
  signal.addEventListener('abort', () => clearTimeout(still))
  window.addEventListener('hashchange', () => viewer.map.read(wordsOf()), { signal })
}

function begin(element, viewer, options) {
  if (options.title) document.title = options.title
  followAddress(viewer)
  viewer.start()
  if (!/^(INPUT|TEXTAREA|SELECT)$/.test(document.activeElement?.tagName ?? '')) element.focus({ preventScroll: true })
  return viewer
}

function openPlain(element, told = {}) {
  const words = wordsOf(), options = { attribution: '', ...chosenBy(told, words), buttons: true }
  try {
    const map = new PlainMap(element, planes.degrees)
    const viewer = new Viewer(element, planes.degrees, map, options.source ?? serverOf(words), options)
    map.read(words)
    map.changed = () => viewer.see()
    map.clicked = (x, y) => viewer.click(x, y)
    return begin(element, viewer, options)
  } catch (error) {
    tellFault(element, error)
    return undefined
  }
}

function leafletOf(L, element, words, { zooms = [1, 18], view: [lat, lng, z] = [25, 10, 2], bounds, tiles, credit, attribution }) {
  const map = L.map(element, {
    center: [numberOf(words, 'lat', lat), numberOf(words, 'lng', lng)], zoom: numberOf(words, 'z', z),
    minZoom: zooms[0], maxZoom: zooms[1], zoomSnap: 0, maxBoundsViscosity: 1,
    maxBounds: [[-MERCATOR_LATITUDE, -36000], [MERCATOR_LATITUDE, 36000]]
  })
  if (tiles) L.tileLayer(tiles, { attribution: credit ?? '' }).addTo(map)
  if (bounds && !words.has('z'))
    map.setView(L.latLngBounds(bounds).getCenter(), Math.min(Math.max(map.getBoundsZoom(bounds), zooms[0]), zooms[1]), { animate: false })
  if (attribution) map.attributionControl.addAttribution(attribution)
  return map
}

function openMercator(element, told = {}) {
  const words = wordsOf(), { L } = window, given = chosenBy(told, words)
  const options = { ...given, way: given.way ?? (words.get('way') === 'projected' ? 'projected' : undefined),
    ...given.tiles && { background: ('none') } }
  register(L)
  try {
    const source = options.source ?? words.get('names') ?? serverOf(words), map = leafletOf(L, element, words, options)
    const open = (ready) => {
      const { viewer } = attach(L, map, ready.plane, ready.source, { smooth: true, ...options })
      return Object.assign(begin(element, viewer, options), { leaflet: map })
    }
    const ready = prepared(source, options)
    return ready instanceof Promise ? ready.then(open) : open(ready)
  } catch (error) {
    tellFault(element, error)
    return undefined
  }
}

async function onElement(element, told, options = {}) {
  const { plane: found, source } = await prepared(told, options)
  const plane = found.stretches && options.way === 'degrees' ? planes.degrees : found
  const map = new PlainMap(element, plane, { isShy: options.shy, greatest: plane.turn * plane.units / 256 })
  const viewer = new Viewer(element, plane, map, source, { buttons: true, ...options })
  const [lat, lng, zoom] = options.view ?? [25, 10, 2]
  const [u, v] = planes.stretched.flatOf(lng * 1e7, lat * 1e7)
  const flat = plane === planes.degrees ? plane.flatOf(lng * 1e7, lat * 1e7) : [u, v]
  map.centre(flat[0], flat[1], plane.turn * plane.units / 256 / 2 ** zoom)
  map.changed = () => viewer.see()
  map.clicked = (x, y) => viewer.click(x, y)
  viewer.start()
  return { viewer, remove: () => viewer.end() }
}
return { openPlain, openMercator, onElement }
})()
const canvas_ = (() => {
const { ServerFacts, NoFacts } = facts_
const { ExportSource } = exported_
const { TileSource } = tiles_
const { Server } = request_
const { Names } = names_
const { LIGHT, lookOf, mixed } = look_
const { familyOf } = fonts_
const { planes } = plane_

class CanvasNames {
  constructor(canvas, told, options = {}) {
    this.canvas = canvas
    this.options = options
    this.colours = mixed(LIGHT, options.colours?.light)
    this.frame = null
    this.was = ['width', 'height', 'style'].map(name => ([name, canvas.getAttribute(name)]))
    this.waiting = null
    this.names = null
    this.source = this.sourceOf(told)
    if (this.source instanceof ExportSource) this.source.load().then(() => this.begin())
    else this.begin()
  }

  sourceOf(told) {
    const tell = this.options.tell ?? (() => {})
    if (typeof told !== 'string' || /\.(geo)?json($|[?#])/.test(told)) return new ExportSource(told, tell)
    return told.includes('{z}') ? new TileSource(told, tell) : new Server(told, tell, () => this.names?.forget())
  }

  begin() {
    const { source } = this, way = this.options.way ?? (source instanceof ExportSource ? source.index?.way : 'degrees')
    this.plane = planes[way === 'projected' ? 'projected' : 'stretched']
    this.facts = source instanceof ExportSource ? source.facts : source instanceof Server
      ? new ServerFacts(source, this.plane, this.options, () => { this.names?.refresh(); this.draw() }) : new NoFacts()
    this.names = new Names(this.canvas, this.plane, source, this.facts, label => this.lookOf(label), () => this.draw())
    if (this.waiting) this.show(this.waiting)
  }

  lookOf(label) {
    const usual = { ...lookOf(label, this.colours), font: this.options.font ?? familyOf('serif') }
    return this.options.look ? { ...usual, ...this.options.look(label, usual) } : usual
  }

  show({ lng, lat, zoom }) {
    this.waiting = { lng, lat, zoom }
    if (!this.names || !this.plane) return
    const [u, v] = planes.stretched.flatOf(lng * 1e7, lat * 1e7), k = 256 * 2 ** zoom / this.plane.turn
    const { clientWidth: width, clientHeight: height } = this.canvas
    this.frame = { k, ox: width / 2 - k * u, oy: height / 2 - k * v }
    this.draw()
    this.names.see(this.frame, width, height)
  }

  draw() { if (this.frame) this.names?.draw(this.frame, this.canvas.clientWidth, this.canvas.clientHeight) }

  remove() {
    this.source.end()
    this.frame = null
    for (const [name, before] of this.was)
      if (before === null) this.canvas.removeAttribute(name)
      else this.canvas.setAttribute(name, before)
  }
}
return { CanvasNames }
})()
const index_ = (() => {
const { onElement, openMercator, openPlain } = pages_
const { register } = layer_
const { Viewer } = viewer_
const { CanvasNames } = canvas_
const { PlainMap } = plainmap_
const { planes } = plane_
const { DARK, LIGHT } = look_

if (window.L) register(window.L)

const maplabel = { CanvasNames, onElement, openMercator, openPlain, register, Viewer, PlainMap, planes, DARK, LIGHT }
return { maplabel }
})()
return index_.maplabel
})()
