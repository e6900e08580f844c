// @ts-check
// What a page knows of a served map beside the names on the screen: of each feature its class, its kind and its
// properties (`/map`, once for each revision), of each label its scales (`/state`), and the style (a file beside the
// page, since the server does not tell it).
import { leftOut, readState } from './labels.js'
import { stateOf } from './request.js'

/** @typedef {import('./types.js').Feature} Feature */
/** @typedef {import('./types.js').Kind} Kind */
/** @typedef {import('./types.js').Span} Span */
/** @typedef {import('./types.js').Style} Style */
/** @typedef {import('./types.js').StyleClass} StyleClass */
/** @typedef {{ class?: number, value?: string | null, kind?: Kind, properties?: { [key: string]: any } }} Known */
/** @typedef {{ id: string, name: string, value?: string | null, isMade?: boolean }} Entry */

const AGAIN = 1000
const PATIENCE = 1500                                    // how long names wait for what is known of them
const ALWAYS = ['line_height', 'line_spacing', 'line_label']
/** The property that names the classes that tools/lines makes, one for each range of zooms and height of boxes. */
const MADE = 'line_label'
/** The property that tells what a feature is where the style does not. */
const KIND = 'kind'
/** @type {{ [type: string]: Kind }} */
const KINDS = { Point: 'point', MultiPoint: 'point', LineString: 'line', MultiLineString: 'line', Polygon: 'area', MultiPolygon: 'area' }

/** The text of a property, as classes compare it.
 * @param {any} value */
const textOf = value => ['string', 'number', 'boolean'].includes(typeof value) ? String(value) : null

/** Whether a class was made for names along lines.
 * @param {StyleClass | undefined} one */
export const isMade = one => one?.key === MADE

/** What tells a feature from others, as 'city' or 'street': the value of its class, or else the text of the property that
 * classes ask for, or of `kind`.
 * @param {Style | null} style
 * @param {StyleClass | undefined} own its class
 * @param {Kind | undefined} kind
 * @param {{ [key: string]: any }} properties
 * @returns {string | null} */
export function classValueOf(style, own, kind, properties) {
  if (own?.value !== undefined && !isMade(own)) return own.value
  const keyed = (style?.classes ?? []).filter(one => one.key !== undefined && !isMade(one))
  const key = (keyed.find(one => one.geometry === kind) ?? keyed[0])?.key
  return (key === undefined ? null : textOf(properties[key])) ?? textOf(properties[KIND])
}

/** What a style makes of a feature: the number of the first class that fits, and its value.
 * @param {Feature} feature
 * @param {Style | null} style
 * @returns {Known} */
export function knownOf(feature, style) {
  const kind = KINDS[feature.geometry?.type ?? ''], properties = feature.properties ?? {}
  const number = (style?.classes ?? []).findIndex(one =>
    one.geometry === kind && (one.key === undefined || textOf(properties[one.key]) === one.value))
  const known = { kind, properties, value: classValueOf(style, style?.classes[number], kind, properties) }
  return number < 0 ? known : { ...known, class: number }
}

/** Entries without the repeated names of one line: of those that were made for lines, the first of each text stays.
 * @param {Entry[]} all
 * @returns {Entry[]} */
export function withoutRepeats(all) {
  const seen = new Set()
  return all.filter(one => !one.isMade || !seen.has(one.name) && seen.add(one.name))
}

/** @param {{ [key: string]: any } | undefined} properties
 * @param {string[]} [wanted] */
const chosen = (properties, wanted) => wanted === undefined || properties === undefined ? properties
  : Object.fromEntries(Object.entries(properties).filter(([key]) => wanted.includes(key) || ALWAYS.includes(key)))

/** The facts of a server. */
export class ServerFacts {
  /** @param {import('./request.js').Server} source
   * @param {import('./types.js').Plane} plane
   * @param {{ property?: string, properties?: string[], style?: string | Style | null }} options
   * @param {() => void} changed more is known */
  constructor(source, plane, options, changed) {
    this.source = source
    this.plane = plane
    this.options = options
    this.changed = changed
    /** @type {Map<string, Span> | null} */
    this.state = null
    /** @type {Set<string> | null} */
    this.hidden = null
    /** @type {Map<string, Known> | null} */
    this.known = null
    /** @type {Map<string, string>} */
    this.titles = new Map()
    /** @type {Style | null} */
    this.style = null
    /** @type {Promise<Style | null> | null} */
    this.asked = null
    /** @type {number | null} */
    this.count = null
    this.isOld = true
    this.isReady = false
    /** @type {Promise<Feature[]> | null} */
    this.joining = null
  }

  /** Names may be drawn once this is done: where y is stretched it is known which; and how they look, if that is known soon.
   */
  async ready() {
    if (this.plane.stretches && this.isOld) await this.learn()
    if (this.known === null)
      await Promise.race([this.learnMap().catch(() => {}), new Promise(done => setTimeout(done, PATIENCE))])
    this.isReady = true
  }

  /** All labels with their ends; where y is stretched also which of them are left out.
   */
  async learn() {
    const state = readState(await this.source.text('/state'))
    this.state = state
    this.hidden = this.plane.stretches ? leftOut(state) : new Set()
    this.isOld = false
    return state
  }

  /** The features of the map, once for each revision.
   * @returns {Promise<Feature[]>} */
  learnMap() {
    if (this.joining) return this.joining
    const joining = this.joining = this.join()
    joining.catch(() => { if (this.joining === joining) this.joining = null })
    return joining
  }

  async join() {
    const { property, properties, style } = this.options
    this.asked ??= typeof style === 'string' ? styleAt(style) : Promise.resolve(style ?? null)
    this.style = await this.asked
    const rev = this.source.rev === null ? '' : `?rev=${this.source.rev}`
    /** @type {Feature[]} */
    const features = (await this.patient('/map' + rev)).features
    const name = property ?? this.style?.name ?? 'name'
    this.titles = new Map(features.map(one => [one.id, textOf(one.properties?.[name]) ?? one.id]))
    this.known = new Map(features.map(one => {
      const known = knownOf(one, this.style)
      return [one.id, { ...known, properties: chosen(known.properties, properties) }]
    }))
    this.changed()
    return features
  }

  /** A reply that a proxy has none for yet is asked for again in a second.
   * @param {string} path
   * @returns {Promise<any>} */
  async patient(path) {
    try { return await this.source.json(path) } catch (fault) {
      if (stateOf(fault) !== 'many' || this.source.hasEnded) throw fault
      await new Promise(done => setTimeout(done, AGAIN))
      return this.patient(path)
    }
  }

  /** @param {string} id
   * @returns {Known | undefined} */
  of(id) { return this.known?.get(id) }

  /** @param {string} id */
  isHidden(id) { return this.hidden?.has(id) ?? false }

  /** What `/map` told goes, once outlines are made of it. */
  drop() { if (this.joining) this.joining = Promise.resolve([]) }

  /** The labels that have a name, in priority order.
   * @returns {Promise<Entry[]>} */
  async entries() {
    const state = this.isOld || this.state === null ? await this.learn() : this.state
    await this.learnMap()
    return [...state.keys()].map(id => {
      const { value, properties } = this.known?.get(id) ?? {}
      return { id, name: this.titles.get(id) ?? id, value, isMade: properties?.[MADE] !== undefined }
    })
  }

  /** @param {string} id
   * @returns {Promise<Span | undefined>} */
  async span(id) { return (this.isOld || this.state === null ? await this.learn() : this.state).get(id) }

  /** What was known of the map is no longer so. What names look like stays until it is known anew. */
  forget() {
    this.isOld = true
    this.joining = null
    if (this.plane.stretches) this.isReady = false
  }
}

/** The style that stands beside the page, or none.
 * @param {string} address
 * @returns {Promise<Style | null>} */
async function styleAt(address) {
  const reply = await fetch(address, { cache: 'no-cache' }).catch(() => null)
  return reply?.ok ? reply.json().catch(() => null) : null
}

/** The facts of a source that tells all it knows with its names. */
export class NoFacts {
  constructor() {
    this.isReady = true
    /** @type {Style | null} */
    this.style = null
    /** @type {Map<string, Span> | null} */
    this.state = null
    /** @type {Set<string> | null} */
    this.hidden = null
    /** @type {number | null} */
    this.count = null
    this.isOld = false
  }

  async ready() {}

  /** @param {string} _id
   * @returns {Known | undefined} */
  of(_id) { return undefined }

  /** @param {string} _id */
  isHidden(_id) { return false }

  /** @returns {Promise<Feature[]>} */
  async learnMap() { return [] }

  drop() {}

  /** @returns {Promise<Entry[]>} */
  async entries() { return [] }

  /** @param {string} _id
   * @returns {Promise<{ x: number, y: number, min: string, until: string } | undefined>} */
  async span(_id) { return undefined }

  forget() {}
}
