// @ts-check
// Names on a canvas that is given, without Leaflet, without panel and without keys: its owner moves it, as another map
// library that tells where its camera is. Canvas and names go together: as wide as the canvas is laid out.
import { ServerFacts, NoFacts } from './facts.js'
import { ExportSource } from './exported.js'
import { TileSource } from './tiles.js'
import { Server } from './request.js'
import { Names } from './names.js'
import { LIGHT, lookOf, mixed } from './look.js'
import { familyOf } from './fonts.js'
import { planes } from './plane.js'

/** @typedef {import('./viewer.js').Options} Options */

export class CanvasNames {
  /** @param {HTMLCanvasElement} canvas
   * @param {string | object} told an address, or an export
   * @param {Options & { tell?: import('./types.js').Tell }} [options] */
  constructor(canvas, told, options = {}) {
    this.canvas = canvas
    this.options = options
    this.colours = mixed(LIGHT, options.colours?.light)
    /** @type {import('./types.js').Frame | null} */
    this.frame = null
    this.was = ['width', 'height', 'style'].map(name => /** @type {const} */([name, canvas.getAttribute(name)]))
    /** @type {{ lng: number, lat: number, zoom: number } | null} */
    this.waiting = null
    /** @type {Names | null} */
    this.names = null
    this.source = this.sourceOf(told)
    if (this.source instanceof ExportSource) this.source.load().then(() => this.begin())
    else this.begin()
  }

  /** @param {string | object} told */
  sourceOf(told) {
    const tell = this.options.tell ?? (() => {})
    if (typeof told !== 'string' || /\.(geo)?json($|[?#])/.test(told)) return new ExportSource(told, tell)
    return told.includes('{z}') ? new TileSource(told, tell) : new Server(told, tell, () => this.names?.forget())
  }

  begin() {
    const { source } = this, way = this.options.way ?? (source instanceof ExportSource ? source.index?.way : 'degrees')
    this.plane = planes[way === 'projected' ? 'projected' : 'stretched']
    this.facts = source instanceof ExportSource ? source.facts : source instanceof Server
      ? new ServerFacts(source, this.plane, this.options, () => { this.names?.refresh(); this.draw() }) : new NoFacts()
    this.names = new Names(this.canvas, this.plane, source, this.facts, label => this.lookOf(label), () => this.draw())
    if (this.waiting) this.show(this.waiting)
  }

  /** @param {import('./types.js').Label} label */
  lookOf(label) {
    const usual = { ...lookOf(label, this.colours), font: this.options.font ?? familyOf('serif') }
    return this.options.look ? { ...usual, ...this.options.look(label, usual) } : usual
  }

  /** Shows a place in the middle, at a zoom of web maps whose world is 256 pixels wide at zoom 0.
   * @param {{ lng: number, lat: number, zoom: number }} view */
  show({ lng, lat, zoom }) {
    this.waiting = { lng, lat, zoom }
    if (!this.names || !this.plane) return
    const [u, v] = planes.stretched.flatOf(lng * 1e7, lat * 1e7), k = 256 * 2 ** zoom / this.plane.turn
    const { clientWidth: width, clientHeight: height } = this.canvas
    this.frame = { k, ox: width / 2 - k * u, oy: height / 2 - k * v }
    this.draw()
    this.names.see(this.frame, width, height)
  }

  draw() { if (this.frame) this.names?.draw(this.frame, this.canvas.clientWidth, this.canvas.clientHeight) }

  /** The canvas is as it was given. */
  remove() {
    this.source.end()
    this.frame = null
    for (const [name, before] of this.was)
      if (before === null) this.canvas.removeAttribute(name)
      else this.canvas.setAttribute(name, before)
  }
}
