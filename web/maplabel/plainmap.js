// @ts-check
// A ground without Leaflet: an element that is dragged and zoomed, in any plane.
import { Glide } from './glide.js'
import { listen } from './input.js'
import { scaleNear } from './plane.js'

/** @typedef {import('./types.js').Plane} Plane */

const LEAST = 10, GREATEST = 14062500                    // scales

/** @param {URLSearchParams} words
 * @param {string} name
 * @param {number} or */
export const numberOf = (words, name, or) => {
  const value = parseFloat(words.get(name) ?? '')
  return Number.isFinite(value) ? value : or
}

export class PlainMap {
  /** @param {HTMLElement} element
   * @param {Plane} plane
   * @param {{ greatest?: number, isShy?: boolean }} [options] */
  constructor(element, plane, options = {}) {
    const { greatest = GREATEST, isShy = false } = options
    this.element = element
    this.plane = plane
    this.greatest = greatest
    this.u = 0
    this.v = 0
    this.scale = scaleNear(greatest / 4)
    this.changed = () => {}
    /** @type {(x: number, y: number) => void} */
    this.clicked = () => {}
    this.breaker = new AbortController()
    this.glide = new Glide((factor, px, py) => this.zoomAbout(factor, px, py))
    element.classList.add('ml-plain')
    listen(element, {
      move: (dx, dy) => this.move(dx, dy), zoom: (factor, px, py) => this.zoomAbout(factor, px, py),
      glide: (steps, px, py) => this.glide.add(steps, px, py), click: (px, py) => this.clicked(px, py)
    }, this.breaker.signal, isShy)
  }

  /** @returns {[number, number]} */
  size() { return [this.element.clientWidth, this.element.clientHeight] }

  frame() {
    const [width, height] = this.size(), k = this.plane.units / this.scale.value
    return { k, ox: width / 2 - k * this.u, oy: height / 2 - k * this.v }
  }

  isMoving() { return this.glide.isMoving }

  /** @param {URLSearchParams} words */
  read(words) {
    const [u, v] = this.plane.flatOf(numberOf(words, 'cx', 0), numberOf(words, 'cy', 0))
    this.centre(u, v, numberOf(words, 's', this.greatest / 4))
  }

  words() {
    const [x, y] = this.plane.engineOf(this.u, this.v)
    return { cx: Math.round(x), cy: Math.round(y), s: this.scale.value }
  }

  /** The window keeps within the world to the north and south, and goes round it to the east and west.
   * @param {number} u
   * @param {number} v
   * @param {number} scale */
  centre(u, v, scale) {
    this.scale = scaleNear(Math.min(Math.max(scale, LEAST), this.greatest))
    const half = this.size()[1] / 2 * this.scale.value / this.plane.units, free = Math.max(this.plane.top - half, 0)
    this.u = u - this.plane.turn * Math.round(u / this.plane.turn)
    this.v = Math.min(Math.max(v, -free), free)
    this.changed()
  }

  /** @param {number} dx
   * @param {number} dy */
  move(dx, dy) {
    const step = this.scale.value / this.plane.units
    this.centre(this.u - dx * step, this.v - dy * step, this.scale.value)
  }

  /** The place at a pixel stays there.
   * @param {number} factor
   * @param {number} px
   * @param {number} py */
  zoomAbout(factor, px, py) {
    const [width, height] = this.size(), before = this.scale.value / this.plane.units
    const wanted = scaleNear(Math.min(Math.max(this.scale.value / factor, LEAST), this.greatest))
    const step = before - wanted.value / this.plane.units
    this.centre(this.u + (px - width / 2) * step, this.v + (py - height / 2) * step, wanted.value)
  }

  end() {
    this.glide.end()
    this.breaker.abort()
    this.element.classList.remove('ml-plain', 'held')
  }
}
