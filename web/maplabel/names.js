// @ts-check
// The names of one source on one page: what is there, what is wanted, and what is drawn. The viewer tells where its
// plane stands by a frame (plane.js) as often as that changes; all else comes of itself.
import { clear, drawNames, placed } from './draw.js'
import { scaleNear, valueOf, windowsOf } from './plane.js'

/** @typedef {import('./types.js').Box} Box */
/** @typedef {import('./types.js').Frame} Frame */
/** @typedef {import('./types.js').Label} Label */
/** @typedef {import('./types.js').Ready} Ready */
/** @typedef {import('./types.js').Placed} Placed */
/** @typedef {import('./types.js').Scale} Scale */
/** @typedef {import('./types.js').Window} Window */

const PAD = 256                                          // pixels about the screen whose names are asked for as well

/** @param {Box[]} boxes
 * @returns {Box} */
const hullOf = boxes => [Math.min(...boxes.map(b => b[0])), Math.min(...boxes.map(b => b[1])),
  Math.max(...boxes.map(b => b[2])), Math.max(...boxes.map(b => b[3]))]

export class Names {
  /** @param {HTMLCanvasElement} canvas
   * @param {import('./types.js').Plane} plane
   * @param {import('./types.js').Source} source
   * @param {import('./facts.js').ServerFacts | import('./facts.js').NoFacts | import('./exported.js').ExportFacts} facts
   * @param {(label: Label) => import('./types.js').Look} look
   * @param {() => void} changed what is to be drawn is another */
  constructor(canvas, plane, source, facts, look, changed) {
    this.canvas = canvas
    this.plane = plane
    this.source = source
    this.facts = facts
    this.look = look
    this.changed = changed
    /** @type {{ shift: number, labels: Ready[] }[]} */
    this.pieces = []
    /** @type {Scale | null} */
    this.scale = null
    /** @type {Placed[]} */
    this.placed = []
    this.asked = ''
    this.replies = 0
  }

  /** The scale that a frame has, as the engine takes it.
   * @param {Frame} frame */
  scaleOf(frame) { return scaleNear(this.plane.units / frame.k) }

  /** The page's plane stands still, or goes on to stand so: asks for the names of what is seen and of what is
   * near. Where y is stretched it first asks which names may be drawn.
   * @param {Frame} frame
   * @param {number} width
   * @param {number} height */
  see(frame, width, height) {
    if (!(width > 0 && height > 0)) return
    const scale = this.scaleOf(frame), { top } = this.plane
    const area = { west: (-PAD - frame.ox) / frame.k, east: (width + PAD - frame.ox) / frame.k,
      north: Math.max((-PAD - frame.oy) / frame.k, -top), south: Math.min((height + PAD - frame.oy) / frame.k, top) }
    const windows = windowsOf(this.plane, area, scale)
    const asked = JSON.stringify([windows, this.source.rev])
    if (asked === this.asked) return
    this.asked = asked
    this.source.want(windows, views => this.come(windows, views, scale))
  }

  /** @param {Window[]} windows
   * @param {{ labels: Label[] }[]} views
   * @param {Scale} scale */
  come(windows, views, scale) {
    if (!this.facts.isReady) {
      this.facts.ready().then(() => this.come(windows, views, scale), () => { this.asked = '' })
      return
    }
    this.pieces = views.flatMap(({ labels }, k) => {
      const made = labels.map(label => this.ready(label))
      return windows[k].shifts.map(shift => ({ shift, labels: made }))
    })
    this.scale = scale
    this.replies++
    this.changed()
  }

  /** @param {Label} label
   * @returns {Ready} */
  ready(label) {
    return { ...label, ...this.facts.of(label.id), flat: this.plane.flatOf(...label.at), hull: hullOf(label.boxes),
      end: valueOf(label.until) }
  }

  /** More is known of the features: what is there learns it. */
  refresh() {
    for (const { labels } of this.pieces)
      for (const label of labels) Object.assign(label, this.facts.of(label.id))
  }

  /** Draws what is there. Until the reply for this scale comes, names that end below it are left out at once.
   * @param {Frame} frame
   * @param {number} width
   * @param {number} height */
  draw(frame, width, height) {
    const now = this.plane.units / frame.k
    const isSame = this.scale !== null && Math.abs(now / this.scale.value - 1) < 1e-6
    const isDrawn = (/** @type {Ready} */ label) => (isSame || label.end > now) && !this.facts.isHidden(label.id)
    this.placed = placed(this.pieces, frame, this.plane, width, height, isDrawn)
    drawNames(clear(this.canvas, width, height), this.placed, this.look)
  }

  /** What was asked is asked again. */
  forget() { this.asked = '' }

  /** What is drawn, for tests and for programs that go on from here: the pixel of the anchor and the boxes. */
  drawn() {
    return this.placed.map(({ label, shift, x, y }) =>
      ({ id: label.id, text: label.text, at: label.at, until: label.until, boxes: label.boxes, shift, x, y }))
  }
}
