// @ts-check
// Draws names. Each name keeps its size and stands about the pixel of its anchor. Anchors are moved to whole
// pixels, all in the same way, so names that do not overlap do not overlap then.
import { layAlong, drawAlong } from './along.js'

/** @typedef {import('./types.js').Label} Label */
/** @typedef {import('./types.js').Ready} Ready */
/** @typedef {import('./types.js').Placed} Placed */
/** @typedef {import('./types.js').Look} Look */
/** @typedef {import('./types.js').Frame} Frame */
/** @typedef {import('./types.js').Plane} Plane */
/** @typedef {CanvasRenderingContext2D} Pen */

const BASE = 0.21                                        // of the text's height: how far the base line is above its box
const HALO = 3, DOT = 2.5, SLACK = 4, MOST_WIDTHS = 20000
const segmenter = Intl.Segmenter && new Intl.Segmenter(undefined, { granularity: 'grapheme' })

/** @param {string} text */
export const lettersOf = text => segmenter ? Array.from(segmenter.segment(text), part => part.segment) : Array.from(text)

const pixelRatio = () => window.devicePixelRatio || 1

/** Whole pixels of the screen, or of the page where there is no whole number of them in one of these.
 * @param {number} value */
const whole = value => {
  const ratio = Number.isInteger(pixelRatio()) ? pixelRatio() : 1
  return Math.floor(value * ratio + 0.5) / ratio
}

/** Makes a canvas as large as the area it covers, and clears it.
 * @param {HTMLCanvasElement} canvas
 * @param {number} width
 * @param {number} height */
export function clear(canvas, width, height) {
  const ratio = pixelRatio()
  if (canvas.width !== Math.round(width * ratio) || canvas.height !== Math.round(height * ratio)) {
    canvas.width = Math.round(width * ratio)
    canvas.height = Math.round(height * ratio)
    canvas.style.width = width + 'px'
    canvas.style.height = height + 'px'
  }
  const pen = /** @type {Pen} */(canvas.getContext('2d'))
  pen.setTransform(ratio, 0, 0, ratio, 0, 0)
  pen.clearRect(0, 0, width, height)
  return pen
}

/** @type {Map<string, number>} */
const widths = new Map()

/** How wide a text is in the pen's font, remembered.
 * @param {Pen} pen
 * @param {string} text
 * @param {string} font */
function widthOf(pen, text, font) {
  const key = font + '\n' + text, known = widths.get(key)
  if (known !== undefined) return known
  if (widths.size >= MOST_WIDTHS) widths.clear()
  pen.font = font
  const { width } = pen.measureText(text)
  widths.set(key, width)
  return width
}

/** What was measured is forgotten, as once a font has come.
 */
export function forgetWidths() {
  widths.clear()
  pictures.clear()
}

/** Writes a text into a box: in the middle, at its own width, smaller where the box is too narrow for it.
 * @param {Pen} pen
 * @param {string} text
 * @param {{ left: number, base: number, width: number, height: number }} place
 * @param {Look} look */
function write(pen, text, { left, base, width, height }, look) {
  const own = widthOf(pen, text, `${height}px ${look.font}`)
  const size = own > width + 0.5 ? height * width / own : height
  pen.font = `${size}px ${look.font}`
  const x = whole(left + (width - Math.min(own, width)) / 2), y = base - (height - size) / 3
  pen.strokeStyle = look.halo
  pen.lineWidth = HALO
  pen.strokeText(text, x, y)
  pen.fillStyle = look.colour
  pen.fillText(text, x, y)
}

/** @param {Pen} pen
 * @param {Look} look
 * @param {number} x
 * @param {number} y */
function drawDot(pen, look, x, y) {
  pen.fillStyle = look.dot || look.colour
  pen.strokeStyle = look.halo
  pen.lineWidth = 2
  pen.beginPath()
  pen.arc(x, y, DOT, 0, 2 * Math.PI)
  pen.stroke()
  pen.fill()
}

/** @param {unknown} value
 * @param {number} or */
const numberOr = (value, or) => typeof value === 'number' && Number.isFinite(value) ? value : or

/** How a name of several boxes lies along the curve of its boxes; none where its letters stand upright.
 * @param {Pen} pen
 * @param {Label} label
 * @param {Look} look */
export function liesOf(pen, label, look) {
  if (label.boxes.length < 2) return null
  const [, bottom, , top] = label.boxes[0], told = label.properties ?? {}
  const height = Math.min(numberOr(told.line_height, look.height ?? 12), top - bottom)
  return layAlong(pen, { text: label.text, boxes: label.boxes, height, family: look.font ?? 'serif',
    spacing: numberOr(told.line_spacing, 0) })
}

/** Pictures of names: a name is written once, and then its picture is put where it belongs, pixel by pixel the same.
 * @typedef {{ image: ImageBitmap, left: number, top: number, width: number, height: number }} Picture
 * @type {Map<string, Picture>} */
const pictures = new Map()
const MOST_PICTURES = 2500, MARGIN = 6

/** The picture of a name; none where a pixel of the page is no whole number of pixels of the screen.
 * @param {Ready} label
 * @param {Look} look
 * @returns {Picture | null} */
function pictureOf(label, look) {
  const ratio = pixelRatio(), told = label.properties
  if (!Number.isInteger(ratio) || !('OffscreenCanvas' in window)) return null
  const key = [label.text, label.boxes, look.colour, look.halo, look.dot, look.font, look.height, told?.line_height,
    told?.line_spacing, ratio].join('|')
  const known = pictures.get(key)
  if (known) return known
  if (pictures.size >= MOST_PICTURES) pictures.clear()
  const made = paint(label, look, ratio)
  pictures.set(key, made)
  return made
}

/** @param {Ready} label
 * @param {Look} look
 * @param {number} ratio
 * @returns {Picture} */
function paint(label, look, ratio) {
  const [l, b, r, t] = label.hull, high = Math.ceil((t - b) / 2)   // letters may reach below their box
  const left = Math.min(l, 0) - MARGIN, top = Math.min(-t, 0) - MARGIN
  const width = Math.max(r, 0) + MARGIN - left, height = Math.max(-b, 0) + MARGIN + high - top
  const canvas = new OffscreenCanvas(width * ratio, height * ratio)
  const pen = /** @type {Pen} */(/** @type {unknown} */(canvas.getContext('2d')))
  pen.scale(ratio, ratio)
  prepare(pen)
  drawOne(pen, label, -left, -top, look)
  return { image: canvas.transferToImageBitmap(), left, top, width, height }
}

/** @param {Pen} pen */
function prepare(pen) {
  pen.lineJoin = 'round'
  pen.textBaseline = 'alphabetic'
}

/** @param {Pen} pen
 * @param {Ready} label
 * @param {number} x
 * @param {number} y
 * @param {Look} look */
function drawOne(pen, label, x, y, look) {
  if (look.dot) drawDot(pen, look, x, y)
  const lies = liesOf(pen, label, look)
  if (lies) {
    drawAlong(pen, lies, x, y, { colour: look.colour, halo: look.halo, haloWidth: HALO, family: look.font ?? 'serif' })
    return
  }
  // Boxes that were made for turned letters are too narrow for upright ones.
  if (label.boxes.length > 1 && label.properties?.line_height !== undefined) return
  const parts = label.boxes.length === 1 ? [label.text] : label.letters ?? lettersOf(label.text)
  label.boxes.forEach(([left, bottom, right, top], k) => write(pen, parts[k] ?? '', {
    left: x + left, base: y - bottom - Math.round(BASE * (top - bottom)), width: right - left, height: top - bottom }, look))
}

/** @param {Placed} a
 * @param {Placed} b */
const overlaps = (a, b) => a.boxes.some(p => b.boxes.some(q =>
  a.x + p[0] < b.x + q[2] && b.x + q[0] < a.x + p[2] && a.y - p[3] < b.y - q[1] && b.y - q[3] < a.y - p[1]))

/** Where the names of several turns of the world stand. Over the date line the engine keeps no names apart, so
 * there the western one stands.
 * @param {{ shift: number, labels: Ready[] }[]} pieces
 * @param {Frame} frame
 * @param {Plane} plane
 * @param {number} width
 * @param {number} height
 * @param {(label: Ready) => boolean} isDrawn
 * @returns {Placed[]} */
export function placed(pieces, frame, plane, width, height, isDrawn) {
  /** @type {Placed[]} */
  const all = []
  for (const { shift, labels } of [...pieces].sort((a, b) => a.shift - b.shift)) {
    const before = all.slice()
    for (const label of labels) {
      if (!isDrawn(label)) continue
      const x = whole(frame.k * (label.flat[0] + shift * plane.turn) + frame.ox), y = whole(frame.k * label.flat[1] + frame.oy)
      const [left, bottom, right, top] = label.hull
      if (x + right < -SLACK || x + left > width + SLACK || y - bottom < -SLACK || y - top > height + SLACK) continue
      const one = { label, shift, x, y, boxes: label.boxes }
      if (!before.some(other => overlaps(one, other))) all.push(one)
    }
  }
  return all
}

/** @param {Pen} pen
 * @param {Placed[]} all
 * @param {(label: Label) => Look} look */
export function drawNames(pen, all, look) {
  prepare(pen)
  for (const { label, x, y } of all) {
    const own = look(label), picture = pictureOf(label, own)
    if (picture) pen.drawImage(picture.image, x + picture.left, y + picture.top, picture.width, picture.height)
    else drawOne(pen, label, x, y, own)
  }
}

/** A ring about a place that was sought, in the turn of the world that is nearest to the middle.
 * @param {Pen} pen
 * @param {[number, number]} place
 * @param {Frame} frame
 * @param {Plane} plane
 * @param {number} width
 * @param {string} colour */
export function drawRing(pen, [u, v], frame, plane, width, colour) {
  const turns = Math.round(((width / 2 - frame.ox) / frame.k - u) / plane.turn)
  pen.strokeStyle = colour
  pen.lineWidth = 2
  pen.beginPath()
  pen.arc(frame.k * (u + turns * plane.turn) + frame.ox, frame.k * v + frame.oy, 9, 0, 2 * Math.PI)
  pen.stroke()
}

/** The name at a pixel, with a few pixels about it.
 * @param {Placed[]} all
 * @param {number} px
 * @param {number} py
 * @param {(label: Label) => Look} look */
export const nameAt = (all, px, py, look) => all.find(({ x, y, boxes }) =>
  boxes.some(([left, bottom, right, top]) =>
    px >= x + left - SLACK && px <= x + right + SLACK && py >= y - top - SLACK && py <= y - bottom + SLACK)) ??
  all.find(({ label, x, y }) => look(label).dot && Math.hypot(px - x, py - y) <= 2 * SLACK)
