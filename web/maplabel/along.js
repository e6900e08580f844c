// @ts-check
// Names along lines: the letters of a name of several boxes are drawn along the smooth curve that its boxes follow, each
// turned, at the greatest height at which the ink of every letter stays within the boxes. A name in letters that join or
// run from right to left is drawn as one turned run. Where the boxes follow no such curve, or the letters would be too
// small or too crooked, there is no answer, and they are written upright. All follows from the boxes, the text and the
// font alone, in pixels about the anchor, y upwards. The package maplabel_kit.along reckons the same for other programs.

/** @typedef {[number, number]} Point */
/** @typedef {number[]} Box left, bottom, right, top */
/** @typedef {{ text: string, wide: number, ink: Box | null }} Letter of a text 1 pixel high */
/** @typedef {{ text: string, x: number, y: number, angle: number, ink: Box | null }} Piece */
/** @typedef {{ height: number, isRun: boolean, kerning: 'auto' | 'none', pieces: Piece[], letters: Piece[] }} Lay */
/** @typedef {{ text: string, boxes: Box[], height: number, family: string, spacing?: number }} Name */
/** @typedef {{ colour: string, halo: string, haloWidth: number, family: string }} Look */
/** @typedef {CanvasRenderingContext2D | OffscreenCanvasRenderingContext2D} Pen */

// Of the height of letters: how far the base line is below the middle of a box.
const RISE = 0.29
// Of a curve's degree: how many pixels it may keep from the middles of the boxes.
const BOUNDS = [[1, 0.62], [2, 0.72], [3, 1.1]]
// Of the wanted height: smaller than this a name is not drawn along its boxes. A run that is written whole may be smaller.
const LEAST = 0.7, LEAST_WHOLE = 0.4
// Degrees by which a drawn letter may be turned against the one before it.
const MOST_TURN = 15
const CLOSE = 1e-9
// The height in pixels at which texts are measured, and the pixels of a step along a curve.
const PROBE = 250, STEP = 2
// Outlines as the font has them: at small heights browsers move them to whole pixels, and ink then reaches out of its box.
const EXACT = 'geometricPrecision'
// Radians by which a level letter is turned, since a level base line is moved to whole pixels as well.
const LEVEL = 1e-5
// Pixels that are as good as none where an x is sought.
const NEAR = 1e-12
// How many names are remembered.
const MOST_NAMES = 5000
/** Scripts that join their letters, run from right to left or stack their signs. */
export const WHOLE_SCRIPTS = ['Arabic', 'Hebrew', 'Syriac', 'Thaana', 'Nko', 'Mongolian', 'Devanagari', 'Bengali', 'Gurmukhi',
  'Gujarati', 'Oriya', 'Tamil', 'Telugu', 'Kannada', 'Malayalam', 'Sinhala', 'Myanmar', 'Khmer', 'Tibetan']
const WHOLE = new RegExp(`(?=\\p{L})[${WHOLE_SCRIPTS.map(name => `\\p{Script=${name}}`).join('')}]`, 'u')

const segmenter = Intl.Segmenter && new Intl.Segmenter(undefined, { granularity: 'grapheme' })

/**
 * The letters of a text, each with its marks.
 * @param {string} text
 */
export const lettersOf = text =>
  segmenter ? Array.from(segmenter.segment(text), part => part.segment) : Array.from(text)

/**
 * Whether a text is written as one run.
 * @param {string} text
 */
export const isWhole = text => WHOLE.test(text)

/**
 * @param {number[]} values
 */
const sumOf = values => values.reduce((all, one) => all + one, 0)

/**
 * The answer of a system of as many equations as unknowns, or none (Gauss, with pivots).
 * @param {number[][]} rows
 * @param {number[]} right
 */
function solve(rows, right) {
  const count = rows.length, table = rows.map((row, k) => [...row, right[k]])
  for (let k = 0; k < count; k++) {
    let best = k
    for (let i = k + 1; i < count; i++) if (Math.abs(table[i][k]) > Math.abs(table[best][k])) best = i
    const row = table[best]
    table[best] = table[k]
    table[k] = row
    if (Math.abs(table[k][k]) < 1e-12) return null
    for (let i = k + 1; i < count; i++) {
      const factor = table[i][k] / table[k][k]
      for (let j = k; j <= count; j++) table[i][j] -= factor * table[k][j]
    }
  }
  const found = Array(count).fill(0)
  for (let k = count - 1; k >= 0; k--) {
    let rest = table[k][count]
    for (let j = k + 1; j < count; j++) rest -= table[k][j] * found[j]
    found[k] = rest / table[k][k]
  }
  return found
}

/**
 * The value of a polynomial, whose least power stands first.
 * @param {number[]} poly
 * @param {number} u
 */
const valueAt = (poly, u) => poly.reduceRight((value, factor) => value * u + factor, 0)

/**
 * The slope of a polynomial.
 * @param {number[]} poly
 * @param {number} u
 */
function slopeAt(poly, u) {
  let value = 0
  for (let k = poly.length - 1; k > 0; k--) value = value * u + k * poly[k]
  return value
}

/**
 * The polynomial of least squares, and its greatest distance from the points.
 * @param {Point[]} points
 * @param {number} degree
 * @returns {[number[] | null, number]}
 */
function fit(points, degree) {
  const size = Math.max(1e-9, ...points.map(([u]) => Math.abs(u)))
  const scaled = points.map(([u, w]) => [u / size, w])
  const sums = Array.from({ length: 2 * degree + 1 }, (_, k) => sumOf(scaled.map(([u]) => u ** k)))
  const right = Array.from({ length: degree + 1 }, (_, k) => sumOf(scaled.map(([u, w]) => w * u ** k)))
  const found = solve(right.map((_, i) => sums.slice(i, i + degree + 1)), right)
  if (!found) return [null, Infinity]
  const poly = found.map((factor, k) => factor / size ** k)
  return [poly, Math.max(...points.map(([u, w]) => Math.abs(valueAt(poly, u) - w)))]
}

/** w = poly(u) in a frame that is turned by an angle about an origin; straight on beyond `reach` from there. */
class Curve {
  /**
   * @param {Point} origin
   * @param {number} angle
   * @param {number[]} poly
   * @param {number} reach
   */
  constructor([x, y], angle, poly, reach = Infinity) {
    this.x = x
    this.y = y
    this.angle = angle
    this.poly = poly
    this.reach = reach
    this.isStraight = poly.length <= 2
    this.cos = Math.cos(angle)
    this.sin = Math.sin(angle)
  }

  /**
   * @param {number} u
   */
  kept(u) { return Math.min(Math.max(u, -this.reach), this.reach) }

  /**
   * @param {number} u
   */
  slope(u) { return slopeAt(this.poly, this.kept(u)) }

  /**
   * @param {number} u
   * @returns {Point}
   */
  place(u) {
    const end = this.kept(u)
    const w = valueAt(this.poly, end) + (u === end ? 0 : (u - end) * this.slope(u))
    return [this.x + u * this.cos - w * this.sin, this.y + u * this.sin + w * this.cos]
  }

  /**
   * The u that lies so far along the curve from u.
   * @param {number} u
   * @param {number} length
   */
  step(u, length) {
    if (this.isStraight) return u + length / Math.hypot(1, this.slope(0))
    const count = Math.max(1, Math.ceil(Math.abs(length) / STEP))
    for (let k = 0; k < count; k++) {
      const middle = u + length / count / 2 / Math.hypot(1, this.slope(u))
      u += length / count / Math.hypot(1, this.slope(middle))
    }
    return u
  }

  /**
   * The u whose point has this x, on a curve that does not turn back.
   * @param {number} x
   */
  atX(x) {
    if (this.cos < 1e-6) return 0
    let u = (x - this.x) / this.cos
    for (let k = 0, off = 1; k < (this.isStraight ? 1 : 8) && Math.abs(off) >= NEAR; k++) {
      off = (this.place(u)[0] - x) / Math.max(this.cos - this.slope(u) * this.sin, 0.05)
      u -= off
    }
    return u
  }
}

/**
 * The boxes of a name that runs straight up: all at one height, and narrow together.
 * @param {Box[]} boxes
 */
const isUpright = boxes => boxes.every(box => box[1] === boxes[0][1]) &&
  boxes[0][3] - boxes[0][1] > 3 * (Math.max(...boxes.map(box => box[2])) - boxes[0][0])

/**
 * The simplest curve that keeps near the middles of boxes, null where none does; of one run it is straight.
 * @param {Box[]} boxes
 * @param {boolean} isRun
 */
function curveOf(boxes, isRun) {
  const middles = boxes.map(([left, bottom, right, top]) => /** @type {Point} */ ([(left + right) / 2, (bottom + top) / 2]))
  const count = middles.length
  const origin = /** @type {Point} */ ([sumOf(middles.map(([x]) => x)) / count, sumOf(middles.map(([, y]) => y)) / count])
  if (isUpright(boxes)) return { curve: new Curve(origin, Math.PI / 2, [0]), isStraight: true }
  const moved = middles.map(([x, y]) => /** @type {Point} */ ([x - origin[0], y - origin[1]]))
  const [line] = fit(moved, 1)
  const angle = Math.atan(line ? line[1] : 0), cos = Math.cos(angle), sin = Math.sin(angle)
  const straight = { curve: new Curve(origin, angle, [0]), isStraight: true }
  if (isRun) return straight
  const turned = moved.map(([x, y]) => /** @type {Point} */ ([x * cos + y * sin, y * cos - x * sin]))
  for (const [degree, bound] of BOUNDS) {
    if (count <= degree) break
    const [poly, off] = fit(turned, degree)
    if (!poly || off > bound) continue
    const reach = Math.max(...turned.map(([u]) => Math.abs(u)))
    return degree === 1 ? straight : { curve: new Curve(origin, angle, poly, reach), isStraight: false }
  }
  return null
}

/**
 * The least and the greatest y of a convex shape between two x, null where it is not there.
 * @param {Point[]} shape
 * @param {number} low
 * @param {number} high
 */
function clipped(shape, low, high) {
  const ys = shape.filter(([x]) => low <= x && x <= high).map(([, y]) => y)
  shape.forEach(([ax, ay], k) => {
    const [bx, by] = shape[(k + 1) % shape.length]
    for (const x of [low, high]) if ((ax - x) * (bx - x) < 0) ys.push(ay + (by - ay) * (x - ax) / (bx - ax))
  })
  return ys.length ? [Math.min(...ys), Math.max(...ys)] : null
}

/**
 * Spans that touch or cover one another, as one.
 * @param {number[][]} spans
 */
function joined(spans) {
  /** @type {number[][]} */
  const found = []
  for (const [bottom, top] of [...spans].sort((a, b) => a[0] - b[0])) {
    const last = found[found.length - 1]
    if (last && bottom <= last[1]) last[1] = Math.max(last[1], top)
    else found.push([bottom, top])
  }
  return found
}

/** The union of boxes as columns: from each left side to the next one, the spans that boxes fill. */
export class Room {
  /**
   * @param {Box[]} boxes
   */
  constructor(boxes) {
    const edges = [...new Set(boxes.flatMap(([left, , right]) => [left, right]))].sort((a, b) => a - b)
    this.left = edges[0]
    this.right = edges[edges.length - 1]
    this.columns = edges.slice(1).map((high, k) => {
      const low = edges[k], over = boxes.filter(box => box[0] <= low && high <= box[2])
      return { low, high, spans: joined(over.map(box => [box[1], box[3]])) }
    })
  }

  /**
   * By how many pixels a convex shape reaches out of the union; 0 is within.
   * @param {Point[]} shape
   */
  lack(shape) {
    const least = Math.min(...shape.map(([x]) => x)), most = Math.max(...shape.map(([x]) => x))
    let out = Math.max(0, this.left - least, most - this.right)
    for (const { low, high, spans } of this.columns) {
      if (high <= least || low >= most) continue
      const part = clipped(shape, Math.max(low, least), Math.min(high, most))
      if (!part) continue
      const lacks = spans.map(([bottom, top]) => Math.max(0, bottom - part[0], part[1] - top))
      out = Math.max(out, lacks.length ? Math.min(...lacks) : part[1] - part[0])
    }
    return out
  }
}

/**
 * The corners of a letter's ink, turned about the pen's place.
 * @param {Box} ink
 * @param {number[]} place
 * @param {number} height
 * @returns {Point[]}
 */
function cornersOf(ink, [x, y, angle], height) {
  const [left, bottom, right, top] = ink.map(one => one * height), cos = Math.cos(angle), sin = Math.sin(angle)
  return [[left, bottom], [right, bottom], [right, top], [left, top]].map(([u, w]) =>
    [x + u * cos - w * sin, y + u * sin + w * cos])
}

/**
 * A text as the pen measures it.
 * @param {Pen} pen
 * @param {string} text
 * @returns {Letter}
 */
function measured(pen, text) {
  const size = pen.measureText(text)
  const ink = [-size.actualBoundingBoxLeft, -size.actualBoundingBoxDescent, size.actualBoundingBoxRight, size.actualBoundingBoxAscent]
  return { text, wide: size.width / PROBE, ink: /^\s*$/u.test(text) ? null : ink.map(one => one / PROBE) }
}

/**
 * The letters of a run of text as they are measured.
 * @param {Pen} pen
 * @param {string} run
 * @param {string} family
 */
function lettersIn(pen, run, family) {
  pen.save()
  pen.font = `${PROBE}px ${family}`
  pen.textAlign = 'left'
  pen.textRendering = EXACT
  pen.fontKerning = isWhole(run) ? 'auto' : 'none'
  const found = (isWhole(run) ? [run] : lettersOf(run)).map(one => measured(pen, one))
  pen.restore()
  return found
}

/**
 * The pen's place and angle for each letter, all together about the curve's middle.
 * @param {Letter[]} letters
 * @param {Curve} curve
 * @param {number} height
 * @param {number} middle
 * @param {number} spacing
 */
function placesOf(letters, curve, height, middle, spacing) {
  const total = sumOf(letters.map(({ wide }) => wide)) * height + spacing * (letters.length - 1)
  let u = curve.step(middle, -total / 2)
  return letters.map(({ wide }) => {
    const after = curve.step(u, wide * height), [ax, ay] = curve.place(u), [bx, by] = curve.place(after)
    const angle = after > u ? Math.atan2(by - ay, bx - ax) : curve.angle
    u = spacing ? curve.step(after, spacing) : after
    return [ax + RISE * height * Math.sin(angle), ay - RISE * height * Math.cos(angle), angle]
  })
}

/**
 * The greatest angle in degrees between a letter with ink and the next one.
 * @param {Letter[]} letters
 * @param {number[][]} places
 */
function mostTurn(letters, places) {
  const angles = places.filter((_, k) => letters[k].ink).map(([, , angle]) => angle * 180 / Math.PI)
  return Math.max(0, ...angles.slice(1).map((angle, k) => Math.abs(angle - angles[k])))
}

/**
 * The boxes of a text without those of the spaces before and behind it.
 * @param {string} text
 * @param {Box[]} boxes
 */
function coreOf(text, boxes) {
  const parts = lettersOf(text), inked = parts.flatMap((part, k) => part.trim() ? [k] : [])
  return parts.length === boxes.length && inked.length ? boxes.slice(inked[0], inked[inked.length - 1] + 1) : boxes
}

/**
 * What is drawn: a straight name without spacing is one piece, and a run is told by its middle.
 * @param {Letter[]} letters
 * @param {number[][]} places
 * @param {number} height
 * @param {{ run: string, isRun: boolean, isOne: boolean }} how
 * @returns {Lay}
 */
function drawnOf(letters, places, height, { run, isRun, isOne }) {
  const drawn = letters.map(({ text, wide, ink }, k) => {
    const [x, y, angle] = places[k], half = isRun ? wide * height / 2 : 0
    return { text, x: x + half * Math.cos(angle), y: y + half * Math.sin(angle), angle, ink }
  })
  const inked = drawn.filter(({ ink }) => ink)
  return { height, isRun, kerning: isRun ? 'auto' : 'none', pieces: isOne ? [{ ...drawn[0], text: run }] : inked, letters: inked }
}

/**
 * How a name lies along its boxes; null where it does not.
 * @param {Pen} pen
 * @param {Name} name
 * @returns {Lay | null}
 */
function reckoned(pen, { text, boxes, height: wanted, family, spacing = 0 }) {
  const run = text.trim()
  if (!run || !boxes.length || wanted < 1) return null
  const isRun = isWhole(run), core = coreOf(text, boxes), shape = curveOf(core, isRun)
  if (!shape) return null
  const letters = lettersIn(pen, run, family), apart = isRun ? 0 : spacing
  const room = new Room(boxes), middle = shape.curve.atX((core[0][0] + Math.max(...core.map(box => box[2]))) / 2)
  for (let height = wanted; height >= (isRun ? LEAST_WHOLE : LEAST) * wanted; height--) {
    const places = placesOf(letters, shape.curve, height, middle, apart)
    if (mostTurn(letters, places) > MOST_TURN) return null
    const isOut = letters.some(({ ink }, k) => ink && room.lack(cornersOf(ink, places[k], height)) > CLOSE)
    if (!isOut) return drawnOf(letters, places, height, { run, isRun, isOne: !isRun && shape.isStraight && !apart })
  }
  return null
}

/** @type {Map<string, Lay | null>} */
const known = new Map()

/**
 * How a name of several boxes is drawn along them, reckoned once for each name and form of boxes; null where its letters
 * are to be written upright. `height` is the wanted height of letters, `spacing` pixels behind each letter.
 * @param {Pen} pen
 * @param {Name} name
 * @returns {Lay | null}
 */
export function layAlong(pen, name) {
  const key = JSON.stringify([name.family, name.height, name.spacing ?? 0, name.text, name.boxes])
  const before = known.get(key)
  if (before !== undefined) return before
  if (known.size >= MOST_NAMES) known.clear()
  const found = reckoned(pen, name)
  known.set(key, found)
  return found
}

/** Forgets what was reckoned, as when a font has come. */
export const forgetLays = () => known.clear()

/**
 * Draws a name whose anchor is at a pixel: first the halo of all its letters, then the letters.
 * @param {Pen} pen
 * @param {Lay} lies
 * @param {number} x
 * @param {number} y
 * @param {Look} look
 */
export function drawAlong(pen, lies, x, y, { colour, halo, haloWidth, family }) {
  pen.save()
  pen.font = `${lies.height}px ${family}`
  pen.textRendering = EXACT
  pen.fontKerning = lies.kerning
  pen.textAlign = lies.isRun ? 'center' : 'left'
  pen.textBaseline = 'alphabetic'
  pen.lineJoin = 'round'
  pen.lineWidth = haloWidth
  pen.strokeStyle = halo
  pen.fillStyle = colour
  for (const way of /** @type {('strokeText' | 'fillText')[]} */ (haloWidth > 0 ? ['strokeText', 'fillText'] : ['fillText'])) {
    for (const piece of lies.pieces) drawPiece(pen, way, piece, x, y)
  }
  pen.restore()
}

/**
 * @param {Pen} pen
 * @param {'strokeText' | 'fillText'} way
 * @param {Piece} piece
 * @param {number} x
 * @param {number} y
 */
function drawPiece(pen, way, piece, x, y) {
  pen.save()
  pen.translate(x + piece.x, y - piece.y)
  pen.rotate(-piece.angle || LEVEL)
  pen[way](piece.text, 0, 0)
  pen.restore()
}
