// @ts-check
// Outlines of a map's areas, lines and points, for pages that have no tiles beneath: areas lie lowest, then lines, then
// points, whatever their order in the file, and a large area under a small one.

/** @typedef {import('./types.js').Plane} Plane */
/** @typedef {import('./types.js').Frame} Frame */
/** @typedef {import('./types.js').Feature} Feature */
/** @typedef {import('./types.js').Kind} Kind */
/** @typedef {import('./look.js').Stroke} Stroke */
/** @typedef {import('./facts.js').Known} Known */
/** @typedef {[number, number][]} Line */

/** An outline in the page's plane, with the box about it.
 * @typedef {Known & { id: string, kind: Kind, lines: Line[], west: number, east: number, north: number, south: number }} Shape */

/** @type {Kind[]} */
const ORDER = ['area', 'line', 'point']

/** The parts of a geometry: lines of positions each.
 * @type {{ [type: string]: (coordinates: any) => any[][] }} */
const PARTS = {
  Point: place => [[[place]]], MultiPoint: places => places.map((/** @type {any} */ place) => [[place]]),
  LineString: line => [[line]], MultiLineString: lines => lines.map((/** @type {any} */ line) => [line]),
  Polygon: rings => [rings], MultiPolygon: parts => parts
}
/** @type {{ [type: string]: Kind }} */
const KIND = { Point: 'point', MultiPoint: 'point', LineString: 'line', MultiLineString: 'line', Polygon: 'area', MultiPolygon: 'area' }

/** The shapes of features in the page's plane. Features that were made for names along lines have none.
 * @param {Feature[]} features
 * @param {Plane} plane
 * @param {(id: string) => Known | undefined} knownOf
 * @returns {Shape[]} */
export function shapesOf(features, plane, knownOf) {
  /** @type {Shape[]} */
  const shapes = []
  for (const feature of features) {
    if (feature.properties?.line_label !== undefined) continue
    const type = feature.geometry?.type ?? ''
    for (const part of PARTS[type]?.(feature.geometry?.coordinates) ?? []) {
      const lines = part.map(line => line.map((/** @type {number[]} */[x, y]) => plane.flatOf(x * 1e7, y * 1e7)))
      shapes.push({ id: feature.id, ...knownOf(feature.id), kind: KIND[type], lines, ...boxOf(lines) })
    }
  }
  return shapes.sort((a, b) => ORDER.indexOf(a.kind) - ORDER.indexOf(b.kind) || sizeOf(b) - sizeOf(a))
}

/** How large the box about an area is: a lake lies over the land that it is in.
 * @param {Shape} shape */
const sizeOf = ({ kind, west, east, north, south }) => kind === 'area' ? (east - west) * (south - north) : 0

/** @param {Line[]} lines */
function boxOf(lines) {
  const box = { west: Infinity, east: -Infinity, north: Infinity, south: -Infinity }
  for (const line of lines)
    for (const [u, v] of line) {
      if (u < box.west) box.west = u
      if (u > box.east) box.east = u
      if (v < box.north) box.north = v
      if (v > box.south) box.south = v
    }
  return box
}

/** @param {CanvasRenderingContext2D} pen
 * @param {Line} line
 * @param {Frame} frame
 * @param {number} shift */
function trace(pen, line, { k, ox, oy }, shift) {
  let lastX = Infinity, lastY = Infinity
  for (let i = 0, last = line.length - 1; i <= last; i++) {
    const x = k * (line[i][0] + shift) + ox, y = k * line[i][1] + oy
    if (i && i < last && Math.abs(x - lastX) + Math.abs(y - lastY) < 1) continue
    if (i) pen.lineTo(x, y)
    else pen.moveTo(x, y)
    lastX = x
    lastY = y
  }
}

/** @param {CanvasRenderingContext2D} pen
 * @param {Shape} shape
 * @param {Frame} frame
 * @param {number} shift
 * @param {Stroke} stroke */
function drawShape(pen, shape, frame, shift, stroke) {
  pen.beginPath()
  if (shape.kind === 'point') {
    if (!stroke.radius) return
    const [[[u, v]]] = shape.lines
    pen.arc(frame.k * (u + shift) + frame.ox, frame.k * v + frame.oy, stroke.radius, 0, 2 * Math.PI)
  } else for (const line of shape.lines) trace(pen, line, frame, shift)
  if (stroke.fill && shape.kind !== 'line') {
    pen.fillStyle = stroke.fill
    pen.fill('evenodd')
  }
  if (stroke.line) {
    pen.strokeStyle = stroke.line
    pen.lineWidth = stroke.width ?? 1
    pen.stroke()
  }
}

/** Draws shapes in every turn of the world that is to be seen.
 * @param {CanvasRenderingContext2D} pen
 * @param {Shape[]} shapes
 * @param {Frame} frame
 * @param {Plane} plane
 * @param {number} width
 * @param {number} height
 * @param {(shape: Shape) => Stroke} strokeOf */
export function drawShapes(pen, shapes, frame, plane, width, height, strokeOf) {
  pen.lineJoin = 'round'
  const first = Math.floor((-frame.ox / frame.k + plane.turn / 2) / plane.turn) - 1
  const last = Math.ceil(((width - frame.ox) / frame.k - plane.turn / 2) / plane.turn) + 1
  for (const shape of shapes) {
    if (frame.k * shape.south + frame.oy < 0 || frame.k * shape.north + frame.oy > height) continue
    const stroke = strokeOf(shape)
    for (let turn = first; turn <= last; turn++) {
      const shift = turn * plane.turn
      if (frame.k * (shape.east + shift) + frame.ox >= 0 && frame.k * (shape.west + shift) + frame.ox <= width)
        drawShape(pen, shape, frame, shift, stroke)
    }
  }
}
