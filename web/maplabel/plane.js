// @ts-check
// Planes. The engine labels a flat plane: x runs east, y runs north, in units of 10^-7 degree. A page draws a
// plane of its own, u to the east and v to the south, by a frame: pixel = k * u + ox, and k * v + oy. A plane
// here tells how the one becomes the other:
//
//   engineOf(u, v), flatOf(x, y)   the two ways
//   placeOf(x, y)                  longitude and latitude
//   turn                           how far east the world begins again, in u
//   top                            how far the world reaches from the middle to the north and south, in v
//   reach                          how far a map may reach from the middle to either side, in engine units
//   units                          how many engine units across one unit of u is; so the scale is units / k
//   stretches                      whether y is stretched, so that not all names may be drawn (labels.js)

/** @typedef {import('./types.js').Plane} Plane */
/** @typedef {import('./types.js').Scale} Scale */
/** @typedef {import('./types.js').Frame} Frame */

export const MERCATOR_LATITUDE = 85.0511287798066   // where Web Mercator is as high as it is wide
const EQUATOR = 40075016.7                          // metres

/** @param {number} latitude */
export const northing = latitude => {
  const kept = Math.min(Math.max(latitude, -MERCATOR_LATITUDE), MERCATOR_LATITUDE)
  return Math.log(Math.tan(Math.PI / 4 + kept * Math.PI / 360)) * 180 / Math.PI
}

/** @param {number} north */
export const latitude = north => Math.atan(Math.exp(north * Math.PI / 180)) * 360 / Math.PI - 90

/** @type {{ degrees: Plane, projected: Plane, stretched: Plane }} */
export const planes = {
  // Degrees as they stand, drawn as they stand.
  degrees: {
    turn: 3.6e9, top: 0.9e9, reach: 2e9, units: 1, stretches: false,
    engineOf: (u, v) => [u, -v], flatOf: (x, y) => [x, -y],
    placeOf: (x, y) => [x / 1e7, y / 1e7]
  },
  // Web Mercator of a map that web/project has put there: half the longitude, half the northing.
  projected: {
    turn: 1.8e9, top: 0.9e9, reach: 1e9, units: 1, stretches: false,
    engineOf: (u, v) => [u, -v], flatOf: (x, y) => [x, -y],
    placeOf: (x, y) => [x / 5e6, latitude(y / 5e6)]
  },
  // Web Mercator of a map in degrees. u and v are as above.
  stretched: {
    turn: 1.8e9, top: 0.9e9, reach: 2e9, units: 2, stretches: true,
    engineOf: (u, v) => [2 * u, latitude(-v / 5e6) * 1e7],
    flatOf: (x, y) => [x / 2, -northing(y / 1e7) * 5e6],
    placeOf: (x, y) => [x / 1e7, y / 1e7]
  }
}

/** A scale as the engine takes it, nearest to a value: n/d with n at most 2^32 and d at most 2^16.
 * @param {number} value
 * @returns {Scale} */
export function scaleNear(value) {
  const kept = Math.min(Math.max(value, 1 / 65536), 268435455)
  let d = 1
  while (d < 65536 && kept * d * 2 <= 2 ** 32 && !Number.isInteger(kept * d)) d *= 2
  const n = Math.max(1, Math.round(kept * d))
  return { text: d === 1 ? `${n}` : `${n}/${d}`, value: n / d }
}

/** @param {string} fraction as the engine writes it
 * @returns {number} */
export function valueOf(fraction) {
  const [n, d = '1'] = fraction.split('/')
  return Number(n) / Number(d)
}

/** The zoom of web maps, whose world is 256 pixels wide at zoom 0.
 * @param {Plane} plane
 * @param {number} scale */
export const zoomOf = (plane, scale) => Math.log2(plane.turn * plane.units / 256 / scale)

/** The place in the middle of a screen: longitude and latitude, and how many metres a pixel is there from west to east.
 * @param {Plane} plane
 * @param {Frame} frame
 * @param {number} width
 * @param {number} height */
export function middleOf(plane, frame, width, height) {
  const [x, y] = plane.engineOf((width / 2 - frame.ox) / frame.k, (height / 2 - frame.oy) / frame.k)
  const [east, north] = plane.placeOf(x, y)
  return { east, north, metres: EQUATOR * Math.max(Math.cos(north * Math.PI / 180), 0.01) / (frame.k * plane.turn) }
}

/** The windows to ask for, so that all is known that stands in an area of the page's plane. Each has a shift: how
 * many turns of the world to the east its names are drawn. One is enough but near the date line.
 * @param {Plane} plane
 * @param {{ west: number, east: number, north: number, south: number }} area
 * @param {Scale} scale
 * @returns {import('./types.js').Window[]} */
export function windowsOf(plane, area, scale) {
  const most = plane.reach, turn = plane.turn * plane.units
  const [west, north] = plane.engineOf(area.west, area.north), [east, south] = plane.engineOf(area.east, area.south)
  const least = Math.max(south, -most), greatest = Math.min(north, most)
  const side = (/** @type {number} */ from, /** @type {number} */ to) =>
    Math.min(Math.max(2 * Math.ceil((to - from) / scale.value / 2), 2), 4096)
  const ask = (/** @type {number} */ from, /** @type {number} */ to, /** @type {number[]} */ shifts) =>
    from < to && least < greatest ? [{ shifts, cx: Math.round((from + to) / 2), cy: Math.round((least + greatest) / 2),
      w: side(from, to), h: side(least, greatest), s: scale.text }] : []
  // The world, and what a map may have beyond the date line, where another turn is to be seen.
  const first = Math.ceil((west - most) / turn), last = Math.floor((east + most) / turn)
  const shifts = Array.from({ length: last - first + 1 }, (_, k) => first + k)
  if (east - west >= turn) return ask(-most, most, shifts)
  return shifts.flatMap(shift =>
    ask(Math.max(west - shift * turn, -most), Math.min(east - shift * turn, most), [shift]))
}
