// @ts-check
// Whole pages: one map that fills its element, whose view stands in the address behind `#`:
//
//   cx, cy, s       of the plain page: the middle in engine units, and the scale
//   lat, lng, z     of the Mercator page
//   way             of the Mercator page: `degrees`, or `projected` for a map that web/project has made
//   host, port      where the server is, if not where the page came from
//   names           of the Mercator page: an export or tiles, in place of a server
//   land=no         draw no outlines; poll=no: do not ask whether the map was edited
//
// and before it `?explain`, with which a click tells the engine's reasons.
import { attach, prepared, register } from './layer.js'
import { MERCATOR_LATITUDE, planes } from './plane.js'
import { numberOf, PlainMap } from './plainmap.js'
import { serverOf, Viewer } from './viewer.js'

/** Beside the options of a layer: where the names come from (the server of the address, if not told), a tile layer
 * beneath with its credit, the zooms that may be gone to, and the first view: the middle, latitude and longitude, with the
 * zoom; or the south-west and the north-east of what is to be seen.
 * @typedef {import('./layer.js').LayerOptions & { source?: string | object, tiles?: string, credit?: string,
 *   zooms?: [number, number], view?: [number, number, number],
 *   bounds?: [[number, number], [number, number]] }} PageOptions */

const STILL = 200                                        // milliseconds after which the address is written

const wordsOf = () => new URLSearchParams(location.hash.slice(1))

/** @param {HTMLElement} element
 * @param {unknown} error */
function tellFault(element, error) {
  const told = document.createElement('p')
  told.className = 'ml-fault'
  told.setAttribute('role', 'alert')
  told.textContent = error instanceof Error ? error.message : String(error)
  element.append(told)
}

/** What the words of the address choose, over what the author does.
 * @param {PageOptions} options
 * @param {URLSearchParams} words
 * @returns {PageOptions} */
function chosenBy(options, words) {
  const has = (/** @type {string} */ word) => words.get(word) === 'no'
  return { style: options.source === undefined ? 'style.json' : null, explain: new URLSearchParams(location.search).has('explain'),
    ...options, ...has('land') && { outlines: false }, ...has('poll') && { poll: false } }
}

/** The view stands in the address once it is still, since browsers allow few changes of it; and is read from there.
 * @param {Viewer} viewer */
function followAddress(viewer) {
  let still = 0
  const write = () => {
    const words = wordsOf()
    for (const [name, value] of Object.entries(viewer.map.words())) words.set(name, String(value))
    history.replaceState(null, '', '#' + words)
  }
  viewer.settled = () => {
    clearTimeout(still)
    still = window.setTimeout(write, STILL)
  }
  const { signal } = viewer.breaker
  signal.addEventListener('abort', () => clearTimeout(still))
  window.addEventListener('hashchange', () => viewer.map.read(wordsOf()), { signal })
}

/** What pages have in common.
 * @param {HTMLElement} element
 * @param {Viewer} viewer
 * @param {PageOptions} options */
function begin(element, viewer, options) {
  if (options.title) document.title = options.title
  followAddress(viewer)
  viewer.start()
  if (!/^(INPUT|TEXTAREA|SELECT)$/.test(document.activeElement?.tagName ?? '')) element.focus({ preventScroll: true })
  return viewer
}

/** A map in degrees as they stand, without Leaflet. The viewer is given back, for programs that go on.
 * @param {HTMLElement} element
 * @param {PageOptions} [told] */
export function openPlain(element, told = {}) {
  const words = wordsOf(), options = { attribution: '', ...chosenBy(told, words), buttons: true }
  try {
    const map = new PlainMap(element, planes.degrees)
    const viewer = new Viewer(element, planes.degrees, map, options.source ?? serverOf(words), options)
    map.read(words)
    map.changed = () => viewer.see()
    map.clicked = (x, y) => viewer.click(x, y)
    return begin(element, viewer, options)
  } catch (error) {
    tellFault(element, error)
    return undefined
  }
}

/** A Leaflet map over an element.
 * @param {any} L
 * @param {HTMLElement} element
 * @param {URLSearchParams} words
 * @param {PageOptions} options */
function leafletOf(L, element, words, { zooms = [1, 18], view: [lat, lng, z] = [25, 10, 2], bounds, tiles, credit, attribution }) {
  const map = L.map(element, {
    center: [numberOf(words, 'lat', lat), numberOf(words, 'lng', lng)], zoom: numberOf(words, 'z', z),
    minZoom: zooms[0], maxZoom: zooms[1], zoomSnap: 0, maxBoundsViscosity: 1,
    maxBounds: [[-MERCATOR_LATITUDE, -36000], [MERCATOR_LATITUDE, 36000]]
  })
  if (tiles) L.tileLayer(tiles, { attribution: credit ?? '' }).addTo(map)
  if (bounds && !words.has('z'))
    map.setView(L.latLngBounds(bounds).getCenter(), Math.min(Math.max(map.getBoundsZoom(bounds), zooms[0]), zooms[1]), { animate: false })
  if (attribution) map.attributionControl.addAttribution(attribution)
  return map
}

/** A map in Web Mercator. Leaflet must be there as `L`.
 * @param {HTMLElement} element
 * @param {PageOptions} [told] */
export function openMercator(element, told = {}) {
  const words = wordsOf(), { L } = window, given = chosenBy(told, words)
  const options = { ...given, way: given.way ?? (words.get('way') === 'projected' ? 'projected' : undefined),
    ...given.tiles && { background: /** @type {const} */('none') } }
  register(L)
  try {
    const source = options.source ?? words.get('names') ?? serverOf(words), map = leafletOf(L, element, words, options)
    const open = (/** @type {{ plane: import('./types.js').Plane, source: string | object }} */ ready) => {
      const { viewer } = attach(L, map, ready.plane, ready.source, { smooth: true, ...options })
      return Object.assign(begin(element, viewer, options), { leaflet: map })
    }
    const ready = prepared(source, options)
    return ready instanceof Promise ? ready.then(open) : open(ready)
  } catch (error) {
    tellFault(element, error)
    return undefined
  }
}

/** Names on an element of a page of one's own, without Leaflet: `remove()` takes all of it away again. `view` is the
 * middle, longitude and latitude, and the zoom.
 * @param {HTMLElement} element
 * @param {string | object} told
 * @param {PageOptions & { shy?: boolean }} [options]
 * @returns {Promise<{ viewer: Viewer, remove: () => void }>} */
export async function onElement(element, told, options = {}) {
  const { plane: found, source } = await prepared(told, options)
  const plane = found.stretches && options.way === 'degrees' ? planes.degrees : found
  const map = new PlainMap(element, plane, { isShy: options.shy, greatest: plane.turn * plane.units / 256 })
  const viewer = new Viewer(element, plane, map, source, { buttons: true, ...options })
  const [lat, lng, zoom] = options.view ?? [25, 10, 2]
  const [u, v] = planes.stretched.flatOf(lng * 1e7, lat * 1e7)
  const flat = plane === planes.degrees ? plane.flatOf(lng * 1e7, lat * 1e7) : [u, v]
  map.centre(flat[0], flat[1], plane.turn * plane.units / 256 / 2 ** zoom)
  map.changed = () => viewer.see()
  map.clicked = (x, y) => viewer.click(x, y)
  viewer.start()
  return { viewer, remove: () => viewer.end() }
}
