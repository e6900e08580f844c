// @ts-check
// Names as a layer of a Leaflet map: `L.maplabel(source, options).addTo(map)`, and `remove()` as of any layer.
import { ExportSource } from './exported.js'
import { LeafletMap } from './leafletmap.js'
import { focusByTouch, listenKeys, listenWheel } from './input.js'
import { planes } from './plane.js'
import { Viewer } from './viewer.js'

/** @typedef {import('./viewer.js').Options} Options */

/** Beside the options of a viewer: `smooth`, whether the wheel zooms smoothly and keys move the map, in place of Leaflet's
 * own ways; `shy`, whether the wheel is the article's as long as the map has no focus.
 * @typedef {Options & { smooth?: boolean, shy?: boolean }} LayerOptions */

/** @typedef {{ plane: import('./types.js').Plane, source: string | object }} Prepared */

/** The source, once it is known which plane its names were labelled in.
 * @param {string | object} told
 * @param {Options} options
 * @returns {Prepared | Promise<Prepared>} */
export function prepared(told, options) {
  const planeOf = (/** @type {string | undefined} */ way) => planes[way === 'projected' ? 'projected' : 'stretched']
  if (typeof told === 'string' && (told.includes('{z}') || !/\.(geo)?json($|[?#])/.test(told)))
    return { plane: planeOf(options.way), source: told }
  const source = new ExportSource(told)
  return source.load().then(() => ({ plane: planeOf(options.way ?? source.index?.way ?? 'projected'), source }))
}

/** Puts a viewer over a Leaflet map; `remove` takes it off again.
 * @param {any} L
 * @param {any} map
 * @param {import('./types.js').Plane} plane
 * @param {string | object} source
 * @param {LayerOptions} options */
export function attach(L, map, plane, source, options) {
  const element = map.getContainer(), ground = new LeafletMap(L, map, plane)
  const viewer = new Viewer(element, plane, ground, source, { ...options, attribution: '' })   // Leaflet shows it
  const follow = () => { if (ground.moving) { viewer.draw(); requestAnimationFrame(follow) } }
  const heard = {
    'move zoom resize': () => viewer.see(),
    zoomanim: (/** @type {any} */ how) => { viewer.names.see(ground.begin(how), ...ground.size()); follow() },
    zoomend: () => { ground.arrive(); viewer.see() },
    click: (/** @type {any} */ { containerPoint }) => viewer.click(containerPoint.x, containerPoint.y)
  }
  for (const [kinds, act] of Object.entries(heard)) map.on(kinds, act)
  const act = { move: (/** @type {number} */ dx, /** @type {number} */ dy) => ground.move(dx, dy), click: () => {},
    zoom: (/** @type {number} */ factor, /** @type {number} */ px, /** @type {number} */ py) => ground.zoomAbout(factor, px, py),
    glide: (/** @type {number} */ steps, /** @type {number} */ px, /** @type {number} */ py) => ground.glide.add(steps, px, py) }
  const { signal } = viewer.breaker, were = { wheel: map.scrollWheelZoom.enabled(), keys: map.keyboard?.enabled() ?? false }
  if (options.smooth) {
    map.scrollWheelZoom.disable()
    map.keyboard?.disable()
    focusByTouch(element, signal)
    listenWheel(element, act, signal, options.shy)
    listenKeys(element, act, signal)
  }
  const remove = () => {
    for (const [kinds, heardBy] of Object.entries(heard)) map.off(kinds, heardBy)
    viewer.end()
    if (options.smooth && were.wheel) map.scrollWheelZoom.enable()
    if (options.smooth && were.keys) map.keyboard?.enable()
  }
  return { viewer, remove }
}

/** The layer's class over a Leaflet that is there.
 * @param {any} L
 * @returns {any} */
function layerOf(L) {
  return L.Layer.extend({
    /** @param {string | object} source
     * @param {LayerOptions} options */
    initialize(/** @type {any} */ source, /** @type {any} */ options) {
      this.told = source
      L.setOptions(this, options)
    },
    onAdd(/** @type {any} */ map) {
      const turn = this.turn = {}
      const begin = (/** @type {any} */ { plane, source }) => {
        if (this.turn !== turn) { source.end?.(); return }
        this.attached = attach(L, map, plane, source, this.options)
        this.viewer = this.attached.viewer
        this.viewer.start()
        this.fire('load')
      }
      const ready = prepared(this.told, this.options)
      if (ready instanceof Promise) ready.then(begin)
      else begin(ready)
    },
    onRemove() {
      this.turn = null
      this.attached?.remove()
      this.attached = this.viewer = null
    },
    getAttribution() { return this.options.attribution }
  })
}

/** Gives a Leaflet the function `L.maplabel`.
 * @param {any} L */
export function register(L) {
  L.MapLabel ??= layerOf(L)
  L.maplabel ??= (/** @type {string | object} */ source, /** @type {LayerOptions} */ options) => new L.MapLabel(source, options)
}
