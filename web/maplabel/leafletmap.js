// @ts-check
// A Leaflet map as a ground.
import { Glide } from './glide.js'
import { scaleNear, zoomOf } from './plane.js'
import { numberOf } from './plainmap.js'

/** @typedef {import('./types.js').Plane} Plane */
/** @typedef {import('./types.js').Frame} Frame */

const WAY = 1000                                         // pixels that the probe goes

/** The frame of a Leaflet map whose plane is u and v.
 * @param {Plane} plane
 * @param {number} zoom
 * @param {number} left
 * @param {number} top
 * @returns {Frame} */
const frameOf = (plane, zoom, left, top) => {
  const k = 256 * 2 ** zoom / plane.turn
  return { k, ox: 128 * 2 ** zoom - left, oy: 128 * 2 ** zoom - top }
}

export class LeafletMap {
  /** @param {any} L Leaflet
   * @param {any} map a map of Leaflet's
   * @param {Plane} plane */
  constructor(L, map, plane) {
    this.L = L
    this.map = map
    this.plane = plane
    // A thing in Leaflet's plane that goes a way of its own, to tell how far Leaflet has come while it zooms.
    this.probe = L.DomUtil.create('div', 'leaflet-zoom-animated', map.getPane('mapPane'))
    /** @type {{ from: Frame, to: Frame } | null} */
    this.moving = null
    this.hasBegun = false
    /** @type {{ place: any, at: any } | null} */
    this.held = null
    this.glide = new Glide((factor, px, py, isLast) => this.glideAbout(factor, px, py, isLast))
  }

  /** @returns {[number, number]} */
  size() {
    const { x, y } = this.map.getSize()
    return [x, y]
  }

  isMoving() { return this.moving !== null || this.glide.isMoving }

  /** @returns {Frame} */
  frame() {
    if (this.moving) return this.between(this.moving)
    const origin = this.map.getPixelOrigin(), pane = this.map.layerPointToContainerPoint([0, 0])
    return frameOf(this.plane, this.map.getZoom(), origin.x - pane.x, origin.y - pane.y)
  }

  /** While Leaflet zooms, each place goes straight from where it was to where it will be, as far as Leaflet's own
   * layers have come.
   * @param {{ from: Frame, to: Frame }} way */
  between({ from, to }) {
    const part = new DOMMatrix(getComputedStyle(this.probe).transform).e / WAY
    const mix = (/** @type {number} */ a, /** @type {number} */ b) => a + part * (b - a)
    return { k: mix(from.k, to.k), ox: mix(from.ox, to.ox), oy: mix(from.oy, to.oy) }
  }

  /** Leaflet begins an animated zoom. The frame that it will come to is given back.
   * @param {{ center: any, zoom: number }} how */
  begin({ center, zoom }) {
    const from = this.frame(), middle = this.map.project(center, zoom), [width, height] = this.size()
    this.moving = { from, to: frameOf(this.plane, zoom, middle.x - width / 2, middle.y - height / 2) }
    this.probe.style.transform = `translateX(${WAY}px)`
    return this.moving.to
  }

  arrive() {
    this.moving = null
    this.probe.style.transform = 'translateX(0)'
  }

  words() {
    const { lat, lng } = this.map.getCenter().wrap()
    return { lat: lat.toFixed(5), lng: lng.toFixed(5), z: +this.map.getZoom().toFixed(4) }
  }

  /** The zoom whose scale the engine takes as it stands, nearest to this one.
   * @param {number} zoom */
  exact(zoom) {
    const base = zoomOf(this.plane, 1)
    return base - Math.log2(scaleNear(2 ** (base - zoom)).value)
  }

  /** @param {URLSearchParams} words */
  read(words) {
    const { lat, lng } = this.map.getCenter()
    const place = [numberOf(words, 'lat', lat), numberOf(words, 'lng', lng)]
    this.map.setView(place, numberOf(words, 'z', this.map.getZoom()), { animate: false })
  }

  /** @param {number} u
   * @param {number} v
   * @param {number} scale */
  centre(u, v, scale) {
    const place = this.map.unproject([128 + 256 * u / this.plane.turn, 128 + 256 * v / this.plane.turn], 0)
    this.map.setView(place, this.limited(this.exact(zoomOf(this.plane, scale))), { animate: false })
  }

  /** @param {number} zoom */
  limited(zoom) { return Math.min(Math.max(zoom, this.map.getMinZoom()), this.map.getMaxZoom()) }

  /** @param {number} dx
   * @param {number} dy */
  move(dx, dy) { this.map.panBy([-dx, -dy], { animate: false }) }

  /** @param {number} factor
   * @param {number} px
   * @param {number} py */
  zoomAbout(factor, px, py) {
    this.map.setZoomAround(this.L.point(px, py), this.limited(this.exact(this.map.getZoom() + Math.log2(factor))), { animate: false })
  }

  /** A picture of a smooth zoom. It is told to Leaflet's layers as those of a pinch are, by the same means, so that tiles
   * are not loaded for each picture.
   * @param {number} factor
   * @param {number} px
   * @param {number} py
   * @param {boolean} isLast */
  glideAbout(factor, px, py, isLast) {
    const { map, L } = this, wanted = this.limited(map.getZoom() + Math.log2(factor))
    const zoom = isLast ? this.limited(this.exact(wanted)) : wanted
    const place = L.point(px, py), half = map.getSize().divideBy(2)
    if (!this.hasBegun || !this.held?.place.equals(place)) this.held = { place, at: map.containerPointToLatLng(place) }
    const centre = map.unproject(map.project(this.held.at, zoom).subtract(place).add(half), zoom)
    if (!this.hasBegun) map.fire('zoomstart').fire('movestart')
    this.hasBegun = true
    const isSame = zoom === map.getZoom()
    map._move(map._limitCenter(centre, zoom, map.options.maxBounds), zoom, isLast ? {} : { pinch: true, round: false })
    if (!isLast) return
    if (isSame) map.fire('zoom')
    this.hasBegun = false
    map.fire('zoomend').fire('moveend')
  }

  end() {
    this.glide.end()
    this.probe.remove()
  }
}
