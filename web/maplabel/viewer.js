// @ts-check
// One map of names over one ground: what is drawn, asked, told and found. The ground tells where its plane stands;
// a page, the Leaflet layer and the canvas without Leaflet are all thin users of this.
import { baseOf, Server } from './request.js'
import { ServerFacts, NoFacts, withoutRepeats } from './facts.js'
import { ExportSource } from './exported.js'
import { TileSource } from './tiles.js'
import { Names } from './names.js'
import { clear, drawRing, forgetWidths, nameAt } from './draw.js'
import { forgetLays } from './along.js'
import { drawShapes, shapesOf } from './outlines.js'
import { DARK, LIGHT, lookOf, mixed, strokeOf } from './look.js'
import { familyOf, lackingFonts } from './fonts.js'
import { middleOf, zoomOf } from './plane.js'
import { matches } from './labels.js'
import { explain, scaleFor } from './explain.js'
import { creditOf, make, Notice, Panel } from './panel.js'
import { ReaderList } from './reader.js'

/** @typedef {import('./types.js').Label} Label */
/** @typedef {import('./types.js').Look} Look */
/** @typedef {import('./types.js').Frame} Frame */
/** @typedef {import('./look.js').Colours} Colours */
/** @typedef {import('./look.js').Stroke} Stroke */
/** @typedef {import('./outlines.js').Shape} Shape */
/** @typedef {ServerFacts | NoFacts | import('./exported.js').ExportFacts} Facts */

/** What an author may choose. `look`, `outline` and `card` are given what is known of a feature: its id, text, class,
 * value, kind and properties.
 * @typedef {object} Options
 * @property {'projected' | 'degrees'} [way] the plane that the map was labelled in
 * @property {string} [title]
 * @property {string} [attribution] as HTML
 * @property {string} [property] the property with a feature's name, where the style does not tell it
 * @property {string[]} [properties] those that are kept, all if not told
 * @property {string | import('./types.js').Style | null} [style] the file that tells the style, or what stands in it
 * @property {string} [font] families of a font for all names
 * @property {(label: Label, usual: Look) => Look} [look]
 * @property {boolean} [outlines] whether lines, areas and points are drawn, true if not told
 * @property {(shape: Shape, usual: Stroke) => Stroke} [outline]
 * @property {'sea' | 'land' | 'none'} [background]
 * @property {{ light?: Partial<Colours>, dark?: Partial<Colours> }} [colours]
 * @property {'light' | 'dark' | 'auto'} [scheme]
 * @property {boolean} [panel] whether there are a field, a card and a bar
 * @property {boolean} [buttons] whether the panel has buttons for the zoom
 * @property {boolean} [explain] whether a click tells the engine's reasons
 * @property {boolean} [poll] whether a server is asked for its revision
 * @property {(label: Label) => (string | Node)[]} [card] what a click tells beside the name
 * @property {(label: Label) => void} [chosen] hears of a click on a name */

/** @param {string} name */
const canvasOf = name => make('canvas', { className: name, 'aria-hidden': 'true' })

/** The source that an address or a value means.
 * @param {string | object} told
 * @param {import('./types.js').Tell} tell
 * @param {(rev: number) => void} edited */
function sourceOf(told, tell, edited) {
  if (told instanceof ExportSource) return Object.assign(told, { tell })
  if (typeof told !== 'string') return new ExportSource(told, tell)
  if (told.includes('{z}')) return new TileSource(told, tell)
  return /\.(geo)?json($|[?#])/.test(told) ? new ExportSource(told, tell) : new Server(told.replace(/\/$/, ''), tell, edited)
}

export class Viewer {
  /** @param {HTMLElement} element
   * @param {import('./types.js').Plane} plane
   * @param {import('./types.js').Ground} map
   * @param {string | object} source
   * @param {Options} [options] */
  constructor(element, plane, map, source, options = {}) {
    this.element = element
    this.plane = plane
    this.map = map
    this.options = options
    this.breaker = new AbortController()
    this.hasStarted = false
    /** @type {Shape[] | null} */
    this.shapes = null
    /** @type {[number, number] | null} */
    this.chosen = null
    /** @type {() => void} */
    this.settled = () => {}
    this.notice = new Notice()
    this.list = new ReaderList()
    const found = sourceOf(source, (...state) => this.tell(...state), rev => this.edited(rev))
    this.source = found
    /** @type {Facts} */
    this.facts = found instanceof Server ? new ServerFacts(found, plane, options, () => this.learned())
      : found instanceof ExportSource ? found.facts : new NoFacts()
    this.colours = LIGHT
    this.followScheme()
    this.ground = canvasOf('ml-land')
    this.canvas = canvasOf('ml-names')
    this.hasOutlines = options.outlines ?? true
    this.panel = options.panel ?? true ? this.panelOf() : null
    this.root = this.place()
    this.names = new Names(this.canvas, plane, found, this.facts, label => this.lookOf(label), () => this.draw())
  }

  /** Puts what is drawn and what stands about it into the element.
   */
  place() {
    const { title = 'Map of names', attribution = '' } = this.options
    const parts = this.panel?.parts ?? [make('footer', { className: 'ml-bar ml-quiet' }, this.notice.element, creditOf(attribution))]
    const root = make('div', { className: 'ml-panel' }, ...parts, this.list.element)
    for (const kind of ['pointerdown', 'mousedown', 'touchstart', 'click', 'dblclick', 'contextmenu', 'wheel', 'keydown'])
      root.addEventListener(kind, event => event.stopPropagation(), { passive: true })
    this.was = { role: this.element.getAttribute('role'), label: this.element.getAttribute('aria-label') }
    this.element.setAttribute('role', 'region')
    this.element.setAttribute('aria-label', title)
    this.element.classList.add('ml-map')
    this.element.append(this.ground, this.canvas, root)
    const { signal } = this.breaker, observer = new ResizeObserver(() => this.see())
    observer.observe(this.element)
    signal.addEventListener('abort', () => observer.disconnect())
    document.fonts?.addEventListener('loadingdone', () => this.fontCame(), { signal })
    return root
  }

  panelOf() {
    const { attribution = '', poll = true, buttons = false } = this.options
    return new Panel({
      find: letters => this.find(letters), choose: id => this.goTo(id, this.isExplained), again: () => this.renew(),
      zoom: buttons ? factor => this.map.zoomAbout(factor, this.map.size()[0] / 2, this.map.size()[1] / 2) : null
    }, { isExplained: this.isExplained, hasAgain: this.source.isLive && !poll, attribution, notice: this.notice })
  }

  get isExplained() { return this.options.explain ?? false }

  /** Light or dark, as the author or the system wants it.
   */
  followScheme() {
    const { scheme = 'auto' } = this.options, query = matchMedia('(prefers-color-scheme: dark)')
    const choose = () => {
      const isDark = scheme === 'auto' ? query.matches : scheme === 'dark'
      this.colours = mixed(isDark ? DARK : LIGHT, this.options.colours?.[isDark ? 'dark' : 'light'])
      this.element.classList.toggle('ml-dark', isDark)
    }
    choose()
    if (scheme === 'auto') query.addEventListener('change', () => { choose(); this.draw() }, { signal: this.breaker.signal })
  }

  /** Begins to ask and to draw.
   */
  async start() {
    this.draw()
    if (this.source instanceof Server) await this.meet(this.source)
    else if (this.source instanceof ExportSource) {
      await this.source.load()
      if (this.source.reason) this.notice.stay(this.source.reason)
    }
    if (this.breaker.signal.aborted) return
    this.hasStarted = true
    this.see()
    if (this.hasOutlines) this.outline()
    if (!(this.source instanceof Server)) this.checkNames()
  }

  /** @param {Server} server */
  async meet(server) {
    const told = await server.look().catch(() => this.blocked())
    if (told?.labels === 0) this.notice.stay('This map has no names: its style gives no feature one.')
    if (this.options.poll ?? true) server.watch()
  }

  blocked() {
    if (location.protocol === 'file:')
      this.panel?.about.show('Nothing to read', ['The server does not answer, or lets no page of another origin read its ' +
        'names. Start web/serve and open the page from there.'])
    return null
  }

  /** Learns the outlines, and draws them once they are there.
   */
  async outline() {
    const asked = this.facts.learnMap(), features = await asked.catch(() => null)
    if (features === null || this.breaker.signal.aborted) return
    this.shapes = shapesOf(features, this.plane, id => this.facts.of(id))
    this.facts.drop()
    this.draw()
  }

  /** More is known of the map than before.
   */
  learned() {
    if (this.breaker.signal.aborted) return
    this.names.refresh()
    this.checkNames()
    this.draw()
  }

  /** Says what an author should know: a map without names, a font that is not there.
   */
  checkNames() {
    if (this.facts.count === 0) this.notice.stay('This map has no names: its style gives no feature one.')
    const pen = this.canvas.getContext('2d')
    for (const sentence of pen && this.facts.style ? lackingFonts(pen, this.facts.style, this.options.font) : []) {
      if (!this.notice.lasting.includes(sentence)) console.warn('maplabel: ' + sentence)
      this.notice.stay(sentence)
    }
  }

  fontCame() {
    forgetWidths()
    forgetLays()
    this.draw()
  }

  /** What lies beneath the outlines. Where the author tells nothing, it is land once it is known that no area is there.
   */
  get background() {
    const hasAreas = this.shapes === null || this.shapes[0]?.kind === 'area'
    return this.options.background ?? (hasAreas ? 'sea' : 'land')
  }

  /** How a name looks: as its class does, or as the author tells.
   * @param {Label} label
   * @returns {Look} */
  lookOf(label) {
    const usual = lookOf(label, this.colours), { style } = this.facts
    const name = label.class === undefined ? Object.keys(style?.fonts ?? {})[0] : style?.classes[label.class]?.font
    usual.font = this.options.font ?? familyOf(name ?? 'serif', name === undefined ? undefined : style?.fonts[name])
    return this.options.look ? { ...usual, ...this.options.look(label, usual) } : usual
  }

  /** @param {Shape} shape
   * @returns {Stroke} */
  strokeOf(shape) {
    const usual = strokeOf(shape, this.colours)
    return this.options.outline ? { ...usual, ...this.options.outline(shape, usual) } : usual
  }

  /** The plane of the page moved: draws it, and asks for what is now to be seen.
   * @param {Frame} [frame] where it goes, if it is on its way */
  see(frame = this.map.frame()) {
    this.draw()
    if (this.hasStarted) this.names.see(frame, ...this.map.size())
    this.settled()
  }

  draw(frame = this.map.frame()) {
    if (!this.names || this.breaker.signal.aborted) return
    const [width, height] = this.map.size(), { colours } = this
    if (!(width > 0 && height > 0)) return
    const { background } = this
    this.ground.style.background = !this.hasOutlines || background === 'none' ? 'none' : colours[background]
    if (this.hasOutlines) {
      const pen = clear(this.ground, width, height)
      drawShapes(pen, this.shapes ?? [], frame, this.plane, width, height, shape => this.strokeOf(shape))
    }
    this.names.draw(frame, width, height)
    const pen = this.canvas.getContext('2d')
    if (this.chosen && pen) drawRing(pen, this.chosen, frame, this.plane, width, colours.ring)
    this.list.later(() => this.names.placed.map(one => one.label.text.trim()))
    if (this.panel) this.drawBar(this.panel, frame, width, height)
  }

  /** @param {Panel} panel
   * @param {Frame} frame
   * @param {number} width
   * @param {number} height */
  drawBar(panel, frame, width, height) {
    const { east, north, metres } = middleOf(this.plane, frame, width, height)
    panel.scale.show(metres)
    if (!this.isExplained) return
    const zoom = zoomOf(this.plane, this.plane.units / frame.k).toFixed(2), count = this.facts.hidden?.size ?? 0
    panel.where.textContent = `${east.toFixed(3)}\u00b0 E, ${north.toFixed(3)}\u00b0 N, zoom ${zoom}` +
      (count ? `; ${count} names along lines or beside their places are left out, since y is stretched` : '')
  }

  /** @param {import('./types.js').State} state
   * @param {import('./types.js').State} before
   * @param {number} [seconds] */
  tell(state, before, seconds) {
    if (state === 'broken' && this.source instanceof ExportSource) this.notice.stay(this.source.reason)
    else this.notice.tell(state, before, seconds)
    if (state === 'good' && before === 'gone') this.renew()
  }

  /** The server may have another map, or another revision of it.
   */
  renew() {
    this.forget()
    if (this.source instanceof Server) this.source.look().catch(() => {}).then(() => this.see())
  }

  /** @param {number} rev */
  edited(rev) {
    this.forget()
    this.see()
    this.notice.pass(`The map was edited: revision ${rev}.`)
    if (this.panel && !this.panel.list.hidden) this.panel.finder.look()
  }

  /** What was known may be old: it is learnt anew, and what is drawn stays until then.
   */
  forget() {
    this.facts.forget()
    this.names.forget()
    if (this.hasOutlines) this.outline()
    else this.facts.learnMap().catch(() => {})
  }

  scale() { return this.names.scaleOf(this.map.frame()).value }

  /** @param {string} letters */
  async find(letters) { return matches(letters, withoutRepeats(await this.facts.entries()), 12) }

  /** Shows the place of a name; at a scale that shows the name, but where the page explains, at this one.
   * @param {string} id
   * @param {boolean} [stays] at this scale
   * @param {number | null} [scale] */
  async goTo(id, stays = false, scale = null) {
    const span = await this.facts.span(id)
    if (!span || this.breaker.signal.aborted) return
    this.chosen = this.plane.flatOf(span.x, span.y)
    const near = scale ?? scaleFor(span, this.scale())
    this.map.centre(...this.chosen, stays ? this.scale() : near ?? this.scale())
    await this.ask(id)
  }

  /** Shows what is known of a name: what the author chose, or with `explain` what the server says.
   * @param {string} id
   * @param {Label} [label] */
  async ask(id, label) {
    const entries = label && !this.isExplained ? [] : await this.facts.entries().catch(() => [])
    const nameOf = (/** @type {string} */ other) => entries.find(one => one.id === other)?.name ?? other
    const span = label ? undefined : await this.facts.span(id).catch(() => undefined)
    const told = label ?? { id, at: [0, 0], boxes: [], until: '0', ...this.facts.of(id), ...span, text: nameOf(id) }
    if (this.isExplained && this.source instanceof Server) return this.askServer(id, told.text, nameOf, this.source)
    this.options.chosen?.(told)
    const lines = this.options.card?.(told) ?? []
    const never = span && scaleFor(span, 1) === null ? ['There is no room for this name at any zoom.'] : []
    this.panel?.about.show(told.text, [...lines, ...never])
  }

  /** @param {string} id
   * @param {string} text
   * @param {(id: string) => string} nameOf
   * @param {Server} server */
  async askServer(id, text, nameOf, server) {
    const why = await server.json('/why?id=' + encodeURIComponent(id)).catch(() => null)
    if (why === null) return
    const scale = this.scale(), near = scaleFor(why, scale)
    const lines = explain(why, scale, this.plane, nameOf, this.facts.isHidden(id))
    const isFar = near !== null && near !== scale
    this.panel?.about.show(text, [`id ${id}`, ...lines],
      isFar && { text: 'Go to a scale that shows it', act: () => this.goTo(id, false, near) })
  }

  /** @param {number} x
   * @param {number} y */
  click(x, y) {
    const found = nameAt(this.names.placed, x, y, label => this.lookOf(label))
    this.chosen = null
    if (found) this.ask(found.label.id, found.label)
    else this.panel?.about.hide()
    this.draw()
  }

  /** Nothing is left of the viewer.
   */
  end() {
    this.breaker.abort()
    this.source.end()
    this.notice.end()
    this.list.end()
    this.map.end()
    for (const part of [this.ground, this.canvas, this.root]) part.remove()
    this.element.classList.remove('ml-map', 'ml-dark')
    for (const [name, before] of /** @type {const} */([['role', this.was?.role], ['aria-label', this.was?.label]]))
      if (before === null || before === undefined) this.element.removeAttribute(name)
      else this.element.setAttribute(name, before)
  }
}

/** The server that the words of an address mean; a fault for a file that says nothing.
 * @param {URLSearchParams} words */
export function serverOf(words) {
  const base = baseOf(words)
  if (base === null)
    throw new Error('This page was opened from a file. Say where the server is in the address, as #port=8080, ' +
      'or start web/serve and open the page from there.')
  return base
}
