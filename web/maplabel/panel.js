// @ts-check
// What stands about the map: a notice of what is wrong, a field that finds names, a card about one name, a bar with
// the scale and the attribution. All of it lies within the map's element.

/** @typedef {import('./types.js').State} State */
/** @typedef {{ id: string, name: string, value?: string | null }} Entry */

/** An element with its words and what is in it.
 * @template {keyof HTMLElementTagNameMap} T
 * @param {T} tag
 * @param {{ [word: string]: unknown }} words properties; those with a hyphen, and `role`, are attributes
 * @param {(Node | string)[]} inner
 * @returns {HTMLElementTagNameMap[T]} */
export function make(tag, words, ...inner) {
  const made = document.createElement(tag)
  for (const [name, value] of Object.entries(words))
    if (name.includes('-') || name === 'role') made.setAttribute(name, String(value))
    else Reflect.set(made, name, value)
  made.append(...inner)
  return made
}

/** @type {{ [state: string]: (seconds?: number) => string }} */
const STATES = {
  held: () => 'Another client holds the server: waiting.',
  gone: seconds => `The server does not answer${seconds ? `: asked again in ${seconds} s` : ''}.`,
  many: () => 'The proxy takes no more requests for now: waiting.',
  refused: () => 'The server refused a request: see the console.',
  broken: () => 'Some of the names could not be read: see the console.'
}
const PASSING = 5000

/** What is wrong, in a line at the map's foot; and what passes. */
export class Notice {
  constructor() {
    this.element = make('span', { className: 'ml-note', role: 'status' })
    this.lasting = ''
    this.passing = 0
  }

  /** @param {string} text
   * @param {boolean} isBad */
  put(text, isBad) {
    this.element.textContent = text
    this.element.className = 'ml-note' + (isBad ? ' ml-bad' : '')
  }

  /** @param {State} state
   * @param {State} before
   * @param {number} [seconds] */
  tell(state, before, seconds) {
    clearTimeout(this.passing)
    if (state !== 'good') this.put(STATES[state](seconds), true)
    else if (before === 'held' || before === 'gone') this.pass('The server is back.')
    else this.put(this.lasting, this.lasting !== '')
  }

  /** Says something for a while.
   * @param {string} text */
  pass(text) {
    clearTimeout(this.passing)
    this.put(text, false)
    this.passing = window.setTimeout(() => this.put(this.lasting, this.lasting !== ''), PASSING)
  }

  /** Says something as long as nothing else is to be said.
   * @param {string} text */
  stay(text) {
    if (this.lasting.includes(text)) return
    this.lasting = this.lasting ? `${this.lasting} ${text}` : text
    this.put(this.lasting, true)
  }

  end() { clearTimeout(this.passing) }
}

/** The field that finds names, with its list: a combination box by the rules of ARIA, so arrows go through what is found. */
export class Finder {
  /** @param {(letters: string) => Promise<Entry[]>} find
   * @param {(id: string) => void} choose
   * @param {boolean} hasIds */
  constructor(find, choose, hasIds) {
    this.find = find
    this.choose = choose
    this.hasIds = hasIds
    this.active = -1
    const id = `ml-found-${Finder.count++}`
    this.list = make('ul', { id, hidden: true, role: 'listbox', 'aria-label': 'Names found' })
    this.field = make('input', { type: 'search', placeholder: 'Find a name', autocomplete: 'off', role: 'combobox',
      'aria-label': 'Find a name', 'aria-controls': id, 'aria-expanded': 'false', 'aria-autocomplete': 'list' })
    this.element = make('form', { className: 'ml-find', role: 'search' }, this.field, this.list)
    this.element.addEventListener('submit', event => { event.preventDefault(); this.take(Math.max(this.active, 0)) })
    this.field.addEventListener('input', () => this.look())
    this.field.addEventListener('focus', () => this.look())
    this.field.addEventListener('blur', () => this.close())
    this.field.addEventListener('keydown', event => this.key(event))
    /** @type {Entry[]} */
    this.found = []
  }

  async look() {
    const letters = this.field.value
    const found = letters.trim() ? await this.find(letters).catch(() => null) : []
    if (letters !== this.field.value || document.activeElement !== this.field && found?.length === 0 && this.list.hidden) return
    this.found = found ?? []
    this.list.replaceChildren(...this.found.map((one, k) => this.item(one, k)))
    if (found !== null && letters.trim() && !found.length)
      this.list.append(make('li', { textContent: 'No name has these letters.' }))
    this.mark(-1)
    this.list.hidden = !letters.trim() || document.activeElement !== this.field
    this.field.setAttribute('aria-expanded', String(!this.list.hidden))
  }

  /** @param {Entry} one
   * @param {number} k */
  item({ id, name, value }, k) {
    const told = this.hasIds ? id : value ?? ''
    const item = make('li', { id: `${this.list.id}-${k}`, role: 'option', 'aria-selected': 'false' }, name,
      ...(told ? [make('small', { textContent: ' ' + told })] : []))
    item.addEventListener('pointerdown', event => event.preventDefault())
    item.addEventListener('click', () => this.take(k))
    return item
  }

  /** @param {KeyboardEvent} event */
  key(event) {
    const step = event.key === 'ArrowDown' ? 1 : event.key === 'ArrowUp' ? -1 : 0
    const { length } = this.found, from = this.active < 0 && step < 0 ? 0 : this.active
    if (step && length) this.mark((from + step + length) % length)
    else if (event.key === 'Escape') this.close()
    else return
    event.preventDefault()
  }

  /** @param {number} k */
  mark(k) {
    this.active = k
    const items = [...this.list.children]
    items.forEach((item, number) => item.setAttribute('aria-selected', String(number === k)))
    if (k >= 0) {
      this.field.setAttribute('aria-activedescendant', items[k].id)
      items[k].scrollIntoView({ block: 'nearest' })
    } else this.field.removeAttribute('aria-activedescendant')
  }

  /** @param {number} k */
  take(k) {
    const one = this.found[k]
    if (!one) return
    this.close()
    this.field.blur()
    this.choose(one.id)
  }

  close() {
    this.list.hidden = true
    this.field.setAttribute('aria-expanded', 'false')
  }
}
Finder.count = 0

/** What is known of one name. */
export class Card {
  constructor() {
    this.element = make('section', { className: 'ml-card', hidden: true, 'aria-label': 'About the name' })
  }

  /** @param {string} title
   * @param {(string | Node)[]} lines
   * @param {{ text: string, act: () => void } | false} [button] */
  show(title, lines, button = false) {
    const close = make('button', { type: 'button', className: 'ml-close', textContent: '\u00d7', title: 'Close',
      onclick: () => this.hide() })
    this.element.replaceChildren(close, make('h2', { textContent: title }),
      ...lines.map(line => typeof line === 'string' ? make('p', { textContent: line }) : line))
    if (button) this.element.append(make('button', { type: 'button', textContent: button.text, onclick: button.act }))
    this.element.hidden = false
  }

  hide() { this.element.hidden = true }
}

/** Whose data it is.
 * @param {string} attribution as HTML */
export const creditOf = attribution => make('span', { className: 'ml-credit', hidden: !attribution, innerHTML: attribution })

const ROUND = [1, 2, 5]

/** A bar as long as a round length of at most so many pixels.
 * @param {number} metres of a pixel
 * @param {number} most
 * @returns {[number, string]} */
export function roundLength(metres, most) {
  const power = 10 ** Math.floor(Math.log10(metres * most))
  const length = power * (ROUND.filter(by => by * power <= metres * most).pop() ?? 1)
  return [length / metres, length >= 1000 ? `${(length / 1000).toLocaleString('en')} km` : `${+length.toPrecision(3)} m`]
}

/** The scale, as a bar for the middle of the map. */
export class ScaleBar {
  constructor() {
    this.line = make('span', { className: 'ml-length' })
    this.text = make('span', {})
    this.element = make('span', { className: 'ml-scale' }, this.line, this.text)
    this.before = 0
  }

  /** @param {number} metres of a pixel */
  show(metres) {
    if (Math.abs(metres / this.before - 1) < 0.002) return
    this.before = metres
    const [pixels, text] = roundLength(metres, 90)
    this.line.style.width = `${Math.round(pixels)}px`
    this.text.textContent = text
  }
}

/** act: find(letters), choose(id), again(), and zoom(factor) where the map has no buttons of its own.
 * @typedef {{ find: (letters: string) => Promise<Entry[]>, choose: (id: string) => void, again: () => void,
 *   zoom: ((factor: number) => void) | null }} Act */

export class Panel {
  /** @param {Act} act
   * @param {{ isExplained: boolean, hasAgain: boolean, attribution: string, notice: Notice }} options */
  constructor(act, { isExplained, hasAgain, attribution, notice }) {
    this.finder = new Finder(act.find, act.choose, isExplained)
    this.field = this.finder.field
    this.list = this.finder.list
    this.about = new Card()
    this.card = this.about.element
    this.scale = new ScaleBar()
    this.where = make('span', { className: 'ml-where', hidden: !isExplained })
    this.note = notice.element
    this.again = make('button', { type: 'button', textContent: 'Ask again', hidden: !hasAgain,
      title: 'The map was edited: ask for its names again', onclick: act.again })
    this.bar = make('footer', { className: 'ml-bar' }, this.scale.element, this.where, this.note, this.again, creditOf(attribution))
    this.parts = [this.finder.element, this.card, this.bar]
    const { zoom } = act
    if (zoom)
      this.parts.push(make('div', { className: 'ml-zoom' },
        make('button', { type: 'button', textContent: '+', title: 'Nearer', onclick: () => zoom(2) }),
        make('button', { type: 'button', textContent: '\u2212', title: 'Further out', onclick: () => zoom(1 / 2) })))
  }
}
