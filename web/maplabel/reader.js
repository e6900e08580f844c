// @ts-check
// The names on the screen as a list that is not seen: for readers that hear a page. It is made anew when the map rests.
import { make } from './panel.js'

const REST = 300, MOST = 300

export class ReaderList {
  constructor() {
    this.element = make('ul', { className: 'ml-heard', 'aria-label': 'Names on the map' })
    this.waiting = 0
    this.before = ''
  }

  /** The map moved: once it rests, these names are told.
   * @param {() => string[]} names */
  later(names) {
    clearTimeout(this.waiting)
    this.waiting = window.setTimeout(() => this.tell([...new Set(names())].slice(0, MOST)), REST)
  }

  /** @param {string[]} names */
  tell(names) {
    const now = names.join('\n')
    if (now === this.before) return
    this.before = now
    this.element.replaceChildren(...names.map(name => make('li', { textContent: name })))
  }

  end() { clearTimeout(this.waiting) }
}
