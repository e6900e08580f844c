// @ts-check
// Requests. The engine serves one connection after another, so a page has one request under way, the next one
// when its reply has come. Of views that are wanted only the newest is remembered.
//
// What becomes of the server is told by `tell(state)`: 'good'; 'held', where no reply has come within two
// seconds, since another client holds the server; 'gone', where there is no server; 'many', where a proxy takes no
// more requests for now; 'refused', where a request is wrong. A view that did not come is asked for anew with
// growing pauses.

/** @typedef {import('./types.js').State} State */
/** @typedef {import('./types.js').Tell} Tell */
/** @typedef {import('./types.js').Window} Window */
/** @typedef {(views: { labels: import('./types.js').Label[] }[]) => void} Come */

const LATE = 2000, SHORTEST = 500, LONGEST = 30000, POLL = 3000
const AWAY = [500, 502, 503]                             // a proxy that has no server, or one without memory
const sleep = (/** @type {number} */ time) => new Promise(done => setTimeout(done, time))

export class Fault extends Error {
  /** @param {State} state
   * @param {string} text */
  constructor(state, text) {
    super(text)
    this.state = state
  }
}

/** The state of a source that a fault of any kind means.
 * @param {unknown} fault
 * @returns {State} */
export const stateOf = fault => fault instanceof Fault ? fault.state : 'refused'

/** A server. */
export class Server {
  /** @param {string} base what addresses begin with
   * @param {Tell} tell
   * @param {(rev: number) => void} edited */
  constructor(base, tell, edited) {
    this.base = base
    this.tell = tell
    this.edited = edited
    this.isLive = true
    this.asking = false
    this.count = 0
    /** @type {number | null} */
    this.rev = null
    /** @type {State} */
    this.state = 'good'
    /** @type {Promise<unknown>} */
    this.turn = Promise.resolve()
    /** @type {{ windows: Window[], come: Come } | null} */
    this.wish = null
    this.hasEnded = false
    this.breaker = new AbortController()
  }

  /** Nothing is asked or told any more. */
  end() {
    this.hasEnded = true
    this.wish = null
    this.breaker.abort()
  }

  /** The text of a reply. Requests wait for one another.
   * @param {string} path
   * @returns {Promise<string>} */
  async text(path) {
    const before = this.turn
    let over = () => {}
    this.turn = new Promise(done => { over = () => done(undefined) })
    await before
    try { return await this.now(path) } finally { over() }
  }

  /** @param {string} path
   * @returns {Promise<any>} */
  async json(path) { return JSON.parse(await this.text(path)) }

  /** @param {string} path */
  async now(path) {
    const late = setTimeout(() => this.become('held'), LATE)
    try {
      this.count++
      const text = await this.reply(path)
      this.become('good')
      return text
    } catch (fault) {
      this.become(stateOf(fault))
      throw fault
    } finally { clearTimeout(late) }
  }

  /** @param {string} path */
  async reply(path) {
    const reply = await fetch(this.base + path, { cache: 'no-store', signal: this.breaker.signal })
      .catch(() => { throw new Fault('gone', 'no answer') })
    if (AWAY.includes(reply.status)) throw new Fault('gone', `status ${reply.status}`)
    if (reply.status === 504) throw new Fault('held', 'status 504')
    if (reply.status === 429) throw new Fault('many', 'status 429')
    const text = await reply.text().catch(() => { throw new Fault('gone', 'the reply was cut off') })
    if (!reply.ok && reply.status !== 404) throw new Fault('refused', `status ${reply.status}: ${text.slice(0, 200)}`)
    return text
  }

  /** @param {State} state
   * @param {number} [seconds] */
  become(state, seconds) {
    const before = this.state
    this.state = state
    if (!this.hasEnded && (before !== state || seconds !== undefined)) this.tell(state, before, seconds)
  }

  /** Wants the views of these windows; `come(views)` is called with them, unless others were wanted meanwhile.
   * @param {Window[]} windows
   * @param {Come} come */
  want(windows, come) {
    this.wish = { windows, come }
    if (!this.asking) this.ask()
  }

  async ask() {
    this.asking = true
    let pause = SHORTEST
    while (this.wish && !this.hasEnded) {
      const wish = this.wish
      this.wish = null
      try {
        const views = await this.viewsOf(wish.windows)
        if (!this.hasEnded) wish.come(views)
        pause = SHORTEST
      } catch (fault) {
        if (this.hasEnded) break
        if (stateOf(fault) === 'refused') { console.error(fault); continue }
        this.wish ??= wish
        this.become(stateOf(fault), pause / 1000)
        await sleep(pause)
        pause = Math.min(2 * pause, LONGEST)
      }
    }
    this.asking = false
  }

  /** @param {Window[]} windows */
  async viewsOf(windows) {
    const views = [], rev = this.rev === null ? '' : `&v=${this.rev}`
    for (const { cx, cy, w, h, s } of windows)
      views.push(await this.json(`/view?cx=${cx}&cy=${cy}&w=${w}&h=${h}&s=${s}${rev}`))
    return views
  }

  /** Looks at the revision again and again, while the page is seen. */
  async watch() {
    let pause = POLL
    while (!this.hasEnded) {
      if (!document.hidden && !this.asking)
        try {
          await this.look()
          pause = POLL
        } catch { pause = Math.min(2 * pause, LONGEST) }
      await sleep(pause)
    }
  }

  /** Looks at the revision once: how many features and labels there are. */
  async look() {
    const told = await this.json('/rev')
    const before = this.rev
    this.rev = told.rev
    if (before !== null && before !== told.rev && !this.hasEnded) this.edited(told.rev)
    return /** @type {{ rev: number, features: number, labels: number }} */(told)
  }
}

/** Where the server is: where the page came from, or what the address says; none for a file that says nothing.
 * @param {URLSearchParams} words
 * @returns {string | null} */
export function baseOf(words) {
  const isFile = location.protocol === 'file:'
  if (!words.has('host') && !words.has('port')) return isFile ? null : ''
  const host = words.get('host') ?? (isFile ? 'localhost' : location.hostname)
  return `${isFile ? 'http:' : location.protocol}//${host}${words.has('port') ? ':' + words.get('port') : ''}`
}
