// @ts-check
// What a reader does to a map: drag, pinch, wheel, double click, keys. `act` hears of it in pixels of the element:
//   move(dx, dy)            the map follows a pointer
//   zoom(factor, px, py)    it grows by a factor about a pixel, at once
//   glide(steps, px, py)    it grows by so many doublings, smoothly
//   click(px, py)

/** @typedef {{ move: (dx: number, dy: number) => void, zoom: (factor: number, px: number, py: number) => void,
 *   glide: (steps: number, px: number, py: number) => void, click: (px: number, py: number) => void }} Act */

const NOTCH = 240, PINCH = 60                            // pixels of the wheel for twice the scale
const MOST = 300                                         // of one event of the wheel
const STILL = 4                                          // pixels that a click may move
const STEP = 80, LONG_STEP = 300                         // pixels of an arrow key

/** By how many doublings the map grows for an event of the wheel: by its amount, so that many small ones are one large one.
 * @param {WheelEvent} event */
export function wheelSteps(event) {
  const unit = event.deltaMode === 1 ? 20 : event.deltaMode === 2 ? 400 : 1
  return -Math.min(Math.max(event.deltaY * unit, -MOST), MOST) / (event.ctrlKey ? PINCH : NOTCH)
}

/** A place of an event, in pixels of an element.
 * @param {HTMLElement} element
 * @param {{ clientX: number, clientY: number }} event
 * @returns {[number, number]} */
function placeIn(element, event) {
  const box = element.getBoundingClientRect()
  return [event.clientX - box.left - element.clientLeft, event.clientY - box.top - element.clientTop]
}

/** The middle of the first two pointers, and how far they are apart.
 * @param {HTMLElement} element
 * @param {Map<number, PointerEvent>} pointers */
function middleOf(element, pointers) {
  const all = [...pointers.values()].slice(0, 2).map(event => placeIn(element, event))
  const [a, b = a] = all
  return { x: (a[0] + b[0]) / 2, y: (a[1] + b[1]) / 2, apart: Math.hypot(a[0] - b[0], a[1] - b[1]) }
}

/** @param {HTMLElement} element
 * @param {Act} act
 * @param {AbortSignal} signal */
function listenPointers(element, act, signal) {
  /** @type {Map<number, PointerEvent>} */
  const pointers = new Map()
  let from = { x: 0, y: 0, apart: 0 }, travelled = 0, were = 0
  element.addEventListener('pointerdown', event => {
    if (event.button > 0) return
    element.setPointerCapture(event.pointerId)
    if (pointers.size === 0) { travelled = 0; were = 0 }
    pointers.set(event.pointerId, event)
    were = Math.max(were, pointers.size)
    from = middleOf(element, pointers)
    element.classList.add('held')
  }, { signal })
  element.addEventListener('pointermove', event => {
    if (!pointers.has(event.pointerId)) return
    pointers.set(event.pointerId, event)
    const to = middleOf(element, pointers)
    travelled += Math.hypot(to.x - from.x, to.y - from.y)
    if (travelled > STILL || were > 1) act.move(to.x - from.x, to.y - from.y)
    if (from.apart > 0 && to.apart > 0 && from.apart !== to.apart) act.zoom(to.apart / from.apart, to.x, to.y)
    if (travelled > STILL || were > 1) from = to
  }, { signal })
  const end = (/** @type {PointerEvent} */ event) => {
    if (!pointers.delete(event.pointerId)) return
    if (pointers.size) { from = middleOf(element, pointers); return }
    element.classList.remove('held')
    if (event.type === 'pointerup' && were === 1 && travelled <= STILL) act.click(from.x, from.y)
  }
  element.addEventListener('pointerup', end, { signal })
  element.addEventListener('pointercancel', end, { signal })
}

/** @type {{ [key: string]: [number, number] }} */
const ARROWS = { ArrowLeft: [1, 0], ArrowRight: [-1, 0], ArrowUp: [0, 1], ArrowDown: [0, -1] }

/** Keys of an element that has the focus.
 * @param {HTMLElement} element
 * @param {Act} act
 * @param {AbortSignal} signal */
export function listenKeys(element, act, signal) {
  element.addEventListener('keydown', event => {
    if (event.ctrlKey || event.metaKey || event.altKey) return
    const arrow = ARROWS[event.key], step = event.shiftKey ? LONG_STEP : STEP
    if (arrow) act.move(arrow[0] * step, arrow[1] * step)
    else if (event.key === '+' || event.key === '=') act.zoom(2, element.clientWidth / 2, element.clientHeight / 2)
    else if (event.key === '-' || event.key === '_') act.zoom(1 / 2, element.clientWidth / 2, element.clientHeight / 2)
    else return
    event.preventDefault()
  }, { signal })
}

/** The wheel over an element; with `isShy` only with Ctrl or while the element has the focus, so that an article scrolls.
 * @param {HTMLElement} element
 * @param {Act} act
 * @param {AbortSignal} signal
 * @param {boolean} [isShy] */
export function listenWheel(element, act, signal, isShy = false) {
  element.addEventListener('wheel', event => {
    if (isShy && !event.ctrlKey && !element.contains(document.activeElement)) return
    event.preventDefault()
    act.glide(wheelSteps(event), ...placeIn(element, event))
  }, { passive: false, signal })
}

/** A click, and a click with the finger, gives an element the focus, and so its keys.
 * @param {HTMLElement} element
 * @param {AbortSignal} signal */
export function focusByTouch(element, signal) {
  if (!element.hasAttribute('tabindex')) {
    element.tabIndex = 0
    signal.addEventListener('abort', () => element.removeAttribute('tabindex'))
  }
  element.addEventListener('pointerdown', () => element.focus({ preventScroll: true }), { signal })
}

/** All of it.
 * @param {HTMLElement} element
 * @param {Act} act
 * @param {AbortSignal} signal
 * @param {boolean} [isShy] */
export function listen(element, act, signal, isShy = false) {
  focusByTouch(element, signal)
  listenPointers(element, act, signal)
  listenWheel(element, act, signal, isShy)
  listenKeys(element, act, signal)
  element.addEventListener('dblclick', event =>
    act.zoom(event.shiftKey ? 1 / 2 : 2, ...placeIn(element, event)), { signal })
}
