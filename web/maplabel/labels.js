// @ts-check
// What `/state` and `/map` say of all labels: where each begins and ends, what it is called, and which may be
// drawn where y is stretched.

/** @typedef {import('./types.js').Span} Span */
/** @typedef {import('./types.js').Box} Box */

/** The labels of a state text by their ids, in priority order.
 * @param {string} text
 * @returns {Map<string, Span>} */
export function readState(text) {
  const lines = text.split('\n'), count = Number(lines[0].split(' ')[2])
  const plain = (/** @type {string} */ id) => id === '%' ? '' : decodeURIComponent(id)
  const all = lines.slice(1, 1 + count).map(line => {
    const [id, x, y, min, max, margin, until, blocker, ...boxes] = line.split(' ')
    return { id: plain(id), x: Number(x), y: Number(y), min, max, margin: Number(margin), until, blocker,
      boxes: boxes.map(box => /** @type {Box} */(box.split(',').map(Number))) }
  })
  return new Map(all.map(label =>
    [label.id, { ...label, blocker: label.blocker === '-' ? null : all[Number(label.blocker)].id }]))
}

/** Names that do not overlap in the engine's plane stay apart where y is stretched, if there is one height over
 * their anchors that every box of theirs reaches, with its margin. This is the height that most labels reach
 * with all of their boxes, the lowest of several.
 * @param {Iterable<Span>} labels */
export function levelOf(labels) {
  /** @type {Map<number, number>} */
  const ends = new Map()
  const step = (/** @type {number} */ height, /** @type {number} */ by) => ends.set(height, (ends.get(height) ?? 0) + by)
  for (const { boxes, margin } of labels) {
    const from = Math.max(...boxes.map(box => box[1])) - margin, to = Math.min(...boxes.map(box => box[3])) + margin
    if (from <= to) { step(from, 1); step(to + 1, -1) }
  }
  let count = 0, most = 0, level = 0
  for (const height of [...ends.keys()].sort((a, b) => a - b)) {
    count += ends.get(height) ?? 0
    if (count > most) { most = count; level = height }
  }
  return level
}

/** @param {Span} label
 * @param {number} level */
export const reaches = ({ boxes, margin }, level) => boxes.every(box => box[1] - margin <= level && level <= box[3] + margin)

/** The ids of the labels that may not be drawn where y is stretched.
 * @param {Map<string, Span>} state
 * @returns {Set<string>} */
export function leftOut(state) {
  const level = levelOf(state.values())
  return new Set([...state.values()].filter(label => !reaches(label, level)).map(label => label.id))
}

/** Letters without case and accents, as readers type them: what no decomposition takes apart is in the table.
 * @param {string} text */
export const folded = text => text.normalize('NFD').replace(/\p{M}/gu, '').toLowerCase()
  .replace(/[ßæœøđðłþıŋ]/gu, letter => PLAIN[letter])

/** @type {{ [letter: string]: string }} */
const PLAIN = { ß: 'ss', æ: 'ae', œ: 'oe', ø: 'o', đ: 'd', ð: 'd', ł: 'l', þ: 'th', ı: 'i', ŋ: 'n' }

/** What is found by letters: names that begin so, then names with a word that does, then others, each in order.
 * @template {{ name: string }} T
 * @param {string} letters
 * @param {Iterable<T>} names
 * @param {number} most
 * @returns {T[]} */
export function matches(letters, names, most) {
  const wanted = folded(letters.trim())
  /** @type {T[][]} */
  const found = [[], [], []]
  if (!wanted) return []
  for (const one of names) {
    const name = folded(one.name), place = name.indexOf(wanted)
    if (place < 0) continue
    found[place === 0 ? 0 : ' -'.includes(name[place - 1]) ? 1 : 2].push(one)
    if (found[0].length >= most) break
  }
  return found.flat().slice(0, most)
}
