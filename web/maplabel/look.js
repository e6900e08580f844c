// @ts-check
// How names and outlines look, by class and by property. An author gives colours of their own in the form of LIGHT
// and DARK, or whole functions (`look`, `outline`).

/** @typedef {import('./types.js').Label} Label */
/** @typedef {import('./types.js').Look} Look */
/** @typedef {{ fill?: string, line?: string, width?: number, radius?: number }} Stroke */

/** `names` and `shapes` have entries by kind ('point', 'line', 'area'), and by what distinguishes a class: the text of
 * the property that it asks for, as 'city' or 'river'. The entry of the class counts before that of the kind.
 * @typedef {object} Colours
 * @property {string} sea
 * @property {string} land
 * @property {string} halo
 * @property {string} ring
 * @property {{ [key: string]: { colour: string, dot?: string } }} names
 * @property {{ [key: string]: Stroke }} shapes */

/** @type {Colours} */
export const LIGHT = {
  sea: '#d6e4ec', land: '#f4f1e8', halo: '#ffffffe0', ring: '#c0392b',
  names: {
    country: { colour: '#4b2e6b' }, state: { colour: '#6a4f86' },
    point: { colour: '#1a1a1a', dot: '#222222' }, small: { colour: '#1a1a1a', dot: '#666666' },
    line: { colour: '#1f5f96' }, area: { colour: '#4b2e6b' }, 'small area': { colour: '#6a4f86' },
    road: { colour: '#5d4a2c' }, street: { colour: '#5d4a2c' }, park: { colour: '#2b6231' }, forest: { colour: '#2b6231' },
    lake: { colour: '#1f5f96' }, water: { colour: '#1f5f96' }, sea: { colour: '#1f5f96' }, peak: { colour: '#6b3f1d', dot: '#6b3f1d' }
  },
  shapes: {
    area: { fill: '#f4f1e8', line: '#c9c2b2', width: 1 }, line: { line: '#a9c6dd', width: 1 }, point: {},
    water: { fill: '#c3d9e6', line: '#a9c6dd' }, lake: { fill: '#c3d9e6', line: '#a9c6dd' }, river: { line: '#a9c6dd', width: 1.5 },
    park: { fill: '#dcebd2', line: '#c2d6b4' }, forest: { fill: '#dcebd2', line: '#c2d6b4' },
    road: { line: '#d8cbb0', width: 2 }, street: { line: '#d8cbb0', width: 1.5 }, border: { line: '#b39bb0', width: 1 }
  }
}

/** @type {Colours} */
export const DARK = {
  sea: '#17212a', land: '#252b30', halo: '#101519d0', ring: '#ff8a75',
  names: {
    country: { colour: '#cdb4ea' }, state: { colour: '#b59fd2' },
    point: { colour: '#eceae4', dot: '#d9d5ca' }, small: { colour: '#d9d7d0', dot: '#98958c' },
    line: { colour: '#8ec1ea' }, area: { colour: '#cdb4ea' }, 'small area': { colour: '#b59fd2' },
    road: { colour: '#d8c39a' }, street: { colour: '#d8c39a' }, park: { colour: '#9fd0a3' }, forest: { colour: '#9fd0a3' },
    lake: { colour: '#8ec1ea' }, water: { colour: '#8ec1ea' }, sea: { colour: '#8ec1ea' }, peak: { colour: '#dfb08c', dot: '#dfb08c' }
  },
  shapes: {
    area: { fill: '#252b30', line: '#465058', width: 1 }, line: { line: '#335a78', width: 1 }, point: {},
    water: { fill: '#1b2f3d', line: '#335a78' }, lake: { fill: '#1b2f3d', line: '#335a78' }, river: { line: '#335a78', width: 1.5 },
    park: { fill: '#21342a', line: '#35503f' }, forest: { fill: '#21342a', line: '#35503f' },
    road: { line: '#5a5242', width: 2 }, street: { line: '#5a5242', width: 1.5 }, border: { line: '#6c5a72', width: 1 }
  }
}

const SMALL = 12                                         // pixels up to which a name is a small one

/** Colours of an author over those of a scheme, entry by entry.
 * @param {Colours} base
 * @param {Partial<Colours>} [own]
 * @returns {Colours} */
export const mixed = (base, own = {}) => ({
  ...base, ...own, names: { ...base.names, ...own.names }, shapes: { ...base.shapes, ...own.shapes }
})

/** @param {Label} label */
const covers = ({ boxes: [[left, bottom, right, top]] }) => left <= 0 && bottom <= 0 && right >= 0 && top >= 0

/** The kind of a label: as it is known, or else as its boxes let one guess.
 * @param {Label} label */
export const kindOf = label => label.kind ?? (label.boxes.length > 1 ? 'line' : covers(label) ? 'area' : 'point')

/** The entry of a class: that of its value, as 'city 2', or else of the value's first word.
 * @template T
 * @param {{ [key: string]: T }} entries
 * @param {string | null | undefined} value
 * @returns {T | undefined} */
const entryOf = (entries, value) => value === undefined || value === null ? undefined
  : entries[value] ?? entries[value.toLowerCase().split(/[ _]/)[0]]

/** How a label looks where the author tells nothing else: the colour of its class or of its kind, and a dot where a
 * point's name stands beside its place.
 * @param {Label} label
 * @param {Colours} colours
 * @returns {Look} */
export function lookOf(label, colours) {
  const [, bottom, , top] = label.boxes[0], kind = kindOf(label), isSmall = top - bottom <= SMALL
  const usual = colours.names[isSmall && kind === 'area' ? 'small area' : isSmall && kind === 'point' ? 'small' : kind]
  const { colour, dot = '' } = { ...usual, ...entryOf(colours.names, label.value) }
  return { colour, halo: colours.halo, dot: kind === 'point' && !covers(label) && dot ? dot : false, height: SMALL }
}

/** How the outline of a feature looks where the author tells nothing else.
 * @param {{ kind: string, value?: string | null }} shape
 * @param {Colours} colours
 * @returns {Stroke} */
export const strokeOf = ({ kind, value }, colours) =>
  ({ ...colours.shapes[kind], ...entryOf(colours.shapes, value) })
