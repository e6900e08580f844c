// @ts-check
// Why a name is shown or not, in sentences, for a page with `?explain`.
import { valueOf, zoomOf } from './plane.js'

/** @typedef {import('./types.js').Plane} Plane */
/** @typedef {{ error?: string, reason?: string, min: string, until: string, max: string, blocker: string | null }} Why */

/** @type {{ [reason: string]: string }} */
const REASONS = {
  NoGeometry: 'It has no place on the map.', NoClass: 'The style has no class for it.',
  NoName: 'It has no text that could be shown.', TooWide: 'Its text is too wide for a label.'
}

/** @param {number} value */
const round = value => value >= 100 ? Math.round(value).toLocaleString('en') : String(+value.toPrecision(4))

/** @param {string} fraction
 * @param {Plane} plane */
const told = (fraction, plane) => {
  const value = valueOf(fraction)
  return value > 0 ? `scale ${round(value)} (zoom ${zoomOf(plane, value).toFixed(2)})` : 'as far in as one likes'
}

/** What `/why` says of a label, for a page at this scale.
 * @param {Why} why
 * @param {number} scale
 * @param {Plane} plane
 * @param {(id: string) => string} nameOf
 * @param {boolean} isHidden
 * @returns {string[]} */
export function explain(why, scale, plane, nameOf, isHidden) {
  if (why.error) return ['No feature has this id.']
  if (why.reason) return [REASONS[why.reason] ?? why.reason]
  const min = valueOf(why.min), until = valueOf(why.until), lines = []
  if (isHidden) lines.push('Left out on this plane: where y is stretched it could lie over another name.')
  if (until <= min) lines.push('It is shown at no scale.')
  else if (scale < min) lines.push(`Not shown at this scale: the names of its class begin at ${told(why.min, plane)}.`)
  else if (scale >= until) lines.push('Not shown at this scale.')
  else if (!isHidden) lines.push('Shown at this scale.')
  const end = told(why.until, plane)
  lines.push(why.blocker === null ? `It ends where its class ends, at ${end}.` : `It ends at ${end}: from there on out ` +
    `it would lie over ${nameOf(why.blocker)} (${why.blocker}), which comes before it.`)
  return lines
}

/** A scale at which a label is shown, near to this one; null where there is none.
 * @param {{ min?: string, until?: string }} span
 * @param {number} scale */
export function scaleFor(span, scale) {
  if (span.until === undefined || span.min === undefined) return null
  const min = valueOf(span.min), until = valueOf(span.until)
  if (until <= min) return null
  if (scale < min) return Math.min(min * 1.05, (min + until) / 2)
  return scale >= until ? Math.max(until * 0.95, (min + until) / 2) : scale
}
