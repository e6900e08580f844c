// @ts-check
// Fonts. Names keep apart as they were measured, so a page draws them in the family that the style's widths are of,
// and tells where the browser has another.

import { isMade } from './facts.js'

/** @typedef {import('./types.js').Style} Style */
/** @typedef {import('./types.js').StyleFont} StyleFont */

const SERIF = '"Liberation Serif", "Times New Roman", Times, serif'
const SANS = '"Liberation Sans", Arial, Helvetica, sans-serif'
const MONO = '"Liberation Mono", "Courier New", monospace'
const PROBE = 1000, NEAR = 0.02, FEW = 0.2

/** The families that a text of the page names, for a font of a style.
 * @param {string} name what the style calls it
 * @param {StyleFont} [font]
 * @returns {string} */
export function familyOf(name, font) {
  const others = /mono|courier|code/i.test(name) ? MONO : /sans|arial|helvet/i.test(name) ? SANS : SERIF
  return font?.family ? `"${font.family.replace(/["\\]/g, '')}", ${others}` : others
}

/** Whether letters are as wide as the style has them, but for a few that may come of another font. Where the font was made for
 * names along lines, all its letters are wider alike, for the room that turned ones want.
 * @param {CanvasRenderingContext2D} pen
 * @param {string} family
 * @param {StyleFont} font
 * @param {boolean} [isWider] */
export function isAsMeasured(pen, family, font, isWider = false) {
  const letters = Object.keys(font.advances).filter(letter => /[!-~\u00c0-\u024f]/.test(letter)).slice(0, 120)
  if (!letters.length) return true
  pen.save()
  pen.font = `${PROBE}px ${family}`
  const widths = letters.map(letter => [font.advances[letter] / font.units * PROBE, pen.measureText(letter).width])
  pen.restore()
  const ratios = widths.map(([wanted, own]) => own / wanted).sort((a, b) => a - b)
  const by = isWider ? ratios[Math.floor(ratios.length / 2)] : 1
  return widths.filter(([wanted, own]) => Math.abs(own - by * wanted) > NEAR * PROBE).length <= FEW * letters.length
}

/** A sentence about each font of a style that this browser does not have. Of those that were made for lines, of which there
 * are many, one of each family is looked at.
 * @param {CanvasRenderingContext2D} pen
 * @param {Style} style
 * @param {string} [own] the families of the page's author, in place of the style's
 * @returns {string[]} */
export function lackingFonts(pen, { classes, fonts }, own) {
  const made = new Set(classes.filter(isMade).map(one => one.font)), seen = new Set()
  return Object.entries(fonts)
    .filter(([name, { family }]) => !made.has(name) || !seen.has(family) && seen.add(family))
    .filter(([name, font]) => !isAsMeasured(pen, own ?? familyOf(name, font), font, made.has(name)))
    .map(([name, font]) => {
      const meant = font.family ? `the font ${font.family}` : `another font (“${name}” in the style)`
      return `The names were measured with ${meant}, which this browser does not have: some are smaller than they should be.`
    })
}
