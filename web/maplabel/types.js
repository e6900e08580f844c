// @ts-check
// The shapes of the values that go from one module to another. Nothing here runs.

/** Left, bottom, right, top: pixels about a label's anchor, y upwards.
 * @typedef {[number, number, number, number]} Box */

/** Where a plane stands on the screen: pixel = k * u + ox, and k * v + oy.
 * @typedef {{ k: number, ox: number, oy: number }} Frame */

/** A scale as the engine takes it, and its value.
 * @typedef {{ text: string, value: number }} Scale */

/** A window to ask for, in engine units and pixels; its names are drawn in these turns of the world.
 * @typedef {{ cx: number, cy: number, w: number, h: number, s: string, shifts: number[] }} Window */

/** The point, line or area that a feature is.
 * @typedef {'point' | 'line' | 'area'} Kind */

/** A name as a source tells it. `class` is the number of its class in the style, `value` the text of the property that
 * the class asks for; both are there where the source knows the style. `kind` and `properties` are the feature's.
 * @typedef {object} Label
 * @property {string} id
 * @property {string} text
 * @property {[number, number]} at the anchor in engine units
 * @property {Box[]} boxes
 * @property {string} until
 * @property {string} [min]
 * @property {number} [class]
 * @property {string | null} [value]
 * @property {Kind} [kind]
 * @property {{ [key: string]: any }} [properties]
 * @property {string[]} [letters] the text of each box, where the source tells it */

/** A label that is ready to be drawn on a plane.
 * @typedef {Label & { flat: [number, number], hull: Box, end: number }} Ready */

/** A label where it stands on the screen, in one turn of the world.
 * @typedef {{ label: Ready, shift: number, x: number, y: number, boxes: Box[] }} Placed */

/** How a name looks. `dot` is the colour of a dot at its place, or false; `height` is for letters along a line.
 * @typedef {{ colour: string, halo: string, dot: string | false, font?: string, height?: number }} Look */

/** What `/state` tells of a label, or an export of a name.
 * @typedef {object} Span
 * @property {string} id
 * @property {number} x
 * @property {number} y
 * @property {string} min
 * @property {string} max
 * @property {number} margin
 * @property {string} until
 * @property {string | null} blocker
 * @property {Box[]} boxes */

/** A GeoJSON feature as `/map` gives it.
 * @typedef {{ id: string, geometry: { type: string, coordinates: any } | null, properties: { [key: string]: any } | null }} Feature */

/** A class of a style, as the file beside a page tells it.
 * @typedef {{ geometry: Kind, key?: string, value?: string, font: string, size: number }} StyleClass */

/** A font of a style: the family that it was measured with, where that is known, and some of its widths.
 * @typedef {{ family?: string, units: number, default: number, advances: { [letter: string]: number } }} StyleFont */

/** What a page knows of the style: the names of the properties, the classes, and the fonts by their names.
 * @typedef {{ name: string, classes: StyleClass[], fonts: { [name: string]: StyleFont } }} Style */

/** How a server is.
 * @typedef {'good' | 'held' | 'gone' | 'many' | 'refused' | 'broken'} State */

/** Hears how a source is: its state, the one before, and in how many seconds it is asked again.
 * @typedef {(state: State, before: State, seconds?: number) => void} Tell */

/** What a source of names is to a viewer.
 * @typedef {object} Source
 * @property {boolean} isLive whether it is a server, whose map may be edited
 * @property {boolean} asking whether a request for names is under way
 * @property {State} state
 * @property {number | null} rev
 * @property {number} count how many requests there were
 * @property {(windows: Window[], come: (views: { labels: Label[] }[]) => void) => void} want
 * @property {() => void} end */

/** A plane between engine units and the screen (plane.js).
 * @typedef {object} Plane
 * @property {number} turn
 * @property {number} top
 * @property {number} reach
 * @property {number} units
 * @property {boolean} stretches
 * @property {(u: number, v: number) => [number, number]} engineOf
 * @property {(x: number, y: number) => [number, number]} flatOf
 * @property {(x: number, y: number) => [number, number]} placeOf */

/** What a viewer draws over: a map that moves.
 * @typedef {object} Ground
 * @property {() => Frame} frame
 * @property {() => [number, number]} size
 * @property {() => boolean} isMoving whether it goes on by itself, as in an animated zoom
 * @property {(u: number, v: number, scale: number) => void} centre
 * @property {(factor: number, px: number, py: number) => void} zoomAbout
 * @property {(dx: number, dy: number) => void} move
 * @property {() => { [word: string]: string | number }} words
 * @property {(words: URLSearchParams) => void} read
 * @property {() => void} end */

export {}
