// @ts-check
// All that a page may use.
import { onElement, openMercator, openPlain } from './pages.js'
import { register } from './layer.js'
import { Viewer } from './viewer.js'
import { CanvasNames } from './canvas.js'
import { PlainMap } from './plainmap.js'
import { planes } from './plane.js'
import { DARK, LIGHT } from './look.js'

if (window.L) register(window.L)

export const maplabel = { CanvasNames, onElement, openMercator, openPlain, register, Viewer, PlainMap, planes, DARK, LIGHT }
