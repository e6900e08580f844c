// @ts-check
// A zoom that goes on smoothly: each picture takes a part of what is left, and the last one all of it.

const TIME = 50                                          // milliseconds in which all but a third is done
const LAST = 0.01                                        // doublings that are done at once

export class Glide {
  /** @param {(factor: number, px: number, py: number, isLast: boolean) => void} step */
  constructor(step) {
    this.step = step
    this.left = 0
    /** @type {[number, number]} */
    this.place = [0, 0]
    this.handle = 0
    this.before = 0
  }

  get isMoving() { return this.handle !== 0 }

  /** @param {number} doublings
   * @param {number} px
   * @param {number} py */
  add(doublings, px, py) {
    this.left += doublings
    this.place = [px, py]
    if (this.handle) return
    this.before = performance.now()
    this.handle = requestAnimationFrame(now => this.go(now))
  }

  /** @param {number} now */
  go(now) {
    const time = Math.max(now - this.before, 1000 / 120)
    this.before = now
    const part = this.left * (1 - Math.exp(-time / TIME)), isLast = Math.abs(this.left - part) < LAST
    const done = isLast ? this.left : part
    this.left -= done
    this.handle = isLast ? 0 : requestAnimationFrame(next => this.go(next))
    this.step(2 ** done, ...this.place, isLast)
  }

  /** What is left is not done. */
  end() {
    cancelAnimationFrame(this.handle)
    this.handle = 0
    this.left = 0
  }
}
