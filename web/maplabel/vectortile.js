// @ts-check
// Reads vector tiles (Mapbox Vector Tile 2): the properties of the features of a layer. Geometry is passed over.

const VARINT = 0, FIXED_64 = 1, BYTES = 2, FIXED_32 = 5

/** @typedef {{ [key: string]: string | number | boolean }} Properties */

/** Bytes as Protocol Buffers lay them out: fields with a number each. */
class Reader {
  /** @param {Uint8Array} bytes */
  constructor(bytes) {
    this.bytes = bytes
    this.at = 0
  }

  get hasMore() { return this.at < this.bytes.length }

  /** A whole number of up to 64 bits, exactly. */
  big() {
    let value = 0n, shift = 0n
    for (;;) {
      if (!this.hasMore || shift > 63n) throw new Error('the tile is cut off')
      const byte = this.bytes[this.at++]
      value |= BigInt(byte & 0x7f) << shift
      if (byte < 0x80) return value
      shift += 7n
    }
  }

  number() { return Number(this.big()) }

  part() {
    const length = this.number(), begin = this.at
    this.at += length
    if (this.at > this.bytes.length) throw new Error('the tile is cut off')
    return this.bytes.subarray(begin, this.at)
  }

  text() { return new TextDecoder().decode(this.part()) }

  /** @param {number} size 4 or 8 */
  float(size) {
    const view = new DataView(this.bytes.buffer, this.bytes.byteOffset + this.at, size)
    this.at += size
    return size === 8 ? view.getFloat64(0, true) : view.getFloat32(0, true)
  }

  /** @param {number} kind */
  skip(kind) {
    if (kind === VARINT) this.big()
    else if (kind === BYTES) this.part()
    else if (kind === FIXED_64) this.at += 8
    else if (kind === FIXED_32) this.at += 4
    else throw new Error('this is no vector tile')
  }

  /** Calls a function for each field; what it does not read is passed over.
   * @param {(field: number, reader: Reader) => boolean} take whether it has read the field */
  fields(take) {
    while (this.hasMore) {
      const head = this.number()
      if (!take(head >> 3, this)) this.skip(head & 7)
    }
  }
}

/** @param {Uint8Array} bytes
 * @returns {string | number | boolean} */
function valueOf(bytes) {
  /** @type {string | number | boolean} */
  let value = ''
  new Reader(bytes).fields((field, reader) => {
    if (field === 1) value = reader.text()
    else if (field === 2) value = reader.float(4)
    else if (field === 3) value = reader.float(8)
    else if (field === 4) value = Number(BigInt.asIntN(64, reader.big()))
    else if (field === 5) value = reader.number()
    else if (field === 6) value = signed(reader.big())
    else if (field === 7) value = reader.number() !== 0
    else return false
    return true
  })
  return value
}

/** @param {bigint} coded */
const signed = coded => Number(coded & 1n ? -(coded + 1n) / 2n : coded / 2n)

/** @param {Uint8Array} bytes of a feature
 * @returns {number[]} */
function tagsOf(bytes) {
  /** @type {number[]} */
  const tags = []
  new Reader(bytes).fields((field, reader) => {
    if (field !== 2) return false
    const packed = new Reader(reader.part())
    while (packed.hasMore) tags.push(packed.number())
    return true
  })
  return tags
}

/** @param {Uint8Array} bytes of a layer */
function layerOf(bytes) {
  /** @type {{ name: string, keys: string[], values: (string | number | boolean)[], features: number[][] }} */
  const layer = { name: '', keys: [], values: [], features: [] }
  new Reader(bytes).fields((field, reader) => {
    if (field === 1) layer.name = reader.text()
    else if (field === 2) layer.features.push(tagsOf(reader.part()))
    else if (field === 3) layer.keys.push(reader.text())
    else if (field === 4) layer.values.push(valueOf(reader.part()))
    else return false
    return true
  })
  return layer
}

/** The properties of all features of a layer of a tile, in order.
 * @param {Uint8Array} bytes
 * @param {string} name
 * @returns {Properties[]} */
export function propertiesOf(bytes, name) {
  /** @type {Properties[]} */
  const found = []
  new Reader(bytes).fields((field, reader) => {
    if (field !== 3) return false
    const layer = layerOf(reader.part())
    if (layer.name !== name) return true
    for (const tags of layer.features) {
      /** @type {Properties} */
      const properties = {}
      for (let k = 0; k + 1 < tags.length; k += 2) properties[layer.keys[tags[k]]] = layer.values[tags[k + 1]]
      found.push(properties)
    }
    return true
  })
  return found
}
