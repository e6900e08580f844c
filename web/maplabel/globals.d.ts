// What a browser has that the checker's library does not.
interface Window { L: any, maplabel: any }

declare class DecompressionStream {
  constructor(format: string)
  readonly readable: ReadableStream<Uint8Array>
  readonly writable: WritableStream<Uint8Array>
}

interface OffscreenCanvasRenderingContext2D extends CanvasRenderingContext2D {}

declare class OffscreenCanvas {
  constructor(width: number, height: number)
  getContext(kind: '2d'): OffscreenCanvasRenderingContext2D | null
  transferToImageBitmap(): ImageBitmap
}

interface CanvasRenderingContext2D { fontKerning: string, textRendering: string }
