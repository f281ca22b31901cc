// What browsers have, and the page, that the types of TypeScript 4.8 have not.

interface Window {
  l6: unknown;
  l6Texts: {shared: string, script: string, worker: string, examples: any[], manual: any[], traps: Record<string, string>};
}

declare class CompressionStream {
  constructor(format: "gzip" | "deflate-raw");
  readonly readable: ReadableStream<Uint8Array>;
  readonly writable: WritableStream<Uint8Array>;
}

declare class DecompressionStream {
  constructor(format: "gzip" | "deflate-raw");
  readonly readable: ReadableStream<Uint8Array>;
  readonly writable: WritableStream<Uint8Array>;
}
