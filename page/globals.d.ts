// What the page finds in a browser, or puts there, that TypeScript's own lists do not have.

declare class CompressionStream extends TransformStream {
  constructor(format: string);
}

declare class DecompressionStream extends TransformStream {
  constructor(format: string);
}

interface Window {
  itvStart: { page: string; sayUnfit: (error: unknown) => void };
  CodeMirror: any;
  itv: any;
}
