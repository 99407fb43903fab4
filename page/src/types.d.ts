// Declares names unknown to the type checker: newer parts of browsers, and the engine's module in a page that is opened as a file.
declare const ENGINE: string;
declare const MORE: any;
declare class CompressionStream extends TransformStream {
  constructor(format: string);
}
declare class DecompressionStream extends TransformStream {
  constructor(format: string);
}
interface Array<T> {
  findLast(isWanted: (item: T) => boolean): T | undefined;
}
interface Element extends HTMLOrSVGElement {
  hidden: boolean;
  disabled: boolean;
}
