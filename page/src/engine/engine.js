// The engine: the proved replayer as the WebAssembly module listset.wasm. The functions of the module have texts as arguments and return a text.

const FIRST_ROOM = 1 << 22; // bytes of the first buffer for an answer of the engine
const LARGE_MEMORY = 1 << 28; // bytes; an instance with a larger memory is not used again

export class Engine {
  // The module calls `read` to read a file: `read` copies the file's next bytes to the start of `room`, and returns the number of bytes, or -1 after an error.
  /** @param {(input: bigint, room: Uint8Array) => number} read */
  constructor(module, read = () => -1) {
    this.module = module;
    /** @type {any} */
    this.instance = null;
    this.host = { env: { read: (input, at, count) => BigInt(read(input, this.piece(Number(at), Number(count)))) } };
  }

  piece(at, count) {
    return new Uint8Array(this.instance.exports.memory.buffer, at, count);
  }

  ask(name, ...texts) {
    const encoder = new TextEncoder();
    return this.askBytes(name, ...texts.map((text) => encoder.encode(text)));
  }

  askBytes(name, ...given) {
    return this.answered((exports) => answerOf(exports, name, given));
  }

  // Returns the answer of the module's function `name` for a recording of any length. The module reads the recording piece by piece.
  answerFrom(name, input) {
    return this.answered((exports) => answerInRoom(exports, name, [[input]], FIRST_ROOM));
  }

  // Returns the diagnosis that the program prints after the `used` lines of a verdict that refuses a recording. The module reads the recording a second time
  // for the diagnosis.
  whyFrom(input, used) {
    return this.answered((exports) => answerInRoom(exports, "listset_why_from", [[input, BigInt(used)]], FIRST_ROOM));
  }

  answered(answer) {
    if (this.instance === null || this.instance.exports.memory.buffer.byteLength > LARGE_MEMORY) {
      this.instance = new WebAssembly.Instance(this.module, this.host);
    }
    try {
      return answer(this.instance.exports);
    } catch (fault) {
      this.instance = null; // after a trap the memory of the instance is not used again
      throw new Error(`the engine stopped: ${fault.message}`);
    }
  }
}

function answerOf(engine, name, given) {
  const texts = textsOf(engine, engine[name].length, given);
  let answer = answerInRoom(engine, name, texts, FIRST_ROOM);
  if (answer.bytes === null) answer = answerInRoom(engine, name, texts, answer.length);
  texts.forEach(([block]) => engine.page_free(block));
  if (answer.bytes === null) throw new Error("two answers to one text");
  return { status: answer.status, text: new TextDecoder().decode(answer.bytes), bytes: answer.bytes };
}

// Copies the texts into the module's memory, and returns the address and length of each text. (A function of the module has two parameters for each text.)
function textsOf(engine, parameters, given) {
  return Array.from({ length: (parameters - 3) / 2 }, (_, at) => {
    const text = given[at] ?? new Uint8Array(0);
    const block = blockOf(engine, text.length);
    new Uint8Array(engine.memory.buffer, Number(block), text.length).set(text);
    return [block, BigInt(text.length)];
  });
}

function answerInRoom(engine, name, texts, room) {
  const out = blockOf(engine, room);
  const status = blockOf(engine, 1);
  const count = Number(engine[name](...texts.flat(), out, BigInt(room), status));
  const memory = engine.memory.buffer;
  const bytes = count <= room ? new Uint8Array(memory, Number(out), count).slice() : null;
  const said = new Uint8Array(memory, Number(status), 1)[0];
  engine.page_free(out);
  engine.page_free(status);
  return { bytes, length: count, status: said };
}

function blockOf(engine, length) {
  const block = engine.page_alloc(BigInt(Math.max(length, 1)));
  if (!block) throw new Error("no memory");
  return block;
}

export async function passed(bytes, stream) {
  return new Uint8Array(await new Response(new Blob([bytes]).stream().pipeThrough(stream)).arrayBuffer());
}

export const bytesOf = (base64) => Uint8Array.from(atob(base64), (letter) => letter.charCodeAt(0));

// Compiles the WebAssembly module from the compressed bytes in the file engine.js, and returns an engine with this module.
export async function startEngine() {
  if (typeof ENGINE === "undefined") {
    if (document.readyState !== "complete") await new Promise((done) => window.addEventListener("load", done, { once: true })); // first the page is loaded, then the engine
    await loadScript("engine.js");
  }
  return new Engine(await WebAssembly.compile(await passed(bytesOf(ENGINE), new DecompressionStream("gzip"))));
}

export function loadScript(src) {
  return new Promise((done, fail) => {
    const onerror = () => fail(new Error(`${src} is not beside the page`));
    document.head.append(Object.assign(document.createElement("script"), { src, onload: done, onerror }));
  });
}
