// Runs a C test beside the library as WebAssembly: node tests/wasm/run.js LIBRARY.wasm PROGRAM.wasm WORDS..
// The program lives in the library's memory, above what the library uses; its C library is the handful of functions below.
"use strict";
const fs = require("fs");
const [libraryFile, programFile, ...words] = process.argv.slice(2);

class Exit extends Error {
  constructor(status) {
    super(`exit ${status}`);
    this.status = status;
  }
}

const library = new WebAssembly.Instance(new WebAssembly.Module(fs.readFileSync(libraryFile)), {}).exports;
const memory = library.memory;
memory.grow(1024);
let bytes = new Uint8Array(memory.buffer);
let view = new DataView(memory.buffer);
let heap = 0;
const sizes = new Map();
const files = new Map();

function text(at) {
  let end = at;
  while (bytes[end] !== 0) end += 1;
  return Buffer.from(bytes.subarray(at, end)).toString();
}

function grab(size) {
  const at = (heap + 15) & ~15;
  heap = at + size;
  if (heap > bytes.length) {
    memory.grow(Math.ceil((heap - bytes.length) / 65536) + 1024);
    bytes = new Uint8Array(memory.buffer);
    view = new DataView(memory.buffer);
  }
  sizes.set(at, size);
  return at;
}

// Formats as C does, for the conversions that the tests use; the arguments lie one after the other at `from`.
function format(pattern, from) {
  let at = from;
  const take = (size) => {
    at = (at + size - 1) & ~(size - 1);
    at += size;
    return at - size;
  };
  return text(pattern).replace(/%(-?)(0?)(\d*)(?:\.(\d+))?(zu|lu|ld|llu|lld|llX|s|u|d|f|X|x|c|%)/g, (whole, left, zero, width, digits, kind) => {
    let out;
    switch (kind) {
      case "%": return "%";
      case "s": out = text(view.getUint32(take(4), true)); break;
      case "c": out = String.fromCharCode(view.getUint32(take(4), true)); break;
      case "zu": case "lu": case "u": out = String(view.getUint32(take(4), true)); break;
      case "x": out = view.getUint32(take(4), true).toString(16); break;
      case "X": out = view.getUint32(take(4), true).toString(16).toUpperCase(); break;
      case "ld": case "d": out = String(view.getInt32(take(4), true)); break;
      case "llu": out = String(view.getBigUint64(take(8), true)); break;
      case "llX": out = view.getBigUint64(take(8), true).toString(16).toUpperCase(); break;
      case "lld": out = String(view.getBigInt64(take(8), true)); break;
      case "f": out = view.getFloat64(take(8), true).toFixed(digits === undefined ? 6 : Number(digits)); break;
    }
    const room = Number(width || 0);
    return left ? out.padEnd(room) : out.padStart(room, zero ? "0" : " ");
  });
}

function write(file, line) {
  fs.writeSync(file, line);
  return line.length;
}

const functions = {
  printf: (pattern, from) => write(1, format(pattern, from)),
  fprintf: (file, pattern, from) => write(file, format(pattern, from)),
  puts: (line) => write(1, text(line) + "\n"),
  putchar: (c) => write(1, String.fromCharCode(c)),
  fopen: (path) => {
    try {
      files.set(files.size + 3, fs.openSync(text(path)));
      return files.size + 2;
    } catch {
      return 0;
    }
  },
  fread: (to, size, count, file) => fs.readSync(files.get(file), bytes, to, size * count, null),
  ferror: () => 0,
  fclose: () => 0,
  malloc: grab,
  realloc: (old, size) => {
    const at = grab(size);
    bytes.copyWithin(at, old, old + Math.min(sizes.get(old) || 0, size));
    return at;
  },
  free: () => {},
  exit: (status) => { throw new Exit(status); },
  memcpy: (to, from, count) => { bytes.copyWithin(to, from, from + count); return to; },
  memmove: (to, from, count) => { bytes.copyWithin(to, from, from + count); return to; },
  memset: (to, byte, count) => { bytes.fill(byte, to, to + count); return to; },
  memcmp: (a, b, count) => Buffer.compare(bytes.subarray(a, a + count), bytes.subarray(b, b + count)),
  strlen: (s) => Buffer.byteLength(text(s)),
  strcmp: (a, b) => (text(a) < text(b) ? -1 : text(a) > text(b) ? 1 : 0),
  fabs: Math.abs,
  sqrt: Math.sqrt,
};

const program = new WebAssembly.Instance(new WebAssembly.Module(fs.readFileSync(programFile)), { env: { memory, ...library, ...functions } }).exports;
heap = program.__heap_base.value;
const list = [programFile, ...words].map((word) => {
  const at = grab(Buffer.byteLength(word) + 1);
  bytes.set(Buffer.from(word + "\0"), at);
  return at;
});
const argv = grab(4 * list.length + 4);
list.forEach((at, i) => view.setUint32(argv + 4 * i, at, true));
try {
  // clang calls a main with arguments __main_argc_argv.
  process.exitCode = (program.__main_argc_argv || program.main)(list.length, argv);
} catch (end) {
  if (!(end instanceof Exit)) throw end;
  process.exitCode = end.status;
}
