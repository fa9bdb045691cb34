// Texts as bytes: UTF-8 in; UTF-8 out, or ISO 8859-1 where the bytes aren't that. Inside, a byte string is a string whose characters are bytes.
import { ChessError } from './errors.js';

const encoder = new TextEncoder();
const strict = new TextDecoder('utf-8', { fatal: true, ignoreBOM: true });

/** Refuses what is no text, as half of a surrogate pair. */
export const checkText = (text) => {
  if (typeof text !== 'string') throw new TypeError(`a text is wanted, not ${typeof text}`);
  const half = text.search(/\p{Surrogate}/u);
  if (half >= 0) throw new ChessError('Text', `half of a surrogate pair at ${half}: no UTF-8 spells it`);
};

/** The bytes of a text. */
export const encode = (text) => {
  checkText(text);
  return encoder.encode(text);
};

const kindOf = (it) => Object.prototype.toString.call(it).slice(8, -1);

/** Whether it is what WebAssembly compiled; as below, also of another window. */
export const isCompiled = (it) => kindOf(it) === 'WebAssembly.Module';

export const isBytes = (it) => ArrayBuffer.isView(it) || kindOf(it) === 'ArrayBuffer';

/** The bytes of a text, or bytes as they are. */
export const bytesOf = (it) => {
  if (ArrayBuffer.isView(it)) return new Uint8Array(it.buffer, it.byteOffset, it.byteLength);
  if (isBytes(it)) return new Uint8Array(it);
  return encode(it);
};

export const fromBytes = (bytes) => {
  let text = '';
  for (let i = 0; i < bytes.length; i += 8192) text += String.fromCharCode.apply(null, bytes.subarray(i, i + 8192));
  return text;
};

export const toBytes = (text) => {
  const bytes = new Uint8Array(text.length);
  for (let i = 0; i < text.length; i++) bytes[i] = text.charCodeAt(i);
  return bytes;
};

/** The text of bytes. */
export const decode = (bytes) => {
  try {
    return strict.decode(bytes);
  } catch {
    return fromBytes(bytes);
  }
};

/** The text of a byte string. */
export const shown = (text) => (/[\x80-\xff]/.test(text) ? decode(toBytes(text)) : text);
