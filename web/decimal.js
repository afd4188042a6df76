// Decimals as the command zaqnuti reads and writes them, and its faults.

// An error that ends a run, in the command's words.
class Fault extends Error {}

// The seconds of a week, the most records of an epoch, and the longest line in bytes.
const WEEK = 604800;
const RECORDS = 64;
const LONGEST = 65536;

const EDGE = "[\\t-\\r \\u0085\\u00a0\\u1680\\u2000-\\u200a\\u2028\\u2029\\u202f\\u205f\\u3000]+";
const EDGES = new RegExp(`^${EDGE}|${EDGE}$`, "g");

// Removes the white space around a text, by Unicode's definition.
function trimmed(text) {
  const graphic = (c) => c > 32 && c < 127;
  if (text === "" || (graphic(text.charCodeAt(0)) && graphic(text.charCodeAt(text.length - 1)))) return text;
  return text.replace(EDGES, "");
}

// Quotes and escapes a text for a message.
function quoted(text) {
  const named = { '"': '\\"', "\\": "\\\\", "\n": "\\n", "\r": "\\r", "\t": "\\t", "\0": "\\0" };
  const escaped = text.replace(/["\\\u0000-\u001f\u007f-\u00a0\u00ad\u200b-\u200f\u2028-\u202f\u2060-\u206f\ufeff]/g, (c) => named[c] || `\\u{${c.charCodeAt(0).toString(16)}}`);
  return `"${escaped}"`;
}

const DECIMAL = /^[+-]?(?:\d+\.?\d*|\.\d+)(?:[eE][+-]?\d+)?$/;

// Returns the float nearest to a decimal, or undefined for any other text.
function readFloat(field) {
  if (DECIMAL.test(field)) return Number(field);
  if (/^[+-]?nan$/i.test(field)) return NaN;
  if (/^[+-]?inf(?:inity)?$/i.test(field)) return field[0] === "-" ? -Infinity : Infinity;
  // A NaN given by its bits: every exponent bit is set, and the fraction is not 0.
  if (/^NaN:[7F]FF[0-9A-F]{13}$/.test(field) && !field.endsWith("FF0000000000000")) return NaN;
  return undefined;
}

// Returns the shortest decimal that reads back as x.
function written(x) {
  if (Number.isNaN(x)) return "NaN";
  if (!Number.isFinite(x)) return x < 0 ? "-inf" : "inf";
  const sign = x < 0 || Object.is(x, -0) ? "-" : "";
  const [mantissa, exponent] = Math.abs(x).toExponential().split("e");
  const [digits, power] = [mantissa.replace(".", ""), Number(exponent)];
  if (x !== 0 && (power >= 16 || power < -4)) return `${sign}${mantissa}e${power}`;
  if (power < 0) return `${sign}0.${"0".repeat(-power - 1)}${digits}`;
  const whole = digits.slice(0, power + 1).padEnd(power + 1, "0");
  return `${sign}${whole}.${digits.slice(power + 1) || "0"}`;
}

// Rounds to three decimals, ties to even.
function fixed(x) {
  const text = x.toFixed(3);
  if (!Number.isFinite(x) || Math.abs(x * 16) % 2 !== 1) return text;
  const below = Math.floor(Math.abs(x) * 1000);
  const even = String(below + (below % 2)).padStart(4, "0");
  return `${x < 0 ? "-" : ""}${even.slice(0, -3)}.${even.slice(-3)}`;
}

// Formats metres to the millimetre, zero without a sign.
function metres(x) {
  const text = fixed(x);
  return text === "-0.000" ? "0.000" : text;
}

// Formats millimetres as kilometres, rounded down to the metre.
function kilometres(mm) {
  return `${mm / 1000000n}.${String((mm / 1000n) % 1000n).padStart(3, "0")}`;
}

// Whole numbers by their least and greatest.
const U8 = { low: 0n, high: 255n };
const U16 = { low: 0n, high: 65535n };
const U32 = { low: 0n, high: 4294967295n };
const U64 = { low: 0n, high: 18446744073709551615n };
const I32 = { low: -2147483648n, high: 2147483647n };

// Returns the whole number of a field, or undefined if it is not of the kind.
function readWhole(field, kind) {
  if (/^\d{1,9}$/.test(field)) {
    const x = Number(field);
    return x <= kind.high ? x : undefined;
  }
  if (!(kind.low < 0n ? /^[+-]?\d+$/ : /^\+?\d+$/).test(field)) return undefined;
  const x = BigInt(field.replace("+", ""));
  if (x < kind.low || x > kind.high) return undefined;
  return kind === U64 ? x : Number(x);
}
