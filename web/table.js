// Decimal CSV with a header line, read block by block.

const KNOWN = new Set(
  ("week tow constellation svid band pseudorange carrier adr state x y z vx vy vz clock modelled ionosphere correction elevation rate rx ry rz " +
    "dt dx dy dz north east down true_dx true_dy true_dz sigma_x sigma_y sigma_z pair line screen sigma_a sigma_b huber mask rounds used screened " +
    "chi pdop refusal satellites odometer pulses file depot van day first_tow last_tow epochs refused carrier_mm odometer_mm greatest_mm reached " +
    "set_aside standing_mm counted_mm pulses_counted pulses_all coverage distance_mm gap_s trips ml_per_km_carrier millilitres").split(" "),
);

const BLOCK = 1 << 20;

// The lines of a file. A source has a name, a size in bytes, and read(from, to) for its bytes.
class Lines {
  constructor(source) {
    this.source = source;
    this.at = 0;
    this.block = [];
    this.next = 0;
    this.decoder = new TextDecoder("utf-8", { fatal: true, ignoreBOM: true });
  }

  // Reads the next block, up to its last line end.
  load() {
    const { source } = this;
    const end = Math.min(this.at + BLOCK, source.size);
    const bytes = source.read(this.at, end);
    const last = end === source.size ? bytes.length : bytes.lastIndexOf(10) + 1;
    // A block without a line end is part of a line that is too long.
    const part = last === 0 ? bytes : bytes.subarray(0, last);
    this.at += part.length;
    this.next = 0;
    this.block = this.split(part);
  }

  split(bytes) {
    let lines;
    try {
      lines = this.decoder.decode(bytes).split("\n");
      if (lines[lines.length - 1] === "") lines.pop();
      return lines;
    } catch {
      lines = [];
    }
    // Some line is not UTF-8: decode line by line to find it.
    for (let at = 0; at < bytes.length; ) {
      const end = bytes.indexOf(10, at);
      const part = bytes.subarray(at, end < 0 ? bytes.length : end);
      try {
        lines.push(this.decoder.decode(part));
      } catch {
        lines.push(part.length > LONGEST + 1 ? "x".repeat(part.length) : null);
      }
      at += part.length + 1;
    }
    return lines;
  }

  // Returns the next line without its LF: null if it is not UTF-8, undefined at the end.
  read() {
    while (this.next === this.block.length) {
      if (this.at >= this.source.size) return undefined;
      this.load();
    }
    return this.block[this.next++];
  }
}

// A CSV file and its current line.
class Table {
  constructor(source, strangers) {
    this.source = source;
    this.name = source.name;
    this.lines = new Lines(source);
    this.line = 0;
    this.text = "";
    if (!this.readLine()) throw new Fault(`${this.name}: is empty; expected a header line`);
    this.header = this.text.replace(/^\ufeff/, "").split(",").map(trimmed);
    this.header.forEach((name, i) => {
      if (this.header.indexOf(name) < i) throw this.fault(`the column ${quoted(name)} appears twice`);
      if (!KNOWN.has(name) && !strangers) throw this.fault(`the column ${quoted(name)} is unknown; see --help, or give --ignore-unknown`);
    });
  }

  fault(why) {
    return new Fault(`${this.name}:${this.line}: ${why}`);
  }

  // Returns a fault in a field of the current line.
  faultIn(column, why) {
    return this.fault(`${this.header[column]}: ${why}`);
  }

  readLine() {
    const text = this.lines.read();
    if (text === undefined) return false;
    this.line += 1;
    if (text === null) throw this.fault("the line is not UTF-8 text");
    this.text = text.endsWith("\r") ? text.slice(0, -1) : text;
    const long = this.text.length * 3 > LONGEST && new TextEncoder().encode(this.text).length > LONGEST;
    if (long) throw this.fault(`the line is above ${LONGEST} bytes`);
    return true;
  }

  // Moves to the next line that is not blank. Returns false at the end of the file.
  next() {
    do {
      if (!this.readLine()) return false;
    } while (trimmed(this.text) === "");
    this.fields = this.text.split(",");
    const [have, want] = [this.fields.length, this.header.length];
    if (have !== want) throw this.fault(`${have} fields, the header has ${want}`);
    return true;
  }

  // Returns the index of a column, or undefined if the file lacks it.
  optional(name) {
    const place = this.header.indexOf(name);
    return place < 0 ? undefined : place;
  }

  column(name) {
    const place = this.optional(name);
    if (place === undefined) throw new Fault(`${this.name}:1: the column ${quoted(name)} is missing`);
    return place;
  }

  columns(names) {
    return names.map((name) => this.column(name));
  }

  // Returns the indices of columns, or undefined if the file lacks the first of them.
  optionals(names) {
    return this.optional(names[0]) === undefined ? undefined : this.columns(names);
  }

  field(column) {
    return trimmed(this.fields[column]);
  }

  wrong(column, field, kind) {
    const why = field === "" ? `empty; expected ${kind}` : `${quoted([...field].slice(0, 40).join(""))} is not ${kind}`;
    return this.faultIn(column, why);
  }

  float(column) {
    const field = this.field(column);
    const x = readFloat(field);
    if (x === undefined) throw this.wrong(column, field, "a number");
    return x;
  }

  floats(columns) {
    return columns.map((column) => this.float(column));
  }

  floatOr0(column) {
    return column === undefined ? 0 : this.float(column);
  }

  whole(column, kind) {
    const field = this.field(column);
    const x = readWhole(field, kind);
    if (x === undefined) throw this.wrong(column, field, `a whole number from ${kind.low} to ${kind.high}`);
    return x;
  }

  wholeOr(column, kind, without) {
    return column === undefined ? without : this.whole(column, kind);
  }
}
