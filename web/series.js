// Pairs of epochs with their carriers, from either form of CSV: a series of epochs, each of which is paired with the one before it, or
// lines S, P and C.

// The columns of a carrier.
class Carriers {
  constructor(table) {
    this.constellation = table.column("constellation");
    this.svid = table.column("svid");
    this.band = table.optional("band");
    const [adr, carrier] = [table.optional("adr"), table.optional("carrier")];
    this.measured = adr === undefined && carrier !== undefined;
    this.phase = this.measured ? carrier : table.column("adr");
    this.clock = table.optional("clock");
    this.modelled = table.optional("modelled");
    this.ionosphere = table.optional("ionosphere");
    this.state = table.optional("state");
    this.place = table.columns(["x", "y", "z"]);
    this.elevation = table.column("elevation");
    this.rate = table.column("rate");
  }

  adr(t) {
    if (!this.measured) return t.float(this.phase);
    const [carrier, clock, modelled] = [t.float(this.phase), t.floatOr0(this.clock), t.floatOr0(this.modelled)];
    return carrier + clock - modelled + 2 * t.floatOr0(this.ionosphere);
  }

  read(t) {
    const constellation = t.whole(this.constellation, U8);
    const svid = t.whole(this.svid, U16);
    const band = t.wholeOr(this.band, U32, 0);
    const adr = this.adr(t);
    const state = t.wholeOr(this.state, I32, 1);
    const floats = [adr, ...t.floats(this.place), t.float(this.elevation), t.float(this.rate)];
    return { constellation, svid, band, state, floats };
  }

  // Returns the carrier of a row, or null if its satellite fields are all empty.
  readAny(t) {
    const fields = [this.constellation, this.svid, this.phase, ...this.place, this.elevation, this.rate];
    const bare = t.field(this.constellation) === "" && fields.every((column) => t.field(column) === "");
    return bare ? null : this.read(t);
  }
}

// The columns of a time: a GPS week, if the file has one, and the time of week in seconds.
class Times {
  constructor(table) {
    this.week = table.optional("week");
    this.tow = table.column("tow");
  }

  read(t) {
    const filled = this.week !== undefined && t.field(this.week) !== "";
    const week = filled ? t.whole(this.week, U32) : null;
    const tow = t.float(this.tow);
    if (!Number.isFinite(tow)) throw t.faultIn(this.tow, "is not finite");
    // -0 and 0 are the same time.
    return { week, tow: tow + 0 };
  }

  // Checks that the current line's time is after the previous one.
  checkForward(t, before, now) {
    if ((before.week === null) !== (now.week === null)) {
      throw t.faultIn(this.week === undefined ? this.tow : this.week, "is empty in some lines and not in others");
    }
    const after = now.week !== before.week ? now.week > before.week : now.tow > before.tow;
    if (!after) throw t.faultIn(this.tow, `${timeWords(now)} is not after ${timeWords(before)}`);
  }
}

function since(now, before) {
  return ((now.week || 0) - (before.week || 0)) * WEEK + (now.tow - before.tow);
}

function timeWords(time) {
  return `${time.week === null ? "" : `week ${time.week}, `}${fixed(time.tow)} s`;
}

// A series of epochs. The meter reads the odometer's fields and keeps its faults to itself.
class Series {
  constructor(table, options, meter) {
    this.table = table;
    this.meter = meter;
    this.carriers = new Carriers(table);
    this.rx = table.optionals(["rx", "ry", "rz"]);
    this.truth = table.optionals(["true_dx", "true_dy", "true_dz"]);
    this.at = options.at;
    if (!this.at && !this.rx) throw new Fault(`${table.name}: has no columns rx, ry, rz; give --at X,Y,Z or --fixes FILE`);
    this.times = new Times(table);
    this.settings = options.settings;
    this.last = [0, 0, 0];
    this.ahead = null;
    this.before = null;
  }

  begin(time) {
    const epoch = { time, line: this.table.line, at: null, truth: readTruth(this.table, this.truth), count: this.meter.head(this.table), rows: [] };
    this.add(epoch);
    return epoch;
  }

  add(epoch) {
    this.meter.row(this.table, epoch);
    const carrier = this.carriers.readAny(this.table);
    if (carrier === null) return;
    if (epoch.at === null && this.rx && !this.at) epoch.at = this.table.floats(this.rx);
    if (epoch.rows.length <= RECORDS) epoch.rows.push(carrier);
  }

  // Returns the next epoch, or null at the end of the file.
  epoch() {
    const { table, times } = this;
    let epoch = this.ahead;
    this.ahead = null;
    if (epoch === null) {
      if (!table.next()) return null;
      epoch = this.begin(times.read(table));
    }
    while (table.next()) {
      const time = times.read(table);
      if (time.week !== epoch.time.week || time.tow !== epoch.time.tow) {
        this.meter.keeping(() => times.checkForward(table, epoch.time, time));
        this.ahead = this.begin(time);
        break;
      }
      this.add(epoch);
    }
    return epoch;
  }

  // Returns the next pair of epochs, or null at the end of the file.
  next(library) {
    if (this.before === null) {
      this.before = this.epoch();
      if (this.before !== null) this.meter.first(this.before);
    }
    const now = this.epoch();
    if (now === null) return null;
    const before = this.before;
    const { dt, refusal } = seconds(library, before.time, now.time);
    this.last = before.at || this.last;
    const pair = {
      name: timeWords(now.time),
      fields: `${now.time.week === null ? "" : now.time.week},${written(now.time.tow)},,${written(dt)}`,
      dt,
      refusal,
      at: this.at || this.last,
      settings: this.settings,
      previous: before.rows,
      current: now.rows,
      truth: now.truth,
      pulses: this.meter.pulses(before, now),
    };
    this.before = now;
    return pair;
  }
}

// Returns the seconds between two times, computed in nanoseconds if both have a week, and the number that refuses a time.
function seconds(library, before, now) {
  const plain = { dt: since(now, before), refusal: 0 };
  if (before.week === null || now.week === null) return plain;
  const { number, dt } = library.seconds(before, now);
  return number === 0 ? { dt, refusal: 0 } : { ...plain, refusal: number };
}

function readTruth(t, columns) {
  const filled = columns && columns.some((column) => t.field(column) !== "");
  return filled ? t.floats(columns) : null;
}

// Lines S, P and C, as the line form has them.
class Pairs {
  constructor(table) {
    this.table = table;
    this.line = table.column("line");
    this.pair = table.optional("pair");
    this.heads = table.columns(["dt", "screen", "sigma_a", "sigma_b", "huber", "mask"]);
    this.rounds = table.column("rounds");
    this.truth = table.optionals(["true_dx", "true_dy", "true_dz"]);
    this.carriers = new Carriers(table);
    this.ahead = null;
    this.count = 0;
  }

  head() {
    const t = this.table;
    this.count += 1;
    const name = (this.pair === undefined ? "" : t.field(this.pair)) || String(this.count);
    const dt = t.float(this.heads[0]);
    const at = t.floats(this.carriers.place);
    const settings = [...t.floats(this.heads.slice(1)), t.whole(this.rounds, U32)];
    const truth = readTruth(t, this.truth);
    // A NaN other than the default one is written with its bits.
    const field = t.field(this.heads[0]);
    const own = field.startsWith("NaN:") && field !== "NaN:7FF8000000000000" ? field : written(dt);
    return { name, fields: `,,${name},${own}`, dt, refusal: 0, at, settings, previous: [], current: [], truth, pulses: 0 };
  }

  // Returns the next pair of epochs, or null at the end of the file.
  next() {
    const t = this.table;
    while (t.next()) {
      const kind = t.field(this.line);
      if (kind === "S") {
        const done = this.ahead;
        this.ahead = this.head();
        if (done) return done;
        continue;
      }
      if (kind !== "P" && kind !== "C") throw t.faultIn(this.line, "is not S, P or C");
      const carrier = this.carriers.read(t);
      if (!this.ahead) throw t.faultIn(this.line, "no line S comes before it");
      const { previous, current } = this.ahead;
      // The library refuses epochs of more than 64 carriers anyway.
      if (previous.length + current.length < 300) (kind === "P" ? previous : current).push(carrier);
    }
    const done = this.ahead;
    this.ahead = null;
    return done;
  }
}
