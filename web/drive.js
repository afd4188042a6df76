// A drive's odometer, the gaps between its rows, and its totals.

// The most pulses of an epoch, and epochs of a trip.
const PULSES = 65535n;
const EPOCHS = 65535;
// A speed that no van reaches, m/s.
const FASTEST = 70;

// The odometer in the drive's own rows. Its faults spoil the drive's totals and not the displacements.
class Meter {
  constructor(table, wrap) {
    this.fault = null;
    this.wrap = wrap;
    this.total = 0n;
    this.last = null;
    this.intervals = new Intervals();
    const [count, pulses] = [table.optional("odometer"), table.optional("pulses")];
    this.running = count !== undefined;
    this.column = this.running ? count : pulses;
    this.most = this.running ? (wrap ? (1n << BigInt(wrap)) - 1n : U64.high) : PULSES;
    const { name } = table;
    if (table.optional("line") !== undefined) this.fault = `${name}:1: line: a drive is a series of epochs; lines S, P and C have no times`;
    else if (this.column === undefined) this.fault = `${name}:1: the column "odometer" or "pulses" is missing; or give --odometer FILE`;
    else if (this.running && pulses !== undefined) this.fault = `${name}:1: odometer: the columns odometer and pulses; an odometer has one form only`;
    else if (!this.running && wrap) this.fault = `--wrap: ${name} has pulses, which do not wrap`;
  }

  // Runs a step, unless an earlier one failed, and records its fault.
  keeping(step) {
    if (this.fault !== null) return null;
    try {
      return step();
    } catch (e) {
      if (!(e instanceof Fault)) throw e;
      this.fault = e.message;
      return null;
    }
  }

  read(t) {
    const x = BigInt(t.whole(this.column, U64));
    if (x > this.most) throw t.faultIn(this.column, `${x} is above ${this.most}`);
    return x;
  }

  // Reads the field of an epoch's first line.
  head(t) {
    return this.keeping(() => this.read(t));
  }

  // Checks that a row of an epoch says what its first row says.
  row(t, epoch) {
    this.keeping(() => {
      const count = this.read(t);
      if (count !== epoch.count) throw t.faultIn(this.column, `${count} differs from ${epoch.count} in the first row of its epoch`);
      this.name = t.name;
    });
  }

  faultAt(epoch, why) {
    return new Fault(`${this.name}:${epoch.line}: odometer: ${why}`);
  }

  // Takes the first epoch of a drive.
  first(epoch) {
    this.keeping(() => this.step(epoch));
  }

  // Returns the pulses since the previous count.
  step(epoch) {
    const { count } = epoch;
    if (!this.running) return count;
    const last = this.last === null ? count : this.last;
    this.last = count;
    const back = `runs backwards, from ${last} to ${count}`;
    if (!this.wrap) {
      if (count < last) throw this.faultAt(epoch, `${back}; if it wraps, give --wrap 16 or 32`);
      return count - last;
    }
    const size = 1n << BigInt(this.wrap);
    const step = (count + size - last) % size;
    // Half the range or more counts as a step back.
    if (step >= size / 2n) throw this.faultAt(epoch, back);
    return step;
  }

  // Returns the pulses of an epoch, 0 after a fault.
  pulses(before, now) {
    this.intervals.add(since(now.time, before.time));
    const pulses = this.keeping(() => {
      const step = this.step(now);
      if (step > PULSES) throw this.faultAt(now, `${step} pulses since the epoch before; at most ${PULSES}`);
      return step;
    });
    return Number(pulses || 0n);
  }

  // Says why pulses may be missing in a drive with gaps, or returns null.
  lost(perKm) {
    const gap = this.intervals.missing();
    const wraps = this.wrap && this.intervals.longest * FASTEST * perKm / 1000 >= 2 ** (this.wrap - 1);
    if (!(gap > 0) || (this.running && !wraps)) return null;
    return `a gap of ${fixed(gap)} s: ${this.running ? "the count may have wrapped unseen in it" : "pulses may have been lost in it"}`;
  }
}

// Intervals between rows in classes: of a millisecond up to ten seconds, of a thousandth above.
class Intervals {
  constructor() {
    this.classes = new Map();
    this.count = 0;
    this.longest = 0;
  }

  add(seconds) {
    const key = Math.max(0, seconds < 10 ? Math.trunc(seconds * 1000) : 10000 + Math.trunc(1000 * Math.log(seconds / 10)));
    const held = this.classes.get(key) || { count: 0, sum: 0 };
    held.count += 1;
    held.sum += seconds;
    this.classes.set(key, held);
    this.count += 1;
    this.longest = Math.max(this.longest, seconds);
  }

  // Returns the missing seconds: the excess over the median of each interval above 1.5 medians.
  missing() {
    const sorted = [...this.classes.entries()].sort((a, b) => a[0] - b[0]).map(([, held]) => held);
    let [below, median] = [0, 0];
    for (const held of sorted) {
      below += held.count;
      if (2 * below >= this.count) {
        median = held.sum / held.count;
        break;
      }
    }
    return sorted.reduce((sum, c) => sum + (c.sum > 1.5 * median * c.count ? c.sum - median * c.count : 0), 0);
  }
}

// Refusals by their numbers.
class Tally {
  constructor() {
    this.counts = new Map();
  }

  add(number) {
    this.counts.set(number, (this.counts.get(number) || 0) + 1);
  }

  get total() {
    return [...this.counts.values()].reduce((a, b) => a + b, 0);
  }

  // For a message: `7 ×3, 8 ×28`.
  get words() {
    return [...this.counts.entries()].sort((a, b) => a[0] - b[0]).map(([number, count]) => `${number} ×${count}`).join(", ");
  }
}

// The totals of one drive, in as many trips and mileages of the library as it needs.
class Totals {
  constructor(library, perKm, limit) {
    Object.assign(this, { library, perKm, limit, refused: new Tally(), epochs: 0, past: null });
    this.begin();
  }

  begin() {
    const number = this.library.start(this.perKm, this.limit);
    if (number !== 0) throw new Fault(`the settings are ${refusedWords(number)}`);
    this.epochs = 0;
  }

  // Adds an epoch. Returns 0, or the number that refused it.
  add(moved, pulses) {
    if (this.epochs === EPOCHS) {
      this.past = this.sums();
      this.begin();
    }
    this.epochs += 1;
    const number = this.library.add(moved, pulses);
    if (number !== 0) this.refused.add(number);
    else if (this.past) this.compare();
    return number;
  }

  // Updates the greatest difference of a drive that takes several trips.
  compare() {
    const { past, library } = this;
    const [epochs, carrier, pulses] = [1, 2, 3].map((i) => past.trip[i] + library.trip[i]);
    const odometer = pulses * 1000000n / BigInt(this.perKm);
    const apart = carrier > odometer ? carrier - odometer : odometer - carrier;
    if (apart > past.greatest || epochs === 1n) Object.assign(past, { greatest: apart, reached: epochs });
  }

  // Returns the sums of the drive so far.
  sums() {
    const { trip, report, totals, distance } = this.library.reports();
    const [carrier, odometer, greatest, reached] = report;
    if (!this.past) return { trip, carrier, odometer, greatest, reached, totals, distance, trips: 1 };
    const { past } = this;
    const both = trip.map((x, i) => x + past.trip[i]);
    const all = totals.map((x, i) => x + past.totals[i]);
    return {
      trip: both,
      carrier: both[2],
      odometer: both[3] * 1000000n / BigInt(this.perKm),
      greatest: past.greatest,
      reached: past.reached,
      totals: all,
      distance: all[4] > 0n ? all[3] * all[6] / all[4] : null,
      trips: past.trips + 1,
    };
  }
}
