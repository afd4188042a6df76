// The proved library as WebAssembly. Its lengths and counts have 64 bits: BigInt here.

const WHY = {
  1: "the text is longer than 32,768 bytes, or a line breaks the form",
  2: "there are too many records, or a buffer is too short",
  3: "a setting is not finite or above 1e9 in magnitude, or the rounds are not allowed",
  4: "a number in a record, a coordinate or a time is out of range, or a table is not sorted",
  5: "the interval is not above 0 and at most 604,800 s",
  6: "the track has no epochs or no anchor, a sigma not above 0, or an index beyond its epochs",
  7: "there are fewer than six carrier pairs",
  8: "there are fewer rows than 4 plus the clock slots",
  9: "there are more than six clock slots",
  10: "the fit fails",
  11: "the epoch's corrections do not all fit in the table",
  12: "the table gives no correction for the signal and time",
  13: "a week is above 15,000, a time of week is not in 0 to below 604,800 s, or a time is past the start of week 15,001",
  14: "chi or pdop is not finite",
  15: "the range of a satellite is zero or not finite",
  16: "a displacement is not finite or longer than 1,000 m, the trip is full, its pulse rate is 0, or it is out of its limits",
  17: "no distance was measured",
  18: "the time to drop samples before is not finite",
  19: "a coordinate or the result is not finite, or a coordinate is above 1e9 in magnitude",
  20: "the kept pairs lack GPS or Galileo",
  21: "the length of the carrier records is not a multiple of 59",
};

// Describes a refusal.
function refusedWords(number) {
  return `refused by ${number}: ${WHY[number]}`;
}

class Library {
  // Takes an instance's exports, and places the buffers behind the library's own memory.
  constructor(calls) {
    this.calls = calls;
    const { buffer } = calls.memory;
    let at = (calls.__heap_base.value + 15) & ~15;
    const lent = (kind, length) => {
      const part = new kind(buffer, at, length);
      at = (at + part.byteLength + 15) & ~15;
      return part;
    };
    const epoch = () => ({
      constellation: lent(Uint8Array, RECORDS),
      svid: lent(Uint16Array, RECORDS),
      band: lent(Uint32Array, RECORDS),
      state: lent(Int32Array, RECORDS),
      floats: lent(Float64Array, 6 * RECORDS),
    });
    Object.assign(this, { previous: epoch(), current: epoch() });
    Object.assign(this, { receiver: lent(Float64Array, 3), settings: lent(Float64Array, 5), delta: lent(Float64Array, 3), quality: lent(Float64Array, 2) });
    Object.assign(this, { counts: lent(BigUint64Array, 2), nanos: lent(BigUint64Array, 2), interval: lent(Float64Array, 1), ned: lent(Float64Array, 3) });
    Object.assign(this, { trip: lent(BigUint64Array, 6), report: lent(BigUint64Array, 4), mileage: lent(BigUint64Array, 10), totals: lent(BigUint64Array, 7) });
    this.distance = lent(BigUint64Array, 1);
  }

  // Copies an epoch's carriers into its columns. Returns the arguments that pass them to a call.
  lend(columns, rows) {
    rows.slice(0, RECORDS).forEach((row, i) => {
      columns.constellation[i] = row.constellation;
      columns.svid[i] = row.svid;
      columns.band[i] = row.band;
      columns.state[i] = row.state;
      columns.floats.set(row.floats, 6 * i);
    });
    const { constellation, svid, band, state, floats } = columns;
    return [...[constellation, svid, band, state, floats].flatMap((c) => [c.byteOffset, BigInt(c.length)]), BigInt(rows.length)];
  }

  // Computes the displacement of a pair of epochs. `refusal` is the number of zaqnuti_displacement, `unrated` that of zaqnuti_displacement_rated.
  solve(pair) {
    if (pair.refusal !== 0) return { refusal: pair.refusal, unrated: pair.refusal };
    this.receiver.set(pair.at);
    this.settings.set(pair.settings.slice(0, 5));
    const lent = [...this.lend(this.previous, pair.previous), ...this.lend(this.current, pair.current)];
    const asked = [...lent, pair.dt, this.receiver.byteOffset, this.settings.byteOffset, BigInt(pair.settings[5]), this.delta.byteOffset];
    const unrated = this.calls.zaqnuti_displacement_rated(...asked, this.quality.byteOffset, this.counts.byteOffset);
    const refusal = unrated === 10 || unrated === 14 ? this.calls.zaqnuti_displacement(...asked, this.counts.byteOffset) : unrated;
    if (refusal !== 0) return { refusal, unrated };
    const [chi, pdop] = unrated === 0 ? this.quality : [NaN, NaN];
    return { refusal, unrated, delta: [...this.delta], chi, pdop, used: Number(this.counts[0]), screened: Number(this.counts[1]) };
  }

  // Returns the seconds between two times with weeks.
  seconds(before, now) {
    const { nanos, interval, calls } = this;
    const place = nanos.byteOffset;
    const number = calls.zaqnuti_time(before.week, before.tow, place) || calls.zaqnuti_time(now.week, now.tow, place + 8) ||
      calls.zaqnuti_seconds_since(nanos[1], nanos[0], interval.byteOffset);
    return { number, dt: interval[0] };
  }

  // Returns a displacement as north, east and down at a place, or null if it is refused.
  compass(place, delta) {
    this.receiver.set(place);
    this.delta.set(delta);
    const number = this.calls.zaqnuti_north_east_down(this.receiver.byteOffset, this.delta.byteOffset, this.ned.byteOffset);
    return number === 0 ? [...this.ned] : null;
  }

  // Starts a trip and a mileage.
  start(perKm, limit) {
    return this.calls.zaqnuti_trip_start(perKm, this.trip.byteOffset) || this.calls.zaqnuti_mileage_start(limit, this.mileage.byteOffset);
  }

  // Adds an epoch to both. Returns 0, or the number that refused the epoch.
  add(moved, pulses) {
    let number = moved.unrated;
    if (number === 0) {
      this.delta.set(moved.delta);
      this.quality.set([moved.chi, moved.pdop]);
      number = this.calls.zaqnuti_trip_add(this.trip.byteOffset, this.delta.byteOffset, pulses);
    }
    const failed = this.calls.zaqnuti_mileage_add(this.mileage.byteOffset, number, this.delta.byteOffset, this.quality.byteOffset, pulses);
    if (failed !== 0) throw new Fault(`the drive's totals are ${refusedWords(failed)}`);
    return number;
  }

  // Returns the reports of both and the distance, null if no pulse was counted.
  reports() {
    const number = this.calls.zaqnuti_trip_report(this.trip.byteOffset, this.report.byteOffset) ||
      this.calls.zaqnuti_mileage_report(this.mileage.byteOffset, this.totals.byteOffset);
    if (number !== 0) throw new Fault(`the drive's totals are ${refusedWords(number)}`);
    const none = this.calls.zaqnuti_mileage_distance(this.mileage.byteOffset, this.distance.byteOffset);
    return { trip: [...this.trip], report: [...this.report], totals: [...this.totals], distance: none ? null : this.distance[0] };
  }
}
