// Processes a file, in a worker of the page or, for the test, in node.

const HEADER = "week,tow,pair,dt,dx,dy,dz,used,screened,refusal";
const PHONE = [0.5, 0.008, 0.002, 1.5, 10, 4];
const GEODETIC = [2, 0.008, 0.002, 1.5, 10, 4];

// Describes a displacement.
function movedWords({ delta, used, screened }) {
  const length = Math.sqrt(delta[0] * delta[0] + delta[1] * delta[1] + delta[2] * delta[2]);
  return `${delta.map(metres).join(" ")} m, ${metres(length)} m in all; ${used} used, ${screened} screened`;
}

// Formats a line of the displacement CSV.
function line(pair, moved) {
  if (moved.refusal !== 0) return `${pair.fields},,,,,,${moved.refusal}`;
  return `${pair.fields},${moved.delta.map(written).join(",")},${moved.used},${moved.screened},0`;
}

// Returns the drive's figures, and the line that `zaqnuti trip` prints.
function driveSummary(name, totals, meter, perKm) {
  const sums = totals.sums();
  const [epochs, refused, aside, counted, covered, standing, pulses] = sums.totals;
  const lost = meter.fault === null ? meter.lost(perKm) : null;
  const known = meter.fault === null && lost === null;
  const coverage = known && pulses > 0n ? Number(covered) / Number(pulses) : null;
  const distance = known ? sums.distance : null;
  const far = distance !== null && coverage !== null ? `${kilometres(distance)} km, coverage ${(100 * coverage).toFixed(2)} %` : "no distance";
  const tally = totals.refused.total === 0 ? "none refused" : `${totals.refused.total} refused (${totals.refused.words})`;
  const words = `${name}: ${far}; ${epochs} epochs, ${tally}, ${aside} set aside; carrier ${kilometres(sums.carrier)} km, odometer ${kilometres(sums.odometer)} km`;
  const { carrier, odometer, greatest, reached, trips } = sums;
  return {
    words, fault: meter.fault, lost, coverage, distance, epochs, refused, aside, counted, covered, standing, pulses,
    carrier, odometer, greatest, reached, trips, gap: meter.intervals.missing(), tally: totals.refused.words,
  };
}

// The path relative to its start. After a refusal it continues from the true position if known, else from the last one.
class Path {
  constructor(library) {
    Object.assign(this, { library, start: null, at: [0, 0], trueAt: [0, 0], points: [0, 0], truth: [] });
  }

  parts(delta) {
    const ned = this.library.compass(this.start, delta);
    return ned === null ? [0, 0] : [ned[1], ned[0]];
  }

  // Adds the displacement of a pair.
  add(pair, moved) {
    this.start = this.start || pair.at;
    if (pair.truth) {
      const [east, north] = this.parts(pair.truth);
      this.trueAt = [this.trueAt[0] + east, this.trueAt[1] + north];
      if (this.truth.length === 0) this.truth.push(0, 0);
      this.truth.push(...this.trueAt);
    }
    if (moved.refusal === 0) {
      const [east, north] = this.parts(moved.delta);
      this.at = [this.at[0] + east, this.at[1] + north];
    } else if (pair.truth) {
      this.at = [...this.trueAt];
    }
    this.points.push(...this.at);
  }
}

// Computes every displacement of a file. `tell` is called with the bytes read so far.
function answerFile(library, source, options, tell) {
  const table = new Table(source, options.strangers);
  const meter = new Meter(table, options.wrap);
  const settings = options.receiver === "geodetic" ? GEODETIC : PHONE;
  const pairs = table.optional("line") === undefined ? new Series(table, { at: options.at, settings }, meter) : new Pairs(table);
  const totals = new Totals(library, options.perKm, 0.2);
  const path = new Path(library);
  const [rows, csv, tally] = [[], [HEADER], new Tally()];
  for (let pair = pairs.next(library); pair !== null; pair = pairs.next(library)) {
    const moved = library.solve(pair);
    const taken = totals.add(moved, pair.pulses);
    csv.push(line(pair, moved));
    path.add(pair, moved);
    if (moved.refusal !== 0) tally.add(moved.refusal);
    const error = moved.unrated === 0 ? moved.pdop * Math.max(moved.chi, 1) * 0.01 : null;
    rows.push({
      name: pair.name, refusal: moved.refusal, error, aside: taken === 0 && !(error < 0.2), pulses: pair.pulses,
      words: moved.refusal === 0 ? movedWords(moved) : refusedWords(moved.refusal),
    });
    if (rows.length % 256 === 0) tell(table.lines.at);
  }
  const warning = rows.length === 0 ? `${source.name}: has no pair of epochs` : null;
  const drive = driveSummary(source.name, totals, meter, options.perKm);
  return { name: source.name, csv: csv.join("\n") + "\n", rows, points: path.points, truth: path.truth, drive, warning, refused: { total: tally.total, words: tally.words } };
}

// Describes an error that ends a run.
function errorWords(name, e) {
  if (e instanceof Fault) return e.message;
  if (e instanceof RangeError || /memory|allocat/i.test(String(e))) return `${name}: is too large for this browser's memory; the command zaqnuti reads it line by line`;
  return `${name}: ${e && e.message ? e.message : e}`;
}

if (typeof FileReaderSync === "function") {
  self.onmessage = ({ data: { wasm, file, options } }) => {
    const reader = new FileReaderSync();
    const source = { name: file.name, size: file.size, read: (from, to) => new Uint8Array(reader.readAsArrayBuffer(file.slice(from, to))) };
    try {
      const library = new Library(new WebAssembly.Instance(new WebAssembly.Module(wasm), {}).exports);
      const answer = answerFile(library, source, options, (done) => self.postMessage({ done }));
      self.postMessage({ answer });
    } catch (e) {
      self.postMessage({ fault: errorWords(file.name, e) });
    }
  };
}
