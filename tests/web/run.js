// Compares the page with the command: node tests/web/run.js PAGE.html COMMAND [DRIVER]
// In node, the page's own worker answers examples and bad files; with DRIVER, a chromedriver, the page itself answers in Chromium.
"use strict";
const fs = require("fs");
const os = require("os");
const path = require("path");
const { spawnSync } = require("child_process");
const { browse } = require("./browser.js");
const [page, command, driver] = process.argv.slice(2);
const drives = ["examples/drive/drive.csv", "examples/month/halle-03-2026-11-03.csv"];
const month = fs.readdirSync("examples/month").filter((name) => /-2026-.*\.csv$/.test(name)).map((name) => `examples/month/${name}`);
const options = { perKm: 8000, receiver: "phone", wrap: null, at: null, strangers: false };
let failed = 0;

function check(what, fine) {
  if (!fine) {
    failed += 1;
    console.log(`not as expected: ${what}`);
  }
}

// What the command writes to standard output, whatever its exit status.
function said(...words) {
  return spawnSync(command, words, { encoding: "utf8", maxBuffer: 1 << 30 });
}

function part(id) {
  const html = fs.readFileSync(page, "utf8");
  return html.match(new RegExp(`<script type="text/plain" id="${id}">\\n([^]*?)\\n</script>`))[1];
}

// The page's worker in node.
function loaded() {
  const names = ["answerFile", "errorWords", "Library", "written", "readFloat", "WHY", "KNOWN"];
  const own = new Function(`${part("worker")}\nreturn { ${names.join(", ")} };`)();
  const wasm = Buffer.from(part("wasm").replace(/\s+/g, ""), "base64");
  const library = new own.Library(new WebAssembly.Instance(new WebAssembly.Module(wasm), {}).exports);
  const answer = (file, more) => {
    const bytes = fs.readFileSync(file);
    const source = { name: file, size: bytes.length, read: (from, to) => bytes.subarray(from, to) };
    try {
      return own.answerFile(library, source, { ...options, ...more }, () => {});
    } catch (e) {
      return { fault: own.errorWords(file, e) };
    }
  };
  return { ...own, answer };
}

function compareDrives(answer) {
  for (const file of [...drives, ...month]) {
    const own = answer(file);
    check(`displacements of ${file}`, own.csv === said("displacement", "--csv", file).stdout);
    check(`words of ${file}`, own.rows.map(({ name, words }) => `${name}: ${words}\n`).join("") === said("displacement", file).stdout);
    const trip = said("trip", "--pulses-per-km", "8000", file);
    if (own.drive.fault === null) check(`totals of ${file}`, `${own.drive.words}\n` === trip.stdout);
    else check(`fault of ${file}`, `zaqnuti: ${own.drive.fault}\n` === trip.stderr);
  }
  const geodetic = answer("examples/geonet/rover.csv", { receiver: "geodetic", at: [-3976219.5082, 3382372.5671, 3652512.9849] });
  const words = ["--receiver", "geodetic", "--at=-3976219.5082,3382372.5671,3652512.9849", "examples/geonet/rover.csv"];
  check("displacements of examples/geonet", geodetic.csv === said("displacement", "--csv", ...words).stdout);
}

// Files that are wrong in one way each, made from a good one.
function badFiles() {
  const lines = fs.readFileSync("examples/month/halle-03-2026-11-03.csv", "utf8").split("\n").slice(0, 60);
  const pairs = fs.readFileSync("examples/drive/drive.csv", "utf8").split("\n").slice(0, 60);
  const joined = (list) => `${list.join("\n")}\n`;
  const edit = (row, column, field, from = lines) => {
    const names = from[0].split(",");
    return joined(from.map((line, i) => (i === row ? line.split(",").map((f, k) => (names[k] === column ? field : f)).join(",") : line)));
  };
  const header = (old, now) => joined([lines[0].replace(old, now), ...lines.slice(1)]);
  return [
    "", "\n", joined(lines.slice(0, 1)), joined(lines.slice(0, 8)), header("elevation", "elevaton"), header("svid", "band"), header("rate,", ""), header("rx,ry,rz", "vx,vy,vz"),
    header("adr", "pseudorange"), header("tow", "clock"), header("week,tow", " week , tow "), `\ufeff${joined(lines)}`, joined(lines).replace(/\n/g, "\r\n"),
    edit(3, "adr", "far"), edit(3, "adr", ""), edit(3, "adr", "0x10"), edit(3, "adr", "1_0"), edit(3, "adr", "."), edit(3, "adr", "+.5e+3"), edit(3, "adr", "NaN:7FF8000000000001"),
    edit(3, "adr", "NaN:7FF0000000000000"), edit(3, "adr", "-inf"), edit(3, "adr", "nan"), edit(3, "x", 'a"b\\c\u0007\u00a0d'), edit(3, "x", "y".repeat(60)), edit(4, "svid", "65536"),
    edit(4, "svid", "-1"), edit(4, "svid", "+7"), edit(4, "svid", "\u00a07\u0085"), edit(4, "constellation", "256"), edit(4, "band", "4294967296"), edit(4, "tow", "inf"), edit(4, "week", "x"),
    edit(4, "week", ""), edit(20, "tow", "100"), edit(20, "week", "15001"), edit(20, "tow", "604800"), edit(1, "rx", ""), edit(5, "odometer", "7"), edit(5, "odometer", ""), edit(25, "odometer", "1"),
    joined([...lines.slice(0, 9), "1,2,3", ...lines.slice(9)]), joined([...lines.slice(0, 9), "z".repeat(65537)]), joined([...lines.slice(0, 9), " ".repeat(65536), ...lines.slice(9)]),
    Buffer.concat([Buffer.from(joined(lines.slice(0, 9))), Buffer.from([0xff, 0x0a])]), joined(lines).trimEnd(),
    edit(2, "line", "Q", pairs), edit(1, "line", "P", pairs), edit(1, "dt", "NaN:FFF8000000000001", pairs), edit(1, "dt", "nan", pairs), edit(1, "rounds", "51", pairs), edit(1, "pair", "", pairs),
    edit(1, "dt", "-0", pairs), edit(1, "dt", "1e-7", pairs), edit(1, "dt", "123456789012345678", pairs), edit(1, "mask", "1e10", pairs), edit(2, "state", "-2147483649", pairs),
  ];
}

function compareBadFiles(answer) {
  const room = fs.mkdtempSync(path.join(os.tmpdir(), "zaqnuti-"));
  const files = badFiles();
  files.forEach((content, i) => {
    const file = path.join(room, `${i}.csv`);
    fs.writeFileSync(file, content);
    const [own, wanted] = [answer(file), said("displacement", "--csv", file)];
    if (own.fault !== undefined) check(`message of bad file ${i}: ${own.fault} | ${wanted.stderr}`, wanted.status === 2 && wanted.stderr === `zaqnuti: ${own.fault}\n`);
    else check(`answers of odd file ${i}: ${wanted.stderr}`, wanted.status !== 2 && wanted.stdout === own.csv);
    if (own.drive === undefined) return;
    const trip = said("trip", "--pulses-per-km", "8000", file);
    const faulty = trip.stderr.split("\n").filter((line) => line && !/ warning: /.test(line) && !/no epoch with pulses/.test(line));
    if (own.drive.fault !== null) check(`totals' message of odd file ${i}: ${own.drive.fault} | ${trip.stderr}`, faulty.join("\n") === `zaqnuti: ${own.drive.fault}`);
    else if (own.rows.length > 0) check(`totals of odd file ${i}`, trip.stdout === `${own.drive.words}\n`);
  });
  fs.rmSync(room, { recursive: true });
  return files.length;
}

// The words of refusals and the names of columns are the command's.
function compareTables({ WHY, KNOWN }) {
  const source = (file) => fs.readFileSync(`bindings/rust/src/${file}`, "utf8");
  const words = [...source("refusal.rs").matchAll(/Self::\w+ =>\s*\{?\s*"([^"]*)"/g)].map((found) => found[1]);
  check("words of refusals", words.length > 20 && String(words) === String(Object.values(WHY)));
  const names = source("bin/zaqnuti/names.rs").match(/KNOWN: &str = "([^"]*)"/)[1].split(/[\s\\]+/);
  check("names of columns", names.length > 50 && String(names.sort()) === String([...KNOWN].sort()));
}

// Decimals go to and fro as the command has them: it writes the dt of a pair that it reads.
function compareDecimals({ written, readFloat }) {
  for (const [x, text] of [[1, "1.0"], [-0, "-0.0"], [1e16, "1e16"], [1e15, "1000000000000000.0"], [1e-4, "0.0001"], [1.5e-5, "1.5e-5"], [5e-324, "5e-324"], [0.1, "0.1"], [1 / 0, "inf"]]) {
    check(`${text} is written`, written(x) === text && Object.is(readFloat(text), x));
  }
}

// A day of 28,800 epochs: one drive again and again.
function writeDay(file) {
  const [header, ...lines] = fs.readFileSync(drives[1], "utf8").trimEnd().split("\n");
  const names = header.split(",");
  const [tow, odometer] = [names.indexOf("tow"), names.indexOf("odometer")];
  const rows = lines.map((line) => line.split(","));
  const times = [...new Set(rows.map((row) => row[tow]))].map(Number);
  const counts = rows.map((row) => Number(row[odometer]));
  const [span, driven] = [times.length * (times[1] - times[0]), Math.max(...counts) - counts[0]];
  const out = [header];
  for (let epochs = 0, turn = 0; epochs <= 28800; epochs += times.length, turn += 1) {
    for (const row of rows) {
      const own = [...row];
      own[tow] = Number(row[tow]) - times[0] + turn * span;
      own[odometer] = Number(row[odometer]) + turn * driven;
      if (epochs + times.indexOf(Number(row[tow])) <= 28800) out.push(own.join(","));
    }
  }
  fs.writeFileSync(file, `${out.join("\n")}\n`);
}

async function compareInBrowser() {
  const room = fs.mkdtempSync(path.join(os.tmpdir(), "zaqnuti-"));
  const [day, bad] = [path.join(room, "day.csv"), path.join(room, "bad.csv")];
  writeDay(day);
  fs.writeFileSync(bad, "tow,x\n1,far\n");
  const files = [day, ...drives].map((file) => ({ file, csv: said("displacement", "--csv", file).stdout }));
  const fault = said("displacement", "--csv", bad).stderr.replace("zaqnuti: ", "").replace(bad, "bad.csv").trimEnd();
  await browse(driver, page, files, { file: bad, fault }, check).finally(() => fs.rmSync(room, { recursive: true }));
}

async function main() {
  const own = loaded();
  compareDecimals(own);
  compareTables(own);
  compareDrives(own.answer);
  const bad = compareBadFiles(own.answer);
  if (failed === 0) console.log(`node: the displacements and totals of ${drives.length + month.length - 1} drives and the messages of ${bad} odd files are the command's`);
  if (driver) await compareInBrowser();
  else console.log("skipped: the page in Chromium (chromium and chromedriver are needed)");
  process.exitCode = failed === 0 ? 0 : 1;
}

main().catch((e) => {
  console.error(e);
  process.exitCode = 1;
});
