// The page in headless Chromium, by chromedriver's own protocol.
"use strict";
const fs = require("fs");
const http = require("http");
const os = require("os");
const path = require("path");
const { spawn } = require("child_process");

// Asks the driver.
function ask(port, method, where, body) {
  return new Promise((resolve, reject) => {
    const text = body === undefined ? undefined : JSON.stringify(body);
    const headers = text === undefined ? {} : { "Content-Type": "application/json", "Content-Length": Buffer.byteLength(text) };
    const request = http.request({ host: "127.0.0.1", port, method, path: where, headers }, (answer) => {
      let out = "";
      answer.on("data", (d) => (out += d));
      answer.on("end", () => {
        const { value } = JSON.parse(out);
        if (answer.statusCode === 200) resolve(value);
        else reject(new Error(`${where}: ${value.message}`));
      });
    });
    request.on("error", reject);
    request.end(text);
  });
}

const pause = (ms) => new Promise((done) => setTimeout(done, ms));

// Starts a driver on a port of its own choice, and a browser.
async function session(driver) {
  const child = spawn(driver, ["--port=0"], { stdio: ["ignore", "pipe", "ignore"] });
  const port = await new Promise((resolve, reject) => {
    let out = "";
    child.stdout.on("data", (d) => {
      out += d;
      const found = out.match(/started successfully on port (\d+)/);
      if (found) resolve(Number(found[1]));
    });
    child.on("exit", () => reject(new Error("chromedriver ends")));
    child.on("error", reject);
  });
  const args = ["--headless=new", "--no-sandbox", "--disable-gpu", "--disable-dev-shm-usage", "--force-color-profile=srgb"];
  try {
    const { sessionId } = await ask(port, "POST", "/session", { capabilities: { alwaysMatch: { "goog:chromeOptions": { args } } } });
    const at = `/session/${sessionId}`;
    return { post: (where, body) => ask(port, "POST", at + where, body), get: (where) => ask(port, "GET", at + where), end: () => ask(port, "DELETE", at).finally(() => child.kill()) };
  } catch (e) {
    child.kill();
    throw e;
  }
}

const run = (s, script) => s.post("/execute/sync", { script, args: [] });

// Hands a file to the page's file dialog, and waits for its answer.
async function handOver(s, file) {
  await run(s, "document.body.dataset.state = ''");
  const found = await s.post("/element", { using: "css selector", value: "#file" });
  const place = path.resolve(file);
  await s.post(`/element/${Object.values(found)[0]}/value`, { text: place });
  for (let i = 0; i < 1200; i += 1) {
    const state = await run(s, "return document.body.dataset.state");
    if (state === "done" || state === "fault") return state;
    await pause(50);
  }
  return "late";
}

// Looks at the page at a width, and keeps the picture where a folder is named.
async function look(s, name, width, height) {
  // A window of Chromium has at least 500 pixels: a phone's width is set by the browser's own emulation.
  await s.post("/goog/cdp/execute", { cmd: "Emulation.setDeviceMetricsOverride", params: { width, height, deviceScaleFactor: 1, mobile: width < 500 } });
  const wide = await run(s, "return document.documentElement.scrollWidth");
  if (process.env.SCREENSHOTS) fs.writeFileSync(path.join(process.env.SCREENSHOTS, name), Buffer.from(await s.get("/screenshot"), "base64"));
  return wide <= width;
}

// Whether the file that the page's link saves comes to be a text.
async function saves(s, csv) {
  const room = fs.mkdtempSync(path.join(os.tmpdir(), "zaqnuti-"));
  try {
    await s.post("/goog/cdp/execute", { cmd: "Browser.setDownloadBehavior", params: { behavior: "allow", downloadPath: room } });
    await run(s, "document.getElementById('download').click()");
    for (let i = 0; i < 100; i += 1) {
      // The file has its name before it has all its bytes.
      const names = fs.readdirSync(room).filter((file) => file.endsWith("-displacements.csv"));
      if (names.some((name) => fs.readFileSync(path.join(room, name), "utf8") === csv)) return true;
      await pause(100);
    }
    return false;
  } finally {
    fs.rmSync(room, { recursive: true });
  }
}

// Compares one answer of the page with the command's; gives the milliseconds that it took.
async function compare(s, { file, csv }, check) {
  const state = await handOver(s, file);
  const fault = await run(s, "return document.getElementById('fault').textContent");
  check(`Chromium answers ${file}: ${state} ${fault}`, state === "done");
  check(`Chromium's displacements of ${file}`, await saves(s, csv));
  const rows = await run(s, "return document.querySelectorAll('#rows tr').length");
  check(`Chromium's epochs of ${file}`, rows === Math.min(200, csv.split("\n").length - 2));
  check("the page fits a desk", await look(s, "desk.png", 1100, 1400));
  check("the page fits a phone", await look(s, "phone.png", 390, 1600));
  return Number(await run(s, "return document.body.dataset.milliseconds"));
}

// A cancelled run shows nothing, and the page takes another file.
async function cancel(s, file, check) {
  await run(s, "document.body.dataset.state = ''");
  const found = await s.post("/element", { using: "css selector", value: "#file" });
  await s.post(`/element/${Object.values(found)[0]}/value`, { text: path.resolve(file) });
  const state = await run(s, "document.getElementById('cancel').click(); return [document.body.dataset.state, document.getElementById('result').hidden, worker === null]");
  check("Chromium cancels", String(state) === "fault,true,true");
}

// What the page cannot take, it turns away in words.
async function turnAway(s, check) {
  const fault = "return document.getElementById('fault').textContent";
  const large = await run(s, `take({ name: "year.csv", size: 2 ** 31 }); ${fault}`);
  check(`Chromium turns a large file away: ${large}`, large.startsWith("year.csv: has 2148 MB; this page takes up to 1073 MB."));
  const old = await run(s, `lacking = "lacks"; take({ name: "a.csv", size: 1 }); lacking = ""; ${fault}`);
  check(`Chromium without WebAssembly: ${old}`, old === "lacks");
}

// Compares the page's answers with the command's, a day first.
async function browse(driver, page, files, bad, check) {
  const s = await session(driver);
  try {
    await s.post("/url", { url: `file://${path.resolve(page)}` });
    check("Chromium tells of a bad file", (await handOver(s, bad.file)) === "fault" && (await run(s, "return document.getElementById('fault').textContent")) === bad.fault);
    await turnAway(s, check);
    await cancel(s, files[0].file, check);
    const [day, ...others] = files;
    const took = await compare(s, day, check);
    check(`a day takes ${took} ms`, took <= 10000);
    for (const file of others) await compare(s, file, check);
    console.log(`Chromium: the displacements of ${others.map(({ file }) => file).join(", ")} and of a day (28,800 epochs in ${took} ms) are the command's; the page fits a desk and a phone`);
  } finally {
    await s.end();
  }
}

module.exports = { browse };
