// The page: passes a file to a worker, and shows its answers.

const LARGEST = 1 << 30;
const SHOWN = 200;
const at = (id) => document.getElementById(id);
let worker = null;
let shown = null;

function say(fault) {
  at("fault").textContent = fault;
  at("fault").hidden = fault === "";
}

// Stops the worker.
function stop() {
  if (worker) worker.terminate();
  worker = null;
  at("work").hidden = true;
}

function wasmBytes() {
  const text = atob(at("wasm").textContent.replace(/\s+/g, ""));
  return Uint8Array.from(text, (c) => c.charCodeAt(0));
}

// Reads the options. Returns a fault if one of them is wrong.
function optionsOf() {
  const perKm = at("per-km").value.trim();
  if (!/^\d+$/.test(perKm) || Number(perKm) < 1 || Number(perKm) > 65535) return { fault: `--pulses-per-km: "${perKm}" is not 1 to 65535` };
  const place = at("at").value.trim();
  const parts = place.split(",").map((part) => (part.trim() === "" ? NaN : Number(part)));
  if (place !== "" && (parts.length !== 3 || parts.some(Number.isNaN))) return { fault: `--at: "${place}" is not X,Y,Z` };
  return {
    perKm: Number(perKm), receiver: at("receiver").value, wrap: Number(at("wrap").value) || null,
    at: place === "" ? null : parts, strangers: at("strangers").checked,
  };
}

// Starts work on a file.
function take(file) {
  stop();
  say("");
  at("result").hidden = true;
  document.body.dataset.state = "working";
  const options = optionsOf();
  const fault = options.fault || faultOf(file);
  if (fault) return finish(fault);
  const url = URL.createObjectURL(new Blob([at("worker").textContent], { type: "text/javascript" }));
  worker = new Worker(url);
  URL.revokeObjectURL(url);
  at("progress").value = 0;
  at("work").hidden = false;
  const began = performance.now();
  worker.onmessage = ({ data }) => {
    if (data.done !== undefined) at("progress").value = data.done / Math.max(file.size, 1);
    else if (data.fault !== undefined) finish(data.fault);
    else {
      document.body.dataset.milliseconds = Math.round(performance.now() - began);
      show(data.answer);
      finish("");
    }
  };
  worker.onerror = (e) => finish(`${file.name}: ${e.message || "the browser ends the work: there is not enough memory"}`);
  worker.postMessage({ wasm: wasmBytes(), file, options });
  return undefined;
}

// Says why the page cannot take a file, or returns "".
function faultOf(file) {
  if (lacking) return lacking;
  if (file.size > LARGEST) return `${file.name}: has ${Math.ceil(file.size / 1e6)} MB; this page takes up to ${Math.floor(LARGEST / 1e6)} MB. The command zaqnuti takes any size.`;
  return "";
}

function finish(fault) {
  stop();
  say(fault);
  // The same file may be chosen again.
  if (fault) at("file").value = "";
  document.body.dataset.state = fault ? "fault" : "done";
}

function element(name, text, kind) {
  const out = document.createElement(name);
  out.textContent = text;
  if (kind) out.className = kind;
  return out;
}

const km = (mm) => `${mm / 1000000n}.${String((mm / 1000n) % 1000n).padStart(3, "0")} km`;
const m = (mm) => `${mm / 1000n}.${String(mm % 1000n).padStart(3, "0")} m`;

// Returns the drive's figures as names and values.
function figuresOf(d) {
  const carrier = ["Carrier distance", km(d.carrier)];
  const refused = ["Epochs refused", `${d.refused} of ${d.epochs}${d.tally ? ` (${d.tally})` : ""}`];
  if (d.fault !== null) return [carrier, refused];
  return [
    ["Distance", d.distance === null ? "none" : km(d.distance)],
    ["Coverage", d.coverage === null ? "none" : `${(100 * d.coverage).toFixed(2)} %`],
    carrier,
    ["Odometer, same epochs", km(d.odometer)],
    ["Greatest difference", `${m(d.greatest)} at epoch ${d.reached}`],
    ["Pulses counted", `${d.covered} of ${d.pulses}`],
    refused,
    ["Set aside", String(d.aside)],
    ["Standing", m(d.standing)],
    ["Missing rows", `${d.gap.toFixed(3)} s`],
  ];
}

function show(answer) {
  const { drive } = answer;
  at("title").textContent = answer.name;
  const list = figuresOf(drive).map(([name, value], i) => {
    const part = element("div", "", i === 0 || (i === 1 && drive.fault === null) ? "first" : "");
    part.append(element("dt", name), element("dd", value));
    return part;
  });
  at("figures").replaceChildren(...list);
  at("words").textContent = drive.fault === null ? drive.words : "";
  const trouble = [answer.warning, drive.fault && `No distance: ${drive.fault}`, drive.lost && `${drive.lost}; no distance`].filter(Boolean).join(" ");
  at("trouble").textContent = trouble;
  at("trouble").hidden = trouble === "";
  at("legend").innerHTML = `<span class="key"></span>displacements joined end to end${answer.truth.length ? '<span class="key t"></span>truth' : ""}<span class="key c">×</span>refused`;
  if (at("download").href) URL.revokeObjectURL(at("download").href);
  at("download").href = URL.createObjectURL(new Blob([answer.csv], { type: "text/csv" }));
  at("download").download = `${answer.name.replace(/\.[^.]*$/, "")}-displacements.csv`;
  shown = { answer, from: 0 };
  at("only").checked = false;
  listEpochs();
  at("result").hidden = false;
  draw();
}

// Draws the path at the width of the page.
function draw() {
  const wide = Math.max(280, Math.min(960, at("picture").clientWidth));
  if (shown) at("picture").innerHTML = pictureOf(shown.answer, wide);
}

// Lists one page of epochs.
function listEpochs() {
  const rows = at("only").checked ? shown.answer.rows.filter((row) => row.refusal !== 0 || row.aside) : shown.answer.rows;
  shown.from = Math.max(0, Math.min(shown.from, Math.floor((rows.length - 1) / SHOWN) * SHOWN));
  const part = rows.slice(shown.from, shown.from + SHOWN);
  at("rows").replaceChildren(...part.map((row) => {
    const line = element("tr", "", row.refusal !== 0 ? "refused" : row.aside ? "aside" : "");
    const error = element("td", row.error === null ? "" : `${row.error.toFixed(3)} m`, "number");
    error.dataset.label = "predicted error";
    const pulses = element("td", shown.answer.drive.fault === null ? String(row.pulses) : "", "number");
    pulses.dataset.label = "pulses";
    line.append(element("td", row.name, "time"), element("td", row.aside ? `${row.words}; set aside` : row.words, "words"), error, pulses);
    return line;
  }));
  at("shown").textContent = rows.length === 0 ? "none" : `${shown.from + 1} to ${shown.from + part.length} of ${rows.length}`;
  at("back").disabled = shown.from === 0;
  at("on").disabled = shown.from + SHOWN >= rows.length;
}

function turn(step) {
  shown.from += step * SHOWN;
  listEpochs();
}

at("file").addEventListener("change", () => at("file").files[0] && take(at("file").files[0]));
at("cancel").addEventListener("click", () => finish("Cancelled."));
at("only").addEventListener("change", () => turn(0));
at("back").addEventListener("click", () => turn(-1));
at("on").addEventListener("click", () => turn(1));
addEventListener("resize", draw);
for (const [event, over] of [["dragover", true], ["dragleave", false], ["drop", false]]) {
  document.addEventListener(event, (e) => {
    e.preventDefault();
    at("drop").classList.toggle("over", over);
    if (event === "drop" && e.dataTransfer.files[0]) take(e.dataTransfer.files[0]);
  });
}
