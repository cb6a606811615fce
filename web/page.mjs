// The page: what is given to it becomes documents and evidence, which workers have tml judge.
import { DocumentView, summary } from "./document.mjs";
import { Editor } from "./editor.mjs";
import { button, foreign, make } from "./elements.mjs";
import { chosen, dropped, pastedFile } from "./given.mjs";
import { Runner, Stopped } from "./runner.mjs";
import { VerdictTable } from "./table.mjs";
import { counted } from "./verdict.mjs";

const LUMP = 200; // files that are handed to the worker at once
const PAUSE = 150; // milliseconds between two states of the table, at least
const SHARE = 10; // times as long as it takes to draw one

const part = (id) => document.getElementById(id);
const tables = JSON.parse(part("tables").textContent);
const module = Uint8Array.from(atob(part("module").textContent), (one) => one.charCodeAt(0));
const script = URL.createObjectURL(new Blob([part("worker").textContent], { type: "text/javascript" }));

const documents = new Map();
const evidence = [];
const queue = [];
const [checks, queries, edits] = [new Runner(startWorker), new Runner(startWorker), new Runner(startWorker)];
const table = new VerdictTable(part("table"), (key) => choose(documents.get(key), true));
const view = new DocumentView(part("document"), queries, tables, (document) => editor.open(document));
const editor = new Editor(part("write"), edits, tables.faults, () => view.document);
let [given, texts, isChecking, isDrawing, pause] = [0, 0, false, false, PAUSE];

function startWorker() {
  const worker = new Worker(script);
  worker.postMessage({ module, tables });
  return worker;
}

/** Takes some files, which are documents or evidence: their first bytes tell. */
function take(files) {
  if (files.length === 0) return;
  for (const { name, file } of files) {
    const one = { key: given++, name, file, verdict: null };
    documents.set(one.key, one);
    queue.push(one);
  }
  if (!isChecking) check();
  draw();
}

/** Has all files of the queue judged, and then shows what there is to show. */
async function check() {
  isChecking = true;
  part("stopped").hidden = true;
  const error = await emptied().then(() => null, (reason) => reason);
  isChecking = false;
  draw();
  if (error) stopped(error);
  else await settle();
}

/** Has all files of the queue judged, some at once. */
async function emptied() {
  while (queue.length > 0) {
    const files = queue.slice(0, LUMP).map(({ key, file }) => ({ key, file }));
    judged(await checks.run("check", { files }, judged));
  }
}

/** Takes verdicts, which come in the order of the queue. Evidence is no document. */
function judged(found) {
  queue.splice(0, found.length);
  for (const { key, verdict } of found) {
    const one = documents.get(key);
    one.verdict = verdict;
    if (verdict.kind !== "evidence") continue;
    documents.delete(key);
    evidence.push({ ...one, said: null });
  }
  draw();
}

/** Says why files were not judged, and offers to go on. Whatever has failed has failed with the first of them. */
function stopped(error) {
  const isWanted = error instanceof Stopped;
  if (!isWanted && queue.length > 0) judged([{ key: queue[0].key, verdict: { kind: "not judged", why: [error.message] } }]);
  const why = isWanted ? "Stopped" : error.message;
  part("stopped").hidden = false;
  part("stopped").firstElementChild.textContent = `${why}: ${counted(queue.length, "document")} not checked.`;
  part("go-on").hidden = queue.length === 0;
  part("go-on").focus();
}

/** Shows a document that is alone, and has evidence checked whose document is there. */
async function settle() {
  const waiting = evidence.filter(({ said }) => said === null);
  const only = documents.size === 1 ? [...documents.values()][0] : null;
  if (only && view.document !== only) await choose(only);
  for (const one of waiting) {
    const document = documentOf(one, only);
    if (!document) continue;
    if (view.document !== document) await choose(document);
    const found = document.verdict.kind === "accepted" ? await view.judge(one) : null;
    one.said = !found ? "not checked" : found.isRefused ? "refused" : "accepted";
    one.document = document;
  }
  drawEvidence();
}

/** The document of evidence: the one of the same name but for its ending, or the one that is alone or shown. */
function documentOf({ name }, only) {
  const stem = (path) => path.replace(/(?:\.(?:xml|tml|timeml|evidence|timeline|seconds))+$/i, "");
  const alike = [...documents.values()].find((one) => stem(one.name) === stem(name));
  return alike ?? only ?? view.document;
}

async function choose(document, hasFocus = false) {
  await view.show(document, hasFocus);
}

/** Draws the state of all documents, but not too often. */
function draw() {
  if (isDrawing) return;
  isDrawing = true;
  setTimeout(() => {
    isDrawing = false;
    const since = performance.now();
    drawNow();
    pause = Math.max(PAUSE, SHARE * (performance.now() - since));
  }, isChecking ? pause : 0);
}

function drawNow() {
  const all = [...documents.values()];
  part("checking").hidden = !isChecking;
  [part("progress").max, part("progress").value] = [given || 1, given - queue.length];
  part("summary").textContent = isChecking ? `Checking ${counted(all.length, "document")} …` : all.length > 0 ? summary(all) : "";
  part("table").hidden = all.length < 2;
  if (all.length > 1) table.show(all);
  drawEvidence();
}

function drawEvidence() {
  const lines = evidence.map(({ name, said, document, file }) => {
    const again = document && button("Show", () => choose(document).then(() => view.judge({ name, file })));
    const about = said ? [`: ${said}, for `, foreign(document.name), " ", again] : ": drop or choose its document too";
    return make("li", {}, foreign(name), about);
  });
  part("evidence-list").replaceChildren(...lines);
  part("evidence-given").hidden = lines.length === 0;
}

/** Takes what was chosen, and says so if that is nothing. */
function taken(files) {
  take(files);
  if (files.length === 0) part("summary").textContent = "This folder has no documents: their names end with .xml or .tml.";
}

/** Takes what was dropped, as it is found. */
async function takeDropped(transfer) {
  let count = 0;
  await dropped(transfer, (files) => {
    count += files.length;
    take(files);
  });
  if (count === 0) taken([]);
}

/** Says that a folder cannot be read as it was given. */
function notRead() {
  part("summary").textContent = "The browser cannot read what was dropped. Choose the files or the folder in place of dropping them.";
}

/** Takes a text as a document, which was pasted or written. */
function takeText(how, text) {
  const { file, hadHalves } = pastedFile(text);
  take([{ name: `${how} text ${++texts}${hadHalves ? " (with U+FFFD for half characters)" : ""}`, file }]);
}

for (const [name, field] of [["choose-files", "files"], ["choose-folder", "folder"]]) {
  part(name).addEventListener("click", () => part(field).click());
  part(field).addEventListener("change", () => {
    taken(chosen(part(field).files));
    part(field).value = "";
  });
}
part("example").addEventListener("click", () => take([{ name: "port.xml", file: new Blob([tables.example]) }]));
part("take-written").addEventListener("click", () => takeText("written", editor.taken()));
part("stop-checking").addEventListener("click", () => checks.stop());
part("go-on").addEventListener("click", () => check());

addEventListener("paste", (event) => {
  const isField = event.target.closest?.("textarea, input");
  const [files, text] = [chosen(event.clipboardData.files), event.clipboardData.getData("text/plain")];
  if (files.length > 0) take(files);
  else if (!isField && text) takeText("pasted", text);
  if (files.length > 0 || !isField) event.preventDefault();
});
addEventListener("dragover", (event) => {
  event.preventDefault();
  document.body.classList.add("over");
});
for (const name of ["dragleave", "drop"]) addEventListener(name, () => document.body.classList.remove("over"));
addEventListener("drop", (event) => {
  event.preventDefault();
  const text = event.dataTransfer.getData("text/plain");
  if (event.dataTransfer.types.includes("Files")) takeDropped(event.dataTransfer).catch(notRead);
  else if (text) takeText("dropped", text);
});
