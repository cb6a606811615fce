// The table of many documents: it sorts, filters, shows a hundred rows at a time, and is saved as CSV and as JSON.
import { button, foreign, make, save } from "./elements.mjs";

const ROWS = 100;
const FORMULA = /^[=+\-@\u2212\uff1d\uff0b\uff0d\uff20\t\r]/;
/** With what a cell may begin that a spreadsheet takes for a formula. */

const byText = new Intl.Collator("en", { numeric: true });
const COLUMNS = [
  ["document", ({ name }) => name],
  ["verdict", ({ verdict }) => verdictName(verdict)],
  ["fault", ({ verdict }) => (verdict?.kind === "fault" ? `${verdict.number} ${verdict.name}` : "")],
  ["line", ({ verdict }) => verdict?.line ?? null],
  ["column", ({ verdict }) => verdict?.column ?? null],
  ["bytes", ({ verdict }) => verdict?.size ?? null],
  ["events", ({ verdict }) => verdict?.counts?.events ?? null],
  ["times", ({ verdict }) => verdict?.counts?.timex ?? null],
  ["links", ({ verdict }) => verdict?.counts?.tlinks ?? null],
];

/** A verdict in a word or two. */
export function verdictName(verdict) {
  if (!verdict) return "not yet checked";
  return { unreadable: "cannot be read" }[verdict.kind] ?? verdict.kind;
}

/** The table, in a section of the page. */
export class VerdictTable {
  #onchoose;
  #documents = [];
  #column = 0;
  #direction = 1;
  #first = 0;
  #search = make("input", { type: "search", id: "search", autocomplete: "off", oninput: () => this.#restart() });
  #verdict = make("select", { id: "verdict", onchange: () => this.#restart() });
  #head = make("tr");
  #body = make("tbody");
  #count = make("span", { role: "status" });
  #previous = button("Previous", () => this.#turn(-ROWS));
  #next = button("Next", () => this.#turn(ROWS));

  /** In a section; `onchoose` is given the key of the document that somebody chooses. */
  constructor(section, onchoose) {
    this.#onchoose = onchoose;
    const labels = [make("label", { for: "search" }, "Name or fault has "), make("label", { for: "verdict" }, "Verdict ")];
    const filters = [labels[0], this.#search, " ", labels[1], this.#verdict];
    const exports = [button("Save as CSV", () => this.#saveCsv()), " ", button("Save as JSON", () => this.#saveJson())];
    const caption = make("caption", {}, "Verdicts of tml check");
    const all = make("table", { id: "verdicts" }, caption, make("thead", {}, this.#head), this.#body);
    section.append(
      make("p", { class: "filters" }, filters),
      make("div", { class: "wide", tabindex: 0, role: "region", "aria-label": "Table of verdicts" }, all),
      make("p", { class: "buttons" }, this.#previous, " ", this.#count, " ", this.#next, " ", exports),
    );
    this.#body.addEventListener("keydown", (event) => this.#move(event));
  }

  /** Shows the documents as they are now. */
  show(documents) {
    this.#documents = documents;
    this.#offer();
    this.#draw();
  }

  /** The documents that the filters let through, sorted. */
  #rows() {
    const [wanted, verdict, value] = [this.#search.value.toLowerCase(), this.#verdict.value, COLUMNS[this.#column][1]];
    const [named, judged, faulty] = COLUMNS.map(([, of]) => of);
    const found = this.#documents.filter(
      (one) => (!wanted || `${named(one)}\n${faulty(one)}`.toLowerCase().includes(wanted)) && (!verdict || judged(one) === verdict),
    );
    const keyed = found.map((one) => [value(one), one]);
    return keyed.sort(([one], [other]) => ordered(one, other, this.#direction)).map(([, one]) => one);
  }

  /** Offers the verdicts that there are. */
  #offer() {
    const counts = new Map();
    for (const { verdict } of this.#documents) counts.set(verdictName(verdict), (counts.get(verdictName(verdict)) ?? 0) + 1);
    const chosen = this.#verdict.value;
    const options = [...counts].map(([name, count]) => make("option", { value: name }, `${name} (${count})`));
    this.#verdict.replaceChildren(make("option", { value: "" }, "all"), ...options);
    this.#verdict.value = counts.has(chosen) ? chosen : "";
  }

  #draw() {
    const rows = this.#rows();
    this.#first = Math.max(0, Math.min(this.#first, Math.floor((rows.length - 1) / ROWS) * ROWS));
    const last = Math.min(this.#first + ROWS, rows.length);
    const focused = this.#body.contains(document.activeElement) ? document.activeElement.dataset.key : this.#column;
    const isHead = this.#head.contains(document.activeElement);
    this.#head.replaceChildren(...COLUMNS.map(([name], index) => this.#heading(name, index)));
    this.#body.replaceChildren(...rows.slice(this.#first, last).map((one, index) => this.#row(one, index)));
    this.#count.textContent = rows.length > 0 ? `${this.#first + 1} to ${last} of ${rows.length}` : "none";
    [this.#previous.disabled, this.#next.disabled] = [this.#first === 0, last === rows.length];
    if (isHead) this.#head.children[focused]?.firstChild.focus();
    else if (focused !== this.#column) this.#body.querySelector(`[data-key="${focused}"]`)?.focus();
  }

  #heading(name, index) {
    const sort = index === this.#column && (this.#direction > 0 ? "ascending" : "descending");
    return make("th", { scope: "col", "aria-sort": sort }, button(name, () => this.#sort(index)));
  }

  #row(one, index) {
    const choose = () => this.#onchoose(one.key);
    const named = button("", choose, { class: "name", tabindex: index === 0 ? 0 : -1, "data-key": one.key });
    named.append(foreign(one.name));
    const cells = COLUMNS.slice(1).map(([, value]) => cell(value(one)));
    cells[0].className = `verdict ${one.verdict?.kind === "accepted" ? "good" : one.verdict ? "wrong" : ""}`;
    return make("tr", {}, make("th", { scope: "row" }, named), cells);
  }

  #restart() {
    this.#first = 0;
    this.#draw();
  }

  #turn(count) {
    this.#first += count;
    this.#draw();
  }

  #sort(index) {
    this.#direction = index === this.#column ? -this.#direction : 1;
    this.#column = index;
    this.#restart();
  }

  /** Arrow keys go from row to row, so that the table is one stop of the tabulator. */
  #move(event) {
    const names = [...this.#body.querySelectorAll(".name")];
    const now = names.indexOf(document.activeElement);
    const then = { ArrowDown: now + 1, ArrowUp: now - 1, Home: 0, End: names.length - 1 }[event.key];
    if (now < 0 || names[then] === undefined) return;
    event.preventDefault();
    names[now].tabIndex = -1;
    names[then].tabIndex = 0;
    names[then].focus();
  }

  #saveCsv() {
    const lines = [COLUMNS.map(([name]) => name), ...this.#rows().map((one) => COLUMNS.map(([, value]) => value(one) ?? ""))];
    save("verdicts.csv", "text/csv", `${lines.map((cells) => cells.map(quoted).join(",")).join("\r\n")}\r\n`);
  }

  #saveJson() {
    const cells = (one) => COLUMNS.map(([name, value]) => [name, value(one) === "" ? null : value(one)]);
    const rows = this.#rows().map((one) => Object.fromEntries(cells(one)));
    save("verdicts.json", "application/json", `${JSON.stringify(rows, null, 1)}\n`);
  }
}

/** A cell of the table. */
function cell(value) {
  return make("td", { class: typeof value === "number" && "number" }, String(value ?? ""));
}

/** Which of two values comes first; those that are not there come last. */
function ordered(one, other, direction) {
  if (one === null || other === null) return Number(one === null) - Number(other === null);
  return direction * (typeof one === "number" ? one - other : byText.compare(one, other));
}

/** A cell of CSV, which no spreadsheet takes for a formula. */
function quoted(value) {
  const text = typeof value === "string" && FORMULA.test(value) ? `'${value}` : String(value);
  return /[",\r\n]/.test(text) ? `"${text.replaceAll('"', '""')}"` : text;
}
