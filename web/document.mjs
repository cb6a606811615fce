// The part of the page about one document: its verdict, the place of its fault, queries about it, and their answers.
import { apart, button, foreign, make, nameFor, save } from "./elements.mjs";
import { Stopped } from "./runner.mjs";
import { verdictName } from "./table.mjs";
import { counted, MANY, placeOf, verdictOf } from "./verdict.mjs";
import { block } from "./view.mjs";

const QUERIES = [
  ["dates", "Dates", "Times by the calendar"],
  ["links", "Links", "Links in words"],
  ["solve", "Timeline or clash", "A timeline that fits, or a clash"],
  ["matrix", "Picture", "A picture of what is so in every timeline"],
  ["reduce", "Redundant links", "Links that follow from the others"],
  ["seconds", "Whole seconds", "A placing in whole seconds"],
];
/** The command, the text of its button, and the heading of its answer. */

/** One document, in a section of the page. */
export class DocumentView {
  #section;
  #runner;
  #tables;
  #onedit;
  #title = make("h2", { id: "document-title", tabindex: -1 });
  #body = make("div");
  #answer = make("div", { id: "answer", role: "region", "aria-label": "Answer" });
  #said = make("p", { class: "unseen", role: "status" });
  #turn = 0;
  #document = null;

  /** By what runs tasks, what the page knows of faults and relations, and what is done with a document that somebody wants to edit. */
  constructor(section, runner, tables, onedit) {
    [this.#section, this.#runner, this.#tables, this.#onedit] = [section, runner, tables, onedit];
    section.append(this.#title, this.#body, this.#said, this.#answer);
  }

  /** The document that is shown. */
  get document() {
    return this.#document;
  }

  /** Shows another document, and answers once its verdict is there. */
  async show(document, hasFocus = false) {
    this.#document = document;
    this.#section.hidden = false;
    this.#title.replaceChildren(foreign(document.name));
    this.#answer.replaceChildren();
    if (hasFocus) this.#title.focus();
    const found = await this.#run(this.#body, "The document is checked …", "look", {});
    if (!found) return null;
    this.#body.replaceChildren(...this.#about(found));
    this.#said.textContent = this.#body.firstChild.textContent;
    return found.verdict;
  }

  /** Has evidence checked against the document, and shows and answers what tml says of it. */
  judge({ name, file }) {
    return this.#query(["Evidence: ", foreign(name)], "judge", { evidence: file }, "evidence");
  }

  /** The result of a task about the document, or null if it was stopped, has failed or is no longer wanted. */
  async #run(place, busy, task, given) {
    if (this.#runner.isBusy) this.#runner.stop();
    const turn = ++this.#turn;
    const { key, file } = this.#document;
    place.replaceChildren(make("p", {}, `${busy} `, button("Stop", () => this.#runner.stop(), { class: "stop" })));
    try {
      const found = await this.#runner.run(task, { key, file, ...given });
      return turn === this.#turn ? found : null;
    } catch (error) {
      if (turn === this.#turn) place.replaceChildren(make("p", { class: "failed" }, error instanceof Stopped ? "Stopped." : error.message));
      return null;
    }
  }

  /** Has a task done, and shows the answer. */
  async #query(title, task, given, ending) {
    const found = await this.#run(this.#answer, "tml is at work …", task, given);
    if (!found) return null;
    const saving = found.evidence && this.#saving(found.evidence, ending);
    this.#answer.replaceChildren(make("h3", {}, title), ...found.blocks.map(block), ...(saving ? [saving] : []));
    this.#answer.firstChild.scrollIntoView({ block: "nearest" });
    this.#said.textContent = this.#answer.querySelector("p")?.textContent ?? this.#answer.firstChild.textContent;
    return found;
  }

  #saving(evidence, ending) {
    const name = nameFor(this.#document.name, ending);
    const click = () => save(name, "text/plain", evidence);
    const how = " Whoever has the document can check it, here or with tml-verify.";
    return make("p", {}, button("Save evidence", click), make("span", { class: "soft" }, how));
  }

  /** What is known of the document. */
  #about({ verdict, lines, intervals, links }) {
    const edit = make("p", { class: "buttons" }, button("Edit this document", () => this.#onedit(this.#document), { id: "edit" }));
    const said = verdictOf(verdict, this.#tables.faults);
    if (verdict.kind === "fault") return [...said, ...placeOf(verdict, lines), edit];
    if (verdict.kind !== "accepted") return said;
    const others = ["Whether its links contradict each other, ", make("b", {}, "Timeline or clash"), " answers."];
    return [...said, links > 0 ? make("p", {}, others) : "", this.#queries(), this.#pairs(intervals), edit];
  }

  #queries() {
    const buttons = QUERIES.map(([command, text, title]) => {
      const ending = command === "seconds" ? "seconds" : "evidence";
      return button(text, () => this.#query(title, "query", { command, args: [] }, ending), { "data-command": command });
    });
    const file = make("input", { type: "file", id: "evidence", hidden: true, "aria-label": "Evidence" });
    file.addEventListener("change", () => {
      if (file.files[0]) this.judge({ name: file.files[0].name, file: file.files[0] });
      file.value = "";
    });
    const check = button("Check evidence …", () => file.click(), { "data-command": "verify" });
    return make("fieldset", {}, make("legend", {}, "Queries"), make("div", { class: "buttons" }, buttons, check, file));
  }

  /** Queries about two intervals. */
  #pairs(intervals) {
    if (intervals.length === 0) return make("p", {}, "It has no instances and no times, so there are no two that can be compared.");
    const options = () => intervals.map(({ name, text }) => make("option", { value: name }, text ? `${apart(text)} (${name})` : name));
    const [first, second] = ["first", "second"].map((id) => make("select", { id }, options()));
    second.selectedIndex = Math.min(1, intervals.length - 1);
    const relation = make("select", { id: "relation" }, Object.keys(this.#tables.orders).map((name) => make("option", {}, name)));
    const show = (command, title, args) => this.#query(title, "query", { command, args }, "evidence");
    const holds = () => show("ask", "Does it hold?", [first.value, relation.value, second.value]);
    const possible = () => show("possible", "What is possible?", [first.value, second.value]);
    const labelled = [["First", first], ["Relation", relation], ["Second", second]].map(([text, field]) => make("label", {}, text, field));
    const buttons = [
      button("Does it hold?", holds, { "data-command": "ask" }),
      button("What is possible?", possible, { "data-command": "possible" }),
    ];
    return make("fieldset", {}, make("legend", {}, "Two intervals"), make("div", { class: "query" }, labelled, buttons));
  }
}

/** How many documents have which verdict, in one sentence. */
export function summary(documents) {
  const counts = new Map();
  for (const { verdict } of documents) counts.set(verdictName(verdict), (counts.get(verdictName(verdict)) ?? 0) + 1);
  const parts = [...counts].map(([name, count]) => `${MANY.format(count)} ${name === "fault" ? "with a fault" : name}`);
  return `${counted(documents.length, "document")}: ${parts.join(", ")}.`;
}
