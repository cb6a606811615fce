// The pane in which a document is written. What is typed is judged at each pause, and typing never waits for it.
import { button, make, nameFor, save } from "./elements.mjs";
import { textOf } from "./places.mjs";
import { Stopped } from "./runner.mjs";
import { placeOf, verdictOf } from "./verdict.mjs";

const PAUSE_OF_TYPING = 250; // milliseconds
const SLOW = 2000; // milliseconds after which an older question is stopped if there is a newer text
const LONGEST_TEXT = 1 << 20; // bytes of a document that is opened here
const AFTER_MARK = 1000; // characters after a marked stretch, so that lines are broken as in the field
const ENDING = /\.(xml|tml|timeml)$/i;
const LINE_ENDS = /\r\n|\n|\r/g;
const SAMPLE = `<TimeML>
It <EVENT eid="e1" class="OCCURRENCE">rained</EVENT> before the ships
<EVENT eid="e2" class="OCCURRENCE">left</EVENT>.
<MAKEINSTANCE eiid="ei1" eventID="e1"/>
<MAKEINSTANCE eiid="ei2" eventID="e2"/>
<TLINK lid="l1" eventInstanceID="ei1" relatedToEventInstance="ei2" relType="BEFORE"/>
</TimeML>
`;

/** The pane, in an element that is opened and closed. */
export class Editor {
  #details;
  #runner;
  #faults;
  #field;
  #layer;
  #verdict;
  #place;
  #lineEnd = "\n";
  #document; // what the pane began with: a document, or null for the sample
  #isTyped = false; // whether it has what is neither saved nor taken
  #timer = 0;
  #since = 0;
  #isBusy = false;
  #isWaiting = false;

  /** In an element; by what runs tasks, the sentences on faults, and what the page has open, if it has. */
  constructor(details, runner, faults, opened) {
    [this.#details, this.#runner, this.#faults] = [details, runner, faults];
    [this.#field, this.#layer] = ["#written", ".marks > div"].map((one) => details.querySelector(one));
    [this.#verdict, this.#place] = ["#written-verdict", "#written-place"].map((one) => details.querySelector(one));
    this.#field.addEventListener("input", () => this.#typed());
    this.#field.addEventListener("scroll", () => this.#scrolled());
    details.querySelector("#save-written").addEventListener("click", () => this.#save());
    details.addEventListener("toggle", () => {
      if (details.open && !this.#isTyped && this.#document !== opened()) this.#begin(opened());
    });
  }

  /** The text as it is saved and judged: with the line ends that the document had. */
  get #text() {
    return this.#field.value.replaceAll("\n", this.#lineEnd);
  }

  /** The text, which somebody takes for a document of the page. */
  taken() {
    this.#isTyped = false;
    return this.#text;
  }

  /** Opens a document in the pane and goes there. What somebody has typed is replaced only if they say so. */
  async open(document) {
    const isKept = this.#isTyped;
    this.#details.open = true;
    if (!isKept) await this.#begin(document);
    this.#field.focus();
    if (!isKept) return;
    const replace = button("Replace it", () => this.#begin(document).then(() => this.#field.focus()), { id: "replace-written" });
    const why = "The pane has a text that is not saved. ";
    this.#place.replaceChildren(make("p", { role: "alert" }, why, replace));
    replace.focus();
  }

  /** Begins with a document, or with a small one if there is none. */
  async #begin(document) {
    const found = document ? await textIn(document.file) : { text: SAMPLE };
    if (found.why) {
      this.#said([make("p", { class: "verdict wrong" }, found.why)], []);
      return;
    }
    [this.#document, this.#isTyped] = [document, false];
    this.#lineEnd = found.text.match(LINE_ENDS)?.[0] ?? "\n";
    this.#field.value = found.text;
    this.#field.setSelectionRange(0, 0);
    this.#judge();
  }

  /** Takes note of a change. What was marked is no longer at its place. */
  #typed() {
    this.#isTyped = true;
    this.#mark(null);
    clearTimeout(this.#timer);
    this.#timer = setTimeout(() => this.#judge(), PAUSE_OF_TYPING);
  }

  /** Has the text judged, unless an older one still is: then the newest is judged after it. */
  async #judge() {
    this.#isWaiting = this.#isBusy;
    if (this.#isBusy && performance.now() - this.#since > SLOW) this.#runner.stop();
    if (this.#isBusy) return;
    [this.#isBusy, this.#since] = [true, performance.now()];
    const [text, typed] = [this.#text, this.#field.value];
    const found = await this.#runner.run("write", { text }).catch((error) => ({ error }));
    this.#isBusy = false;
    if (this.#isWaiting) this.#judge();
    else if (typed === this.#field.value) this.#show(found);
  }

  #show({ error, verdict, lines, marked }) {
    if (error) {
      this.#said([make("p", { class: "failed" }, error instanceof Stopped ? "Stopped." : error.message)], []);
    } else if (verdict.kind !== "fault") {
      this.#said(verdictOf(verdict, this.#faults), []);
    } else {
      const go = make("p", { class: "buttons" }, button("Go to the fault", () => this.#go(marked), { id: "go-to-fault" }));
      this.#said(verdictOf(verdict, this.#faults), [...placeOf(verdict, lines), go]);
    }
    this.#mark(marked ?? null);
  }

  /** Shows a verdict and a place. A verdict that is there already is not said again. */
  #said(verdict, place) {
    const holder = make("div", {}, verdict);
    if (holder.textContent !== this.#verdict.textContent) this.#verdict.replaceChildren(...holder.childNodes);
    this.#place.replaceChildren(...place);
  }

  /** Marks a stretch of the text in the layer behind the field, whose letters are not seen. */
  #mark(stretch) {
    if (stretch === null) {
      this.#layer.replaceChildren();
      return;
    }
    const [text, [start, end]] = [this.#field.value, stretch];
    const marked = make("mark", {}, text.slice(start, end).replace(/\n$/, " \n") || " ");
    this.#layer.replaceChildren(text.slice(0, start), marked, text.slice(end, end + AFTER_MARK));
    this.#scrolled();
  }

  /** Moves the layer to where the field is. */
  #scrolled() {
    this.#layer.style.transform = `translate(${-this.#field.scrollLeft}px, ${-this.#field.scrollTop}px)`;
  }

  /** Chooses a stretch in the field. It comes into sight when the field gets the focus. */
  #go([start, end]) {
    this.#field.setSelectionRange(start, Math.max(end, start));
    this.#field.blur();
    this.#field.focus();
  }

  #save() {
    const name = this.#document?.name ?? "document.xml";
    save(nameFor(name, name.match(ENDING)?.[1] ?? "xml"), "application/xml", this.#text);
    this.#isTyped = false;
  }
}

/** The text of a file, or why it cannot be edited. */
async function textIn(file) {
  const bytes = await file.slice(0, LONGEST_TEXT + 1).arrayBuffer().then((content) => new Uint8Array(content), () => null);
  if (bytes === null) return { why: "The browser cannot read this file." };
  if (bytes.length > LONGEST_TEXT) return { why: "The document is longer than 1 MiB, which is too long for this pane." };
  const text = textOf(bytes);
  if (text.includes("\ufffd") && !isWhole(bytes)) return { why: "The document is not in UTF-8, so this pane would change it." };
  const isMixed = new Set(text.match(LINE_ENDS)).size > 1;
  return isMixed ? { why: "The document has different line ends, so this pane would change it." } : { text };
}

/** Whether bytes are UTF-8. */
function isWhole(bytes) {
  try {
    return new TextDecoder("utf-8", { fatal: true }).decode(bytes) !== null;
  } catch {
    return false;
  }
}
