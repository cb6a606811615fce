// Elements of the page. Texts come from strangers: they become text nodes, never markup, and what cannot be seen is taken out of them.

const JOINERS = "\u200c\u200d";
const UNSEEN = /[\p{C}\p{Zl}\p{Zp}]/gu;

/** A text as it may be shown, on one line: without what could turn it around or hide, and with U+FFFD for what cannot be seen. */
export function shown(text, keepsLines = false) {
  return text.replace(/\r\n?/g, "\n").replace(UNSEEN, (one) => {
    if (JOINERS.includes(one) || (one === "\n" && keepsLines)) return one;
    if (/\s/.test(one)) return " ";
    return /\p{Cf}/u.test(one) ? "" : "\ufffd";
  });
}

/** An element. An attribute that begins with `on` is what is done at an event; one that is false or null is left out. */
export function make(name, attributes = {}, ...children) {
  const element = document.createElement(name);
  for (const [key, value] of Object.entries(attributes)) {
    if (key.startsWith("on")) element.addEventListener(key.slice(2), value);
    else if (value !== false && value !== null && value !== undefined) element.setAttribute(key, value === true ? "" : String(value));
  }
  element.append(...children.flat(Infinity).filter((child) => child !== null && child !== undefined));
  return element;
}

/** A part of a picture as an element of SVG. */
export function drawn({ name, attributes, children }) {
  const element = document.createElementNS(document.getElementById("of-pictures").content.firstElementChild.namespaceURI, name);
  for (const [key, value] of Object.entries(attributes)) element.setAttribute(key, value);
  element.append(...children.map((child) => (typeof child === "string" ? child : drawn(child))));
  return element;
}

/** A stranger's text, which cannot change the direction of what is around it. */
export function foreign(text, attributes = {}) {
  return make("bdi", attributes, shown(text));
}

/** A stranger's text for the places that take no elements, between marks that set its direction apart. */
export function apart(text) {
  return `\u2068${shown(text)}\u2069`;
}

/** A text of this project in which what lies between backticks is code. */
export function coded(text) {
  return text.split("`").map((part, index) => (index % 2 ? make("code", {}, part) : part));
}

/** A button. */
export function button(text, onclick, attributes = {}) {
  return make("button", { type: "button", onclick, ...attributes }, text);
}

/** Has the browser save some content as a file. */
export function save(name, type, content) {
  const address = URL.createObjectURL(new Blob([content], { type }));
  make("a", { href: address, download: name }).click();
  setTimeout(() => URL.revokeObjectURL(address), 60_000);
}

/** A name for a file that is made of another one: its own name, as far as it is plain, and another ending. */
export function nameFor(name, ending) {
  const own = name.split("/").pop().replace(/\.[A-Za-z0-9]{1,8}$/, "").replace(/[^A-Za-z0-9._-]/g, "_").replace(/^\.+/, "_").slice(0, 100);
  return `${own || "document"}.${ending}`;
}
