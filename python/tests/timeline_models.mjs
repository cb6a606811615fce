// Reads what tml answers about documents, a line of JSON each, and prints of each the model of its picture, and the picture as SVG.
import { createInterface } from "node:readline";
import { pathToFileURL } from "node:url";

const [web, tables] = [pathToFileURL(`${process.argv[2]}/`), JSON.parse(process.argv[3])];
const load = (name) => import(new URL(name, web));
const [{ modelOf }, { Source }, { Wording }] = await Promise.all(["timeline.mjs", "source.mjs", "wording.mjs"].map(load));
const { extentOf, pictureOf } = await load("picture.mjs");

const escaped = (text) => text.replaceAll("&", "&amp;").replaceAll("<", "&lt;").replaceAll('"', "&quot;");
const words = (parts) => parts.map((part) => part.said ?? part.code ?? part).join("");

/** A part of a picture as SVG. */
function written({ name, attributes, children }) {
  const given = Object.entries(attributes).map(([key, value]) => ` ${key}="${escaped(String(value))}"`);
  return `<${name}${given.join("")}>${children.map((child) => (child.name ? written(child) : escaped(child))).join("")}</${name}>`;
}

/** An interval of the list of those that have no bound, as pictures write it. */
function listed({ name, text, said }) {
  const line = `${text} (${name})${said.length > 0 ? ": " : ""}${said.map(words).join("; ")}`;
  return { name: "text", attributes: { class: "listed", "data-interval": name, x: 0, y: 0, "font-size": 1 }, children: [line] };
}

for await (const line of createInterface({ input: process.stdin })) {
  const given = JSON.parse(line);
  const bytes = (text) => new TextEncoder().encode(text);
  const wording = new Wording(new Source(bytes(given.document), given.spans, given.check), given.dates, tables.orders);
  const model = modelOf(wording, bytes(given.matrix), tables.signs);
  const positions = { places: model.axis.map((_, place) => 20 * (place + 1)), left: 0, right: 20 * (model.axis.length + 1) };
  const rows = [...model.rows, ...model.listed];
  const part = pictureOf(model, given.width, tables.fillings);
  part.attributes.xmlns = "http://www.w3.org/2000/svg";
  part.children.push(...model.listed.map(listed));
  console.log(
    JSON.stringify({
      axis: model.axis,
      order: rows.map(({ interval }) => interval),
      kinds: rows.map(({ kind }) => kind),
      listed: model.listed.map(({ interval }) => interval),
      lines: model.lines.map(({ first, sign, second }) => [first, sign, second]),
      extents: model.rows.map(({ bar }) => extentOf(bar, positions)),
      said: rows.map(({ said }) => said.map(words)),
      places: model.places.map(words),
      svg: written(part),
    }),
  );
}
