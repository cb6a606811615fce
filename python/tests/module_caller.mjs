// Calls the module for browsers as a program of others does, and prints a line of JSON for each thing that is tried:
// node module_caller.mjs DIR. The file is asked about by `test_web.py`.
import { readFileSync } from "node:fs";
import { pathToFileURL } from "node:url";

const folder = pathToFileURL(`${process.argv[2]}/`);
const { load, Status } = await import(new URL("tml.mjs", folder));
const bytes = readFileSync(new URL("tml.wasm", folder));
const tml = await load(bytes);
const encoded = (text) => new TextEncoder().encode(text);
const said = ({ status, text }) => [status, new TextDecoder().decode(text)];
const caught = (call) => {
  try {
    return said(call());
  } catch (error) {
    return error.constructor.name;
  }
};
const document = encoded('<TimeML><TIMEX3 tid="first" type="SET"/></TimeML>');
const check = (args, ...files) => caught(() => tml.run(args, ...files));

/** As deep in the stack as one can be, and a question from there. */
const deep = () => {
  try {
    return deep();
  } catch {
    return check(["check", "first"], document);
  }
};

const shared = new Uint8Array(new SharedArrayBuffer(document.length));
shared.set(document);
const within = new Uint8Array(document.length + 2);
within.set(document, 1);
const module = await WebAssembly.compile(bytes);
const first = tml.run(["check", "first"], document);
const copied = said(first);
tml.run(["spans", "first"], encoded("<a/>"));

const tried = {
  statuses: Object.entries(Status),
  limits: [tml.mostOfDocument, tml.mostOfEvidence],
  imports: WebAssembly.Module.imports(module),
  exports: WebAssembly.Module.exports(module).map(({ name }) => name),
  "a document": copied,
  "an answer is the caller's": said(first),
  "no words": check([]),
  "no words and a file": check([], document),
  "a word in bytes": check([encoded("check"), "first"], document),
  "a word that is not Unicode": check(["ask", "first", "\ud800", "BEFORE", "first"], document),
  "a word that is a pair of surrogates": check(["ask", "first", "\ud83d\ude00", "BEFORE", "first"], document),
  "a word that is not UTF-8": check(["check", Uint8Array.of(0xff)], document),
  "a zero byte in a word": check(["check\0first"], document),
  "a zero byte at the end": check(["check", "first\0"], document),
  "a word that is a number": check(["drill", 3]),
  "words that are no list": check("check"),
  "a file that is a text": check(["check", "first"], "<a/>"),
  "a file that is a buffer": check(["check", "first"], document.buffer),
  "a file in shared memory": check(["check", "first"], shared),
  "a file within a buffer": check(["check", "first"], within.subarray(1, -1)),
  "a file in words of 16 bits": check(["check", "first"], new Uint16Array(2)),
  "another name": check(["check", "third"], document),
  "at the end of the stack": deep(),
  "after the end of the stack": check(["check", "first"], document),
  "bytes that are no module": await load(encoded("no")).then(String, (error) => error.constructor.name),
};
for (const [name, value] of Object.entries(tried)) console.log(JSON.stringify([name, value]));
