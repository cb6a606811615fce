/** How a question ends: the exit statuses of the program. docs/COMMANDS.md says when each of them comes. */
export declare const Status: Readonly<{
  /** The text is the answer. */
  DONE: 0;
  /** The text names the first fault of a document. */
  DOC_FAULT: 1;
  /** The links cannot all be true, and the text is evidence of it; for `seconds` there is no placing, and it is a cycle. */
  CLASH: 2;
  /** The words have no form; the text lists the forms. */
  USAGE: 3;
  /** The words name a file that is neither `first` nor `second`. */
  READ_FAULT: 4;
  /** Only of the program: its text was not written whole. */
  WRITE_FAULT: 5;
  /** Out of memory; there is no text. */
  NO_MEMORY: 6;
  /** Evidence is malformed or refused; the text says why. */
  EVIDENCE_FAULT: 7;
  /** A word names nothing in the document, or no relation. */
  UNKNOWN_NAME: 8;
  /** A file is longer than its limit. */
  TOO_LONG: 9;
}>;

/** What is answered to a question. */
export interface Answer {
  /** One of `Status`. */
  readonly status: number;
  /** UTF-8, with a line feed after each line. It is the caller's. */
  readonly text: Uint8Array;
}

/** tml over files in memory. A question keeps nothing for the next one. */
export interface Tml {
  /** The most bytes that a document may have. */
  readonly mostOfDocument: number;
  /** The most bytes that evidence, a placing or a cycle may have. */
  readonly mostOfEvidence: number;
  /**
   * What the program answers to these words, over files by the names `first` and `second`; `["solve", "first"]` asks about the
   * first one. A word that is not Unicode, or has a zero byte, has no form.
   * @throws TypeError if a word is neither a text nor bytes, or a file is no bytes
   * @throws RangeError if the caller has left too little of the stack; the next question is answered as ever
   */
  run(args: readonly (string | ArrayBufferView)[], first?: ArrayBufferView, second?: ArrayBufferView): Answer;
}

/** Makes tml of the bytes of tml.wasm. */
export declare function load(bytes: BufferSource): Promise<Tml>;
