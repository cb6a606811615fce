// Places: from an offset in bytes to a line and a column, counted from 1 as tml-corpus counts them, and the lines around a place.

const BLOCK = 4096;
const LINE_FEED = 10;
const CARRIAGE_RETURN = 13;
const MOST_OF_LINE = 160;
const LINES_AROUND = 2;

/** How many bytes the character has that begins here: 0 if these bytes are not UTF-8. */
export function characterAt(bytes, at) {
  const lead = bytes[at];
  if (lead < 0x80) return 1;
  const length = lead < 0xc2 ? 0 : lead < 0xe0 ? 2 : lead < 0xf0 ? 3 : lead < 0xf5 ? 4 : 0;
  const least = lead === 0xe0 ? 0xa0 : lead === 0xf0 ? 0x90 : 0x80;
  const most = lead === 0xed ? 0x9f : lead === 0xf4 ? 0x8f : 0xbf;
  if (length === 0 || at + length > bytes.length || bytes[at + 1] < least || bytes[at + 1] > most) return 0;
  return bytes.subarray(at + 2, at + length).every((byte) => byte >= 0x80 && byte <= 0xbf) ? length : 0;
}

/** Some bytes as a text; what is not UTF-8 is U+FFFD. */
export function textOf(bytes) {
  return new TextDecoder("utf-8", { ignoreBOM: true }).decode(bytes);
}

/** The lines of a document. A line ends with a line feed, or with a carriage return if the document has no line feed at all. */
export class Places {
  #bytes;
  #begin;
  #end;
  #lines = [];
  #blocks = [];
  #counts = [];

  constructor(bytes) {
    this.#bytes = bytes;
    this.#begin = bytes[0] === 0xef && bytes[1] === 0xbb && bytes[2] === 0xbf ? 3 : 0;
    this.#end = bytes.includes(LINE_FEED) ? LINE_FEED : CARRIAGE_RETURN;
    this.#findLines();
    this.#countCharacters();
  }

  /** The line and the column of an offset. */
  place(offset) {
    const line = upTo(this.#lines, offset);
    return { line: line + 1, column: Math.max(this.#before(offset) - this.#before(this.#lines[line]), 0) + 1 };
  }

  /** The lines around a stretch, each with its number, what comes before the stretch in it, what it has of it, and what comes after. */
  around(start, end) {
    const line = upTo(this.#lines, start);
    const first = Math.max(line - LINES_AROUND, 0);
    const isThere = (from) => from < this.#bytes.length || from === this.#lines[line];
    const found = this.#lines.slice(first, line + LINES_AROUND + 1).filter(isThere);
    return found.map((from, index) => {
      const until = this.#lines[first + index + 1] ?? this.#bytes.length;
      const of = index === line - first ? this.#cut(from, until, start, end) : this.#cut(from, until, until, until);
      return { line: first + index + 1, ...of, isMarked: index === line - first };
    });
  }

  #findLines() {
    this.#lines.push(this.#begin);
    for (let at = this.#bytes.indexOf(this.#end, this.#begin); at >= 0; at = this.#bytes.indexOf(this.#end, at + 1)) {
      this.#lines.push(at + 1);
    }
  }

  /** Counts the characters before each block, so that a place is found by looking at one block. */
  #countCharacters() {
    let count = 0;
    for (let at = this.#begin, next = at; at < this.#bytes.length; at += characterAt(this.#bytes, at) || 1, count++) {
      if (at < next) continue;
      this.#blocks.push(at);
      this.#counts.push(count);
      next += BLOCK;
    }
  }

  /** How many characters come before an offset. A byte that is not UTF-8, or belongs to a cut one, counts as one. */
  #before(offset) {
    if (this.#blocks.length === 0 || offset < this.#begin) return 0;
    const block = upTo(this.#blocks, offset);
    let count = this.#counts[block];
    for (let at = this.#blocks[block], length = 0; at < offset; at += length) {
      length = characterAt(this.#bytes, at) || 1;
      count += at + length > offset ? offset - at : 1;
    }
    return count;
  }

  /** A line around a stretch; a long line is cut. */
  #cut(from, until, start, end) {
    const stop = Math.min(end, until);
    const low = this.#beginning(Math.max(from, start - (start === until ? until - from : MOST_OF_LINE)));
    const part = (first, last) => {
      const whole = textOf(this.#bytes.subarray(first, this.#beginning(Math.min(last, first + MOST_OF_LINE))));
      return last === until ? whole.replace(/[\r\n]+$/, "") : whole;
    };
    const [before, marked, after] = [part(low, start), part(start, stop), part(stop, until)];
    const isCut = stop - start > MOST_OF_LINE || until - stop > MOST_OF_LINE || (start === until && until - low > MOST_OF_LINE);
    return { before: (low > from ? "…" : "") + before, marked, after: after + (isCut ? "…" : "") };
  }

  /** The first place from here on that is not within a character. */
  #beginning(at) {
    const last = Math.min(at + 3, this.#bytes.length);
    let found = at;
    while (found < last && this.#bytes[found] >= 0x80 && this.#bytes[found] < 0xc0) found++;
    return found;
  }
}

/** The index of the last number that is not above this one; 0 if all are. The numbers rise. */
export function upTo(numbers, wanted) {
  let [low, high] = [0, numbers.length];
  while (high - low > 1) {
    const middle = (low + high) >> 1;
    if (numbers[middle] <= wanted) low = middle;
    else high = middle;
  }
  return low;
}
