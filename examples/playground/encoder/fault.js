// A fault of a text: what is wrong, where that begins and ends, and what to change.

/** Where a text is wrong: the indices of the first character and after the last one. */
export class Fault extends Error {
  constructor(at, words, end = at + 1) {
    super(words);
    this.at = at;
    this.end = end;
  }
}

/** The line and the column of an index, both counted from 1; a character beyond U+FFFF is one column. */
export function placeOf(text, at) {
  const before = text.slice(0, at), start = Math.max(before.lastIndexOf("\n"), before.lastIndexOf("\r")) + 1;
  return { line: before.split(/\r\n|[\n\r]/).length, column: [...before.slice(start)].length + 1 };
}

/** A word of a text for people, on one line and cut where it is long. */
export function shortened(word) {
  const line = word.split("\n")[0];
  return line.length <= 40 && line === word ? line : `${line.slice(0, 37)}...`;
}

/** The name among those given that is most like a word, if one is like it. */
export function nearest(word, names) {
  let best, least = Math.floor(Math.max(word.length, 3) / 3) + 1;
  for (const name of names) {
    const steps = distance(word, name);
    if (steps < least) [best, least] = [name, steps];
  }
  return best;
}

function distance(one, other) {
  let row = Array.from({ length: other.length + 1 }, (_, index) => index);
  for (let i = 1; i <= one.length; i++) {
    const next = [i];
    for (let j = 1; j <= other.length; j++) {
      next.push(Math.min(row[j] + 1, next[j - 1] + 1, row[j - 1] + Number(one[i - 1] !== other[j - 1])));
    }
    row = next;
  }
  return row[other.length];
}
