// A text with marks below it: a copy of the text lies under the field, and its marks show through.

export class Editor {
  /** The field of the text, and what shows the marks. */
  constructor(field, under) {
    this.field = field;
    this.under = under;
    this.mark([]);
  }

  get text() {
    return this.field.value;
  }

  set text(text) {
    this.field.value = text;
    this.mark([]);
  }

  /** Marks the places of faults, each with its first and last index. */
  mark(places) {
    const text = this.text, parts = [];
    let done = 0;
    for (const { at, end } of [...places].sort((one, other) => one.at - other.at)) {
      const first = Math.max(Math.min(at, text.length), done), last = Math.max(Math.min(end, text.length), first);
      parts.push(text.slice(done, first), marked(text.slice(first, last) || " "));
      done = last;
    }
    // a text that ends with a line feed has one line more
    this.under.replaceChildren(...parts, `${text.slice(done)}\n`);
    this.field.setAttribute("aria-invalid", String(places.length > 0));
  }

  /** Takes the reader to a place. */
  show({ at, end }) {
    this.field.focus();
    this.field.setSelectionRange(at, Math.min(end, this.text.length));
    this.under.querySelector("mark")?.scrollIntoView({ block: "nearest" });
  }
}

function marked(text) {
  const made = document.createElement("mark");
  made.textContent = text;
  return made;
}
