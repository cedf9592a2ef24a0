// ---- A list of messages that scrolls. Only the rows in sight are in the document, and the list is one stop of Tab.

// The height of a row.
const LINE = 22;
// Browsers have no taller element; the rows of a longer list are scrolled past in larger steps.
const MOST_HEIGHT = 8000000;

class List {
  // `words` gives the text of a message's row; a key goes to a message, and a click visits it.
  constructor(id, words, ways) {
    this.box = element(id);
    this.words = words;
    this.ways = ways;
    this.turns = [];
    this.current = 0;
    this.box.addEventListener('scroll', () => this.draw());
    this.box.addEventListener('keydown', event => this.key(event));
    this.box.addEventListener('click', event => this.click(event));
  }

  // Lists these messages, which are in order.
  fill(turns) {
    this.turns = turns;
    this.box.firstElementChild.style.height = `${Math.min(MOST_HEIGHT, LINE * turns.length)}px`;
    this.draw();
  }

  // How many pixels of rows a pixel of the bar scrolls past.
  stride() {
    const { box, turns } = this;
    const room = Math.min(MOST_HEIGHT, LINE * turns.length) - box.clientHeight;
    return room > 0 ? (LINE * turns.length - box.clientHeight) / room : 1;
  }

  draw() {
    const { box, turns } = this;
    const top = box.scrollTop * this.stride();
    const first = Math.max(0, Math.floor(top / LINE) - 2);
    const last = Math.min(turns.length, first + Math.ceil(box.clientHeight / LINE) + 4);
    const rows = [];
    for (let place = first; place < last; place++) {
      rows.push(this.row(turns[place], box.scrollTop + LINE * place - top));
    }
    box.firstElementChild.replaceChildren(...rows);
    const isShown = rows.some(row => row.hasAttribute('aria-selected'));
    if (isShown) box.setAttribute('aria-activedescendant', `${box.id}-${this.current}`);
    else box.removeAttribute('aria-activedescendant');
  }

  row(turn, top) {
    const text = this.words(turn);
    const row = made('div', text, { role: 'option', title: text, 'data-turn': turn, id: `${this.box.id}-${turn}` });
    row.style.top = `${top}px`;
    if (turn === this.current) row.setAttribute('aria-selected', 'true');
    return row;
  }

  // Marks a message and scrolls to it, or to the one before it in the list.
  reveal(turn) {
    const { box } = this;
    this.current = turn;
    const place = Math.max(0, lastUpTo(this.turns, turn));
    const top = LINE * place;
    const from = box.scrollTop * this.stride();
    if (top < from || top > from + box.clientHeight - LINE) {
      box.scrollTop = (top - box.clientHeight / 2) / this.stride();
    }
    this.draw();
  }

  click(event) {
    const row = event.target.closest('[data-turn]');
    if (row) this.ways.visit(Number(row.dataset.turn));
  }

  key(event) {
    const { turns, box } = this;
    const page = Math.max(1, Math.floor(box.clientHeight / LINE) - 1);
    const steps = { ArrowUp: -1, ArrowDown: 1, PageUp: -page, PageDown: page, Home: -turns.length, End: turns.length };
    const step = steps[event.key];
    if (step === undefined || turns.length === 0 || event.ctrlKey || event.metaKey || event.altKey) return;
    event.preventDefault();
    const at = lastUpTo(turns, this.current);
    // From between two rows a step down leads to the one below, and a step up to the one above.
    const from = at >= 0 && turns[at] === this.current ? at : at + (step < 0 ? 1 : 0);
    this.ways.goTo(turns[Math.max(0, Math.min(turns.length - 1, from + step))]);
  }
}
