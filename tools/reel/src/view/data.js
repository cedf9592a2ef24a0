'use strict';

// ---- The shift: the packed bytes made into arrays. All of it was answered by the kernel.

window.addEventListener('error', event => {
  document.documentElement.dataset.error = event.message;
});

const element = id => document.getElementById(id);

const PAGES = 64;
const STATIONS = 16;
// The frame of a null copy, the page of a free frame, and what a message does not name.
const NONE = 255;
// A copy's mark is a place in this list.
const MARKS = ['stale', 'MOST RECENT', 'CURRENT'];
const [STALE, RECENT, CURRENT] = [0, 1, 2];
// The mark of a retired frame, which has no page.
const RETIRED = 3;

function unpacked(id) {
  const text = atob(element(id).textContent);
  const bytes = new Uint8Array(text.length);
  for (let i = 0; i < text.length; i++) bytes[i] = text.charCodeAt(i);
  return bytes;
}

// Reads bytes and numbers of any size, one after another.
class Reader {
  constructor(bytes, at = 0) {
    this.bytes = bytes;
    this.at = at;
  }

  byte() {
    return this.bytes[this.at++];
  }

  number() {
    let value = 0;
    for (let unit = 1; ; unit *= 128) {
      const byte = this.byte();
      value += (byte & 127) * unit;
      if (byte < 128) return value;
    }
  }

  take(length) {
    this.at += length;
    return this.bytes.subarray(this.at - length, this.at);
  }
}

// The place of the last value in a sorted list that is not above `limit`, or -1.
function lastUpTo(list, limit) {
  let low = -1;
  let high = list.length;
  while (high - low > 1) {
    const middle = (low + high) >> 1;
    if (list[middle] <= limit) low = middle;
    else high = middle;
  }
  return low;
}

// Messages have the numbers 1 to `messages` here; arrays by message have a place for 0, the start. In the file `before`
// messages come first. `most` frames are held at the most, first after message `mostAt`, as the kernel forecasts it.
class Shift {
  constructor() {
    Object.assign(this, JSON.parse(element('facts').textContent));
    this.frames = this.fast + this.slow;
    this.file = unpacked('file');
    this.readMessages();
    this.readAnswers();
    this.readChanges();
    this.readRetired();
    // The last row is that of the last frame, or of pages that have none.
    this.rows = this.held.length;
  }

  // The number of a message in the file, in words.
  named(turn) {
    return grouped(turn + this.before);
  }

  // Since which message something is so, in words.
  when(turn) {
    if (turn > 0) return `since message ${this.named(turn)}`;
    return this.before > 0 ? `since before message ${this.named(1)}` : 'from the start';
  }

  readMessages() {
    this.starts = new Uint32Array(this.messages + 2);
    this.kindOf = new Uint8Array(this.messages + 1);
    this.pageOf = new Uint8Array(this.messages + 1).fill(NONE);
    this.stationOf = new Uint8Array(this.messages + 1).fill(NONE);
    this.frameOf = new Uint8Array(this.messages + 1).fill(NONE);
    const places = this.kinds.map(kind => ['page', 'station', 'frame'].map(name => kind.arguments.indexOf(name)));
    const lists = [this.pageOf, this.stationOf, this.frameOf];
    let at = 0;
    for (let turn = 1; turn <= this.messages; turn++) {
      this.starts[turn] = at;
      at = this.end(at);
      this.starts[turn + 1] = at;
      const kind = this.knownKind(this.message(turn));
      this.kindOf[turn] = kind;
      if (kind === 0) continue;
      places[kind - 1].forEach((place, i) => {
        if (place >= 0) lists[i][turn] = this.file[this.starts[turn] + 4 + place];
      });
    }
  }

  // Where the message that begins there ends; one cut short ends with the file.
  end(at) {
    const { file } = this;
    const length = at + 1 < file.length ? 2 + file[at] * 256 + file[at + 1] : 1;
    return Math.min(at + length, file.length);
  }

  // The kind's number, or 0 for a message that falls under numbers 1 to 4.
  knownKind(message) {
    const kind = this.kinds[message[3] - 1];
    if (!kind || message[2] !== 1 || message.length !== 2 + message[0] * 256 + message[1]) return 0;
    const rest = message.length - 4 - kind.arguments.length;
    const [least, most] = kind.bytes;
    return rest >= least && rest <= most ? message[3] : 0;
  }

  readAnswers() {
    const reader = new Reader(unpacked('answers'));
    this.answers = reader.bytes;
    this.numbers = new Uint8Array(this.messages + 1);
    this.answerAt = new Uint32Array(this.messages + 1);
    this.refused = new Uint32Array(this.messages + 1);
    this.laid = new Float64Array(this.messages + 1);
    for (let turn = 1; turn <= this.messages; turn++) {
      const number = reader.byte();
      this.numbers[turn] = number;
      this.answerAt[turn] = reader.at;
      this.refused[turn] = this.refused[turn - 1] + (number > 0);
      this.laid[turn] = this.laid[turn - 1];
      if (number > 0) continue;
      this.laid[turn] += reader.number();
      reader.take(reader.number());
    }
  }

  // From each look that differed from the one before: what every page and every frame was, when. Behind the frames come
  // rows for pages that stand without a frame; such a page takes the first row that is free.
  readChanges() {
    const reader = new Reader(unpacked('changes'));
    this.changes = reader.bytes;
    this.pages = Array.from({ length: PAGES }, () => ({ turns: [], at: [] }));
    this.held = Array.from({ length: this.frames }, () => this.emptyRow());
    this.renumbered = Array.from({ length: this.frames }, () => []);
    this.heldFast = new Uint8Array(this.messages + 1);
    this.heldSlow = new Uint8Array(this.messages + 1);
    const copies = this.pages.map(() => []);
    let turn = 0;
    while (reader.at < reader.bytes.length) {
      const next = turn + reader.number();
      this.carryHeld(turn, next);
      turn = next;
      const page = reader.byte();
      this.pages[page].turns.push(turn);
      this.pages[page].at.push(reader.at);
      const now = this.copiesAt(reader);
      this.changeFrames(turn, page, copies[page], now);
      this.changeFrameless(turn, page, copies[page], now);
      copies[page] = now;
    }
    this.carryHeld(turn, this.messages);
  }

  // For each stretch of a row: from which message on, which page with which mark, since when its bytes are old if it is
  // stale, and since when the page is there.
  emptyRow() {
    return { turns: [0], pages: [NONE], marks: [STALE], stale: [0], arrived: [0] };
  }

  // A retired frame is free before and takes no copy after, so this is the last that is known of it.
  readRetired() {
    const reader = new Reader(unpacked('retired'));
    while (reader.at < reader.bytes.length) {
      const turn = reader.number();
      this.changeRow(turn, reader.byte(), NONE, RETIRED);
    }
  }

  copiesAt(reader) {
    return Array.from({ length: reader.byte() }, () => ({ frame: reader.byte(), mark: reader.byte() }));
  }

  // Between changes the number of frames held stays.
  carryHeld(from, to) {
    this.heldFast.fill(this.heldFast[from], from, to + 1);
    this.heldSlow.fill(this.heldSlow[from], from, to + 1);
  }

  changeFrames(turn, page, before, now) {
    const kept = new Set(now.map(copy => copy.frame));
    for (const { frame } of before) {
      if (frame !== NONE && !kept.has(frame)) this.changeRow(turn, frame, NONE, STALE);
    }
    const source = before[this.argument(turn, 'copy')];
    now.forEach(({ frame, mark }, number) => {
      if (frame === NONE) return;
      this.changeRow(turn, frame, page, mark, source);
      const earlier = before.findIndex(copy => copy.frame === frame);
      if (earlier >= 0 && earlier !== number) this.renumbered[frame].push(turn);
    });
  }

  // A page that stands with a null copy alone takes a row, and leaves it with its first frame or its deletion.
  changeFrameless(turn, page, before, now) {
    const isNull = copy => copy.frame === NONE;
    const was = before.some(isNull);
    if (was === now.some(isNull)) return;
    const isFree = row => row.pages[row.pages.length - 1] === (was ? page : NONE);
    let place = this.frames;
    while (place < this.held.length && !isFree(this.held[place])) place++;
    if (place === this.held.length) this.held.push(this.emptyRow());
    this.changeRow(turn, place, was ? NONE : page, was ? STALE : RECENT);
  }

  // The argument of this name of a message; undefined if it has none.
  argument(turn, name) {
    const kind = this.kinds[this.kindOf[turn] - 1];
    const place = kind ? kind.arguments.indexOf(name) : -1;
    return place < 0 ? undefined : this.file[this.starts[turn] + 4 + place];
  }

  // A copy that comes stale onto a frame was made of `source`, and is stale since that one is.
  changeRow(turn, place, page, mark, source) {
    const { turns, pages, marks, stale, arrived } = this.held[place];
    const last = turns.length - 1;
    if (pages[last] === page && marks[last] === mark) return;
    const isNew = pages[last] !== page;
    const isMade = mark === STALE && page !== NONE && isNew && source && source.frame !== NONE;
    stale.push(isMade ? this.holder(source.frame, turn).stale : turn);
    arrived.push(isNew ? turn : arrived[last]);
    if (place < this.frames) {
      const count = place < this.fast ? this.heldFast : this.heldSlow;
      count[turn] += (page !== NONE) - (pages[last] !== NONE);
    }
    turns.push(turn);
    pages.push(page);
    marks.push(mark);
  }

  // Which messages name a frame, change what is on it, or lay bytes there: 1 for each of them.
  touching(frame) {
    const touches = new Uint8Array(this.messages + 1);
    for (const turn of this.held[frame].turns) touches[turn] = 1;
    for (const turn of this.renumbered[frame]) touches[turn] = 1;
    for (let turn = 1; turn <= this.messages; turn++) {
      if (this.frameOf[turn] === frame || this.laysInto(turn, frame)) touches[turn] = 1;
    }
    return touches;
  }

  // Whether an accepted write has the page that is CURRENT on the frame.
  laysInto(turn, frame) {
    if (this.numbers[turn] > 0 || !this.isKind(turn, 'write')) return false;
    const { page, mark } = this.holder(frame, turn);
    return page === this.pageOf[turn] && mark === CURRENT;
  }

  isKind(turn, word) {
    const kind = this.kinds[this.kindOf[turn] - 1];
    return kind !== undefined && kind.word === word;
  }

  message(turn) {
    return this.file.subarray(this.starts[turn], this.starts[turn + 1]);
  }

  // Bytes laid and data of an accepted message.
  answer(turn) {
    if (this.numbers[turn] > 0) return { laid: 0, data: new Uint8Array() };
    const reader = new Reader(this.answers, this.answerAt[turn]);
    const laid = reader.number();
    return { laid, data: reader.take(reader.number()) };
  }

  // The copies of a page after a message.
  copies(page, turn) {
    const changes = this.pages[page];
    const last = changes ? lastUpTo(changes.turns, turn) : -1;
    return last < 0 ? [] : this.copiesAt(new Reader(this.changes, changes.at[last]));
  }

  // Who is in a row after a message: the page or NONE, its mark or RETIRED, since which message, and for a stale copy
  // since which its bytes are old.
  holder(place, turn) {
    const { turns, pages, marks, stale } = this.held[place];
    const last = lastUpTo(turns, turn);
    return { page: pages[last], mark: marks[last], since: turns[last], stale: stale[last] };
  }

  // The message that changed a page last, up to this one.
  changedAt(page, turn) {
    const { turns } = this.pages[page];
    return turns[lastUpTo(turns, turn)];
  }

  // ---- Words, as the table of kinds gives them

  sentence(turn) {
    const message = this.message(turn);
    const kind = this.kinds[this.kindOf[turn] - 1];
    if (!kind) {
      const more = message.length > 12 ? ' ...' : '';
      const length = counted(message.length, 'byte', 'bytes');
      return `broken message of ${length} (${hex(message.subarray(0, 12))}${more})`;
    }
    let next = 4;
    return kind.sentence.replace(/[#*]/g, place => (place === '#' ? message[next++] : hex(message.subarray(next))));
  }

  reply(turn) {
    const number = this.numbers[turn];
    const word = this.words[number] || 'unknown number';
    if (number > 0) return `refused, ${number} ${word}`;
    const { laid, data } = this.answer(turn);
    const kind = this.kinds[this.kindOf[turn] - 1];
    const tells = kind ? kind.tells : 'bytes';
    let words = word;
    if (laid > 0 || tells === 'bytes laid') words += `, ${counted(laid, 'byte', 'bytes')} laid`;
    if (data.length > 0) words += `, ${this.told(tells, data)}`;
    return words;
  }

  told(tells, data) {
    if (tells === 'page') return counted(data[0], 'copy', 'copies');
    if (tells === 'frame' && data[0] === 1) return `page ${data[1]} copy ${data[2]}`;
    if (tells === 'frame' && data[0] === 0) return 'free';
    if (tells === 'frame' && data[0] === 2) return 'retired';
    return hex(data);
  }

  // The store of a frame; a row behind the frames is in none.
  store(place) {
    if (place >= this.frames) return 'none';
    return place < this.fast ? 'fast' : 'slow';
  }

  // The pages that stand without a frame after a message.
  frameless(turn) {
    const rows = Array.from({ length: this.rows - this.frames }, (_, i) => this.holder(this.frames + i, turn).page);
    return rows.filter(page => page !== NONE).sort((a, b) => a - b);
  }
}

function hex(bytes) {
  return Array.from(bytes, byte => byte.toString(16).toUpperCase().padStart(2, '0')).join(' ');
}

function grouped(number) {
  return number.toLocaleString('en');
}

function counted(count, one, more) {
  return `${grouped(count)} ${count === 1 ? one : more}`;
}
