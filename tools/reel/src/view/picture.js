// ---- The picture: frames down, messages across, with lanes below and the whole shift above.

const GUTTER = 70;
const AXIS = 22;
const LEAST_SPAN = 12;
const LEAST_ROW = 2;
// On paper all rows are in sight, however low, and there are so many dots to a pixel of the screen.
const LEAST_ROW_ON_PAPER = 0.2;
const DOTS = 4;
const MOST_ROW = 40;
// So many bars at the most are drawn one by one; more are drawn pixel by pixel.
const MOST_BARS = 4000;

class Picture {
  constructor(shift, choice) {
    this.shift = shift;
    this.choice = choice;
    this.contexts = {};
    for (const id of ['overview', 'map', 'lanes', 'overlay']) {
      this.contexts[id] = element(id).getContext('2d');
    }
    this.from = 0;
    this.span = this.whole();
    this.top = 0;
    // The height of a row, and the height asked for.
    this.row = LEAST_ROW;
    this.wish = LEAST_ROW;
    // The place kept, and the place under the pointer.
    this.cursor = { turn: Math.min(1, shift.messages), frame: null };
    this.hover = null;
    // What a colour stands for: the page, the mark or the age.
    this.colouring = 'page';
    this.readTheme();
    this.measure();
  }

  readTheme() {
    this.palette = new Palette();
  }

  isPaper() {
    return document.documentElement.classList.contains('print');
  }

  measure() {
    this.scale = this.isPaper() ? DOTS : window.devicePixelRatio || 1;
    for (const context of Object.values(this.contexts)) {
      const { canvas } = context;
      canvas.width = Math.round(canvas.clientWidth * this.scale);
      canvas.height = Math.round(canvas.clientHeight * this.scale);
      context.setTransform(this.scale, 0, 0, this.scale, 0, 0);
    }
    this.width = Math.max(1, element('map').clientWidth - GUTTER);
    this.height = Math.max(1, element('map').clientHeight - AXIS);
    this.layRows();
  }

  // Which frames have a row: all, or those that the chosen page is on in the part shown; behind them come the rows of
  // pages without a frame.
  layRows() {
    const { shift, choice } = this;
    const all = Array.from({ length: shift.rows }, (_, place) => place);
    this.rows = choice.isOnlyItsFrames() ? all.filter(place => this.isHeldHere(place, choice.page)) : all;
    this.rowOf = new Int16Array(shift.rows).fill(-1);
    this.rows.forEach((frame, row) => (this.rowOf[frame] = row));
    this.fitRow(this.wish);
  }

  isHeldHere(frame, page) {
    const { turns, pages } = this.shift.held[frame];
    const visible = this.visibleTurns();
    const last = lastUpTo(turns, visible.last);
    for (let i = lastUpTo(turns, visible.first); i <= last; i++) {
      if (pages[i] === page) return true;
    }
    return false;
  }

  // ---- Places

  whole() {
    return Math.max(1, this.shift.messages);
  }

  x(turn) {
    return GUTTER + ((turn - 1 - this.from) * this.width) / this.span;
  }

  cell() {
    return this.width / this.span;
  }

  turnAt(x) {
    const turn = Math.floor(this.from + ((x - GUTTER) * this.span) / this.width) + 1;
    return Math.max(1, Math.min(this.shift.messages, turn));
  }

  y(frame) {
    return AXIS + this.rowOf[frame] * this.row - this.top;
  }

  frameAt(y) {
    const row = Math.floor((y - AXIS + this.top) / this.row);
    return y >= AXIS && row < this.rows.length ? this.rows[row] : null;
  }

  place() {
    return this.hover || this.cursor;
  }

  // ---- Moving and zooming

  show(from, span) {
    this.span = this.spanWithin(span);
    this.from = Math.max(0, Math.min(this.whole() - this.span, from));
  }

  // Zooms so that the message at x stays where it is.
  zoom(factor, x) {
    const share = Math.max(0, Math.min(1, (x - GUTTER) / this.width));
    const at = this.from + share * this.span;
    const span = this.spanWithin(this.span * factor);
    this.show(at - share * span, span);
  }

  spanWithin(span) {
    const whole = this.whole();
    return Math.max(Math.min(LEAST_SPAN, whole), Math.min(whole, span));
  }

  // Brings a message into the picture.
  reveal(turn) {
    const margin = Math.min(this.span / 8, 20);
    if (turn - 1 < this.from + margin || turn > this.from + this.span - margin) {
      this.show(turn - 0.5 - this.span / 2, this.span);
    }
  }

  revealFrame(frame) {
    const y = this.rowOf[frame] * this.row;
    this.scroll(Math.min(y, Math.max(this.top, y + this.row - this.height)));
  }

  scroll(top) {
    const all = this.rows.length * this.row;
    this.top = Math.max(0, Math.min(all - this.height, top));
  }

  // Rows of this height, but no lower than that all frames fill the picture.
  fitRow(wish) {
    const fitting = Math.min(MOST_ROW, this.height / Math.max(1, this.rows.length));
    this.wish = Math.min(MOST_ROW, wish);
    this.row = this.isPaper() ? Math.max(LEAST_ROW_ON_PAPER, fitting) : Math.max(LEAST_ROW, fitting, this.wish);
    this.scroll(this.top);
  }

  // ---- What is chosen

  isChosenPage(page) {
    const { choice } = this;
    if (choice.page !== null) return page === choice.page;
    return choice.station === null || this.pagesNamed.has(page);
  }

  // The place in the list of tones of a page with this mark that is on its frame for so many messages.
  tone(page, mark, age) {
    if (!this.isChosenPage(page)) return TONES.dim;
    if (this.colouring === 'mark') return TONES.marks + mark;
    return this.colouring === 'age' ? TONES.ages + ageClass(age) : page;
  }

  // The pages that chosen messages name in the part shown.
  findPagesNamed() {
    const turns = this.visibleTurns();
    this.pagesNamed = new Set();
    for (let turn = turns.first; turn <= turns.last; turn++) {
      if (this.choice.has(turn)) this.pagesNamed.add(this.shift.pageOf[turn]);
    }
  }

  // ---- Drawing

  draw() {
    this.layRows();
    this.findPagesNamed();
    this.drawMap();
    drawLanes(this);
    drawOverview(this);
  }

  clear(context) {
    const { canvas } = context;
    context.clearRect(0, 0, canvas.width / this.scale, canvas.height / this.scale);
    context.font = '11px system-ui, "DejaVu Sans", sans-serif';
    context.textBaseline = 'middle';
    context.textAlign = 'left';
  }

  // Words that are drawn closer together where they would be wider than `most`.
  text(context, words, x, y, colour, align = 'left', most = undefined) {
    context.fillStyle = colour;
    context.textAlign = align;
    context.fillText(words, x, y, most);
  }

  // Words in the margin at the left.
  name(context, words, y) {
    this.text(context, words, GUTTER - 8, y, this.palette.soft, 'right', GUTTER - 10);
  }

  drawMap() {
    const context = this.contexts.map;
    this.clear(context);
    if (this.rows.length > 0 && this.shift.messages > 0) {
      if (this.row * this.scale >= 6 && this.countBars() <= MOST_BARS) this.drawBars(context);
      else this.drawPixels(context);
      this.drawTicks(context);
      this.drawMoves(context);
    } else {
      this.text(context, 'Nothing is on a frame here.', GUTTER + 12, AXIS + 20, this.palette.soft);
    }
    this.drawFrames(context);
    this.drawThumb(context);
    this.drawAxis(context);
  }

  // Which part of the rows is in sight, if not all.
  drawThumb(context) {
    const all = this.rows.length * this.row;
    if (all <= this.height + 1) return;
    const share = this.height / all;
    context.fillStyle = this.palette.ink;
    context.globalAlpha = 0.6;
    context.fillRect(GUTTER + this.width - 6, AXIS + this.top * share, 5, this.height * share);
    context.globalAlpha = 1;
  }

  visibleFrames() {
    const first = Math.max(0, Math.floor(this.top / this.row));
    return this.rows.slice(first, Math.floor((this.top + this.height) / this.row) + 1);
  }

  visibleTurns() {
    const last = Math.min(this.shift.messages, Math.ceil(this.from + this.span));
    return { first: Math.floor(this.from) + 1, last };
  }

  countBars() {
    const turns = this.visibleTurns();
    let count = 0;
    for (const frame of this.visibleFrames()) {
      const list = this.shift.held[frame].turns;
      count += lastUpTo(list, turns.last) - lastUpTo(list, turns.first) + 1;
    }
    return count;
  }

  drawBars(context) {
    context.save();
    this.clip(context);
    for (const frame of this.visibleFrames()) this.drawBarsOf(context, frame);
    context.restore();
  }

  clip(context) {
    context.beginPath();
    context.rect(GUTTER, AXIS, this.width, this.height);
    context.clip();
  }

  // Where a row's bar is, on whole pixels of the screen, so that thin lines have their full colour.
  bar(place) {
    const snapped = y => Math.round(y * this.scale) / this.scale;
    const y = snapped(this.y(place) + 1);
    return { y, height: snapped(this.y(place) + this.row - 1) - y };
  }

  drawBarsOf(context, place) {
    const { turns, pages, marks } = this.shift.held[place];
    const visible = this.visibleTurns();
    const { y, height } = this.bar(place);
    for (let i = lastUpTo(turns, visible.first); i < turns.length && turns[i] <= visible.last; i++) {
      if (pages[i] === NONE && marks[i] !== RETIRED) continue;
      const end = i + 1 < turns.length ? turns[i + 1] : this.shift.messages + 1;
      const [left, right] = this.across(turns[i], end);
      if (marks[i] === RETIRED) {
        drawRetired(context, this.palette, left, y, right - left, height);
        continue;
      }
      this.drawStretch(context, this.shift.held[place], i, end, y, height);
      this.drawLabel(context, pages[i], marks[i], Math.max(GUTTER, left), right, y, height);
    }
  }

  // From where to where the messages from one up to another go, as far as they are in sight.
  across(from, end) {
    return [Math.max(GUTTER - 2, this.x(from)), Math.min(GUTTER + this.width + 2, this.x(end))];
  }

  // One stretch of a row, in parts where its age changes the colour.
  drawStretch(context, { turns, pages, marks, arrived }, i, end, y, height) {
    let from = turns[i];
    while (from < end) {
      const age = from - arrived[i];
      const next = this.colouring === 'age' ? arrived[i] + 10 ** (ageClass(age) + 1) : end;
      const last = ageClass(age) === AGES.length - 1 ? end : Math.min(end, next);
      const [left, right] = this.across(from, last);
      const colour = this.palette.tones[this.tone(pages[i], marks[i], age)];
      if (right > left) drawCopy(context, this.palette, colour, marks[i], left, y, right - left, height);
      from = last;
    }
  }

  // A tick at each accepted read and write, on the copies that it read or wrote, where single messages can be seen.
  drawTicks(context) {
    const { shift } = this;
    if (this.cell() < 3 || this.row < 8) return;
    context.save();
    this.clip(context);
    const turns = this.visibleTurns();
    for (let turn = turns.first; turn <= turns.last; turn++) {
      const isWrite = shift.isKind(turn, 'write');
      if (shift.numbers[turn] > 0 || !(isWrite || shift.isKind(turn, 'read'))) continue;
      const current = shift.copies(shift.pageOf[turn], turn).filter(copy => copy.mark === CURRENT);
      // A read takes its bytes from the first CURRENT copy, a write lays them into each.
      for (const { frame } of isWrite ? current : current.slice(0, 1)) {
        if (this.rowOf[frame] < 0) continue;
        const { y, height } = this.bar(frame);
        drawTick(context, this.palette, isWrite, this.x(turn) + this.cell() / 2, y, height);
      }
    }
    context.restore();
  }

  // The page's number in its bar, where there is room.
  drawLabel(context, page, mark, left, right, y, height) {
    const words = `${page}`;
    const width = context.measureText(words).width + 6;
    if (height < 11 || right - left < width + 2 || !this.hasRoomAt(y + height / 2)) return;
    const isSolid = mark === CURRENT && this.isChosenPage(page);
    if (mark === RECENT) {
      context.fillStyle = this.palette.paper;
      context.fillRect(left + 2, y + height / 2 - 6, width, 12);
    }
    this.text(context, words, left + 5, y + height / 2, isSolid ? this.palette.paper : this.palette.ink);
  }

  // Whether a line of text around this height is within the rows.
  hasRoomAt(y) {
    return y >= AXIS + 6 && y <= AXIS + this.height - 6;
  }

  // Many bars: each column of pixels shows its last message, or where it held the chosen page.
  drawPixels(context) {
    const width = Math.round(this.width * this.scale);
    const height = Math.round(this.height * this.scale);
    const image = context.createImageData(width, height);
    const target = {
      pixels: new Uint32Array(image.data.buffer),
      width,
      height,
      columns: this.columns(width),
      shades: this.shades(),
    };
    for (const frame of this.visibleFrames()) {
      const top = Math.round((this.y(frame) - AXIS) * this.scale);
      const bottom = Math.round((this.y(frame) - AXIS + this.row) * this.scale);
      const bar = bottom - top - (bottom - top >= 3 ? 1 : 0);
      this.paintRow(target, this.shift.held[frame], top, top + bar);
    }
    context.putImageData(image, Math.round(GUTTER * this.scale), Math.round(AXIS * this.scale));
  }

  // The last message of each column of pixels.
  columns(width) {
    const columns = new Uint32Array(width);
    for (let x = 0; x < width; x++) {
      const turn = Math.ceil(this.from + ((x + 1) * this.span) / width);
      columns[x] = Math.max(1, Math.min(this.shift.messages, turn));
    }
    return columns;
  }

  // The tones as pixels, full and light.
  shades() {
    const { paper, soft, tones } = this.palette;
    const shade = strength => Uint32Array.from(tones, colour => pixelOf(colour, paper, strength));
    return { full: shade(1), light: shade(0.25), retired: pixelOf(soft, paper) };
  }

  paintRow({ pixels, width, height, columns, shades }, { turns, pages, marks, arrived }, top, bottom) {
    const { page: chosen } = this.choice;
    const line = staleHeight(bottom - top);
    const stale = bottom - line;
    const middle = top + ((bottom - top - line) >> 1);
    const dash = Math.round(DASH * this.scale);
    let at = lastUpTo(turns, columns[0]);
    for (let x = 0; x < width; x++) {
      let shown = at;
      while (at + 1 < turns.length && turns[at + 1] <= columns[x]) {
        at++;
        if (pages[shown] !== chosen || pages[at] === chosen) shown = at;
      }
      const mark = marks[shown];
      if (mark === RETIRED && Math.floor(x / dash) % 2 === 0) {
        for (let y = Math.max(0, middle); y < Math.min(middle + line, height); y++) {
          pixels[y * width + x] = shades.retired;
        }
      }
      if (pages[shown] === NONE) continue;
      const tone = this.tone(pages[shown], mark, columns[x] - arrived[shown]);
      const first = Math.max(0, mark === STALE ? stale : top);
      for (let y = first; y < Math.min(bottom, height); y++) {
        pixels[y * width + x] = mark === RECENT && ((x + y) & 3) > 1 ? shades.light[tone] : shades.full[tone];
      }
    }
  }

  // An arrow for each copy that was made, from its source, where single messages can be seen.
  drawMoves(context) {
    const { shift } = this;
    if (this.cell() < 7 || this.row < 5) return;
    context.save();
    this.clip(context);
    const turns = this.visibleTurns();
    for (let turn = turns.first; turn <= turns.last; turn++) {
      const kind = shift.kinds[shift.kindOf[turn] - 1];
      if (shift.numbers[turn] > 0 || !kind || kind.word !== 'copy') continue;
      const [page, copy, frame] = shift.message(turn).subarray(4);
      if (!this.isChosenPage(page)) continue;
      const source = shift.copies(page, turn - 1)[copy].frame;
      this.drawArrow(context, this.x(turn) + Math.max(this.cell() / 2, this.cell() - 8), source, frame);
    }
    context.restore();
  }

  drawArrow(context, x, source, target) {
    const end = this.y(target) + this.row / 2;
    context.strokeStyle = context.fillStyle = this.palette.ink;
    context.lineWidth = 1.5;
    context.beginPath();
    if (source === NONE) {
      context.arc(x, end, 3, 0, 2 * Math.PI);
      context.fill();
      return;
    }
    const start = this.y(source) + this.row / 2;
    const way = Math.sign(end - start);
    context.moveTo(x, start);
    context.lineTo(x, end);
    context.stroke();
    context.beginPath();
    context.moveTo(x, end);
    context.lineTo(x - 4, end - 6 * way);
    context.lineTo(x + 4, end - 6 * way);
    context.fill();
  }

  // The names of the frames, and the borders between the stores and the rows of pages without a frame.
  drawFrames(context) {
    context.clearRect(0, AXIS, GUTTER, this.height);
    const step = [1, 2, 5, 10, 20, 50].find(count => count * this.row >= 13) || 100;
    const parts = this.parts();
    let below = 0;
    for (const place of this.visibleFrames()) {
      const part = parts.find(({ end }) => this.rowOf[place] < end);
      const row = this.rowOf[place] - part.first;
      // The last name of a part gives way to the first of the next.
      const isCrowded = (part.end - this.rowOf[place]) * this.row < 13 && part.end < this.rows.length && row > 0;
      const y = Math.max(AXIS + 7, this.y(place) + this.row / 2);
      if (row % step > 0 || isCrowded || y < below || !this.hasRoomAt(y)) continue;
      below = y + 12;
      const number = place < this.shift.frames ? ` ${place}` : '';
      this.name(context, number ? `${this.shift.store(place)}${number}` : 'no frame', y);
    }
    for (const { first } of parts.slice(1)) this.drawBorder(context, first);
  }

  // The rows of the fast frames, of the slow ones, and of pages without a frame: the first of each, and the one behind.
  parts() {
    const { shift } = this;
    const count = store => this.rows.filter(place => shift.store(place) === store).length;
    let first = 0;
    return ['fast', 'slow', 'none'].map(store => {
      const part = { first, end: first + count(store) };
      first = part.end;
      return part;
    });
  }

  drawBorder(context, row) {
    const border = Math.round(AXIS + row * this.row - this.top) - 0.5;
    if (border <= AXIS || border > AXIS + this.height || row >= this.rows.length) return;
    context.strokeStyle = this.palette.ink;
    context.lineWidth = 1;
    context.beginPath();
    context.moveTo(GUTTER, border);
    context.lineTo(GUTTER + this.width, border);
    context.stroke();
  }

  drawAxis(context) {
    const { palette } = this;
    context.clearRect(0, 0, GUTTER + this.width, AXIS);
    context.strokeStyle = palette.line;
    context.lineWidth = 1;
    context.beginPath();
    context.moveTo(0, AXIS - 0.5);
    context.lineTo(GUTTER + this.width, AXIS - 0.5);
    const step = niceStep((this.span * 90) / this.width);
    const { before, messages } = this.shift;
    const first = Math.max(step, Math.ceil((this.from + before + 1) / step) * step) - before;
    for (let turn = first; turn <= Math.min(messages, this.from + this.span); turn += step) {
      const x = this.x(turn) + this.cell() / 2;
      context.moveTo(x, AXIS - 5);
      context.lineTo(x, AXIS);
      const isLast = x > GUTTER + this.width - 30;
      const [at, align] = isLast ? [GUTTER + this.width - 2, 'right'] : [x, 'center'];
      this.text(context, this.shift.named(turn), at, 9, palette.soft, align);
    }
    context.stroke();
    this.name(context, 'message', 9);
  }

  // ---- The overlay: the place kept and the place pointed at

  drawOverlay() {
    const context = this.contexts.overlay;
    const place = this.place();
    this.clear(context);
    if (this.shift.messages === 0) return;
    const map = element('map');
    this.drawSpan(context, map.offsetTop);
    const left = this.x(place.turn);
    const width = Math.max(1, this.cell());
    if (left + width >= GUTTER && left <= GUTTER + this.width) {
      context.fillStyle = this.palette.accent;
      context.globalAlpha = width > 3 ? 0.25 : 0.8;
      const height = context.canvas.clientHeight - map.offsetTop;
      context.fillRect(Math.max(GUTTER, left), map.offsetTop, width, height);
      context.globalAlpha = 1;
    }
    if (place.frame === null || this.rowOf[place.frame] < 0) return;
    const y = this.y(place.frame);
    if (y + this.row <= AXIS || y >= AXIS + this.height) return;
    context.strokeStyle = this.palette.accent;
    context.lineWidth = 1;
    context.strokeRect(1.5, map.offsetTop + Math.max(AXIS, y) - 0.5, GUTTER + this.width - 3, this.row + 1);
  }

  // The span that is chosen, over map and lanes.
  drawSpan(context, top) {
    const { first, last } = this.choice;
    if (first === null) return;
    const within = x => Math.max(GUTTER, Math.min(GUTTER + this.width, x));
    const [left, right] = [within(this.x(first)), within(this.x(last + 1))];
    context.fillStyle = context.strokeStyle = this.palette.accent;
    context.globalAlpha = 0.1;
    context.fillRect(left, top, right - left, context.canvas.clientHeight - top);
    context.globalAlpha = 1;
    context.lineWidth = 1;
    context.strokeRect(left + 0.5, top + 0.5, Math.max(1, right - left - 1), context.canvas.clientHeight - top - 1);
  }
}

// 1, 2 or 5 times a power of ten, and at least `least`.
function niceStep(least) {
  const power = 10 ** Math.floor(Math.log10(Math.max(1, least)));
  return [1, 2, 5, 10].map(times => times * power).find(step => step >= least) || 10 * power;
}
