// ---- The panel: the place pointed at, the legend and the list of messages.

// A new element with this text and these attributes.
function made(name, text = '', attributes = {}) {
  const node = document.createElement(name);
  node.textContent = text;
  for (const [key, value] of Object.entries(attributes)) node.setAttribute(key, value);
  return node;
}

// A small picture of a copy with this mark, or of a retired frame.
function sample(palette, colour, mark) {
  const canvas = made('canvas', '', { width: 88, height: 32, 'aria-hidden': 'true' });
  const context = canvas.getContext('2d');
  context.scale(2, 2);
  if (mark === RETIRED) drawRetired(context, palette, 1, 1, 42, 14);
  else drawCopy(context, palette, colour, mark, 1, 1, 42, 14);
  return canvas;
}

// A bar with a read and a write.
function sampleTicks(palette, colour) {
  const canvas = sample(palette, colour, CURRENT);
  const context = canvas.getContext('2d');
  drawTick(context, palette, false, 14, 1, 14);
  drawTick(context, palette, true, 30, 1, 14);
  return canvas;
}

function legendItem(picture, text) {
  const item = made('li');
  item.append(picture, made('span', text));
  return item;
}

class Panel {
  // `ways` are those that lead to a message: `goTo`, and `visit`, from which Back leads to the place before.
  constructor(picture, ways) {
    this.picture = picture;
    this.shift = picture.shift;
    this.choice = picture.choice;
    this.ways = ways;
    this.list = new List('messages', turn => this.listed(turn), ways);
  }

  // ---- The place

  drawPlace() {
    const { shift } = this;
    const { turn, frame } = this.picture.place();
    const place = element('place');
    if (shift.messages === 0) {
      place.replaceChildren(made('p', 'The file has no messages.'));
      return;
    }
    const parts = [
      made('h2', `Message ${shift.named(turn)} of ${shift.named(shift.messages)}`),
      made('p', shift.sentence(turn), { class: 'what' }),
      made('p', shift.reply(turn), { class: shift.numbers[turn] > 0 ? 'refused' : '' }),
      made('p', this.tally(turn), { class: 'soft' }),
    ];
    const pages = new Map();
    if (frame !== null) {
      const holder = shift.holder(frame, turn);
      const isFrame = frame < shift.frames;
      const title = isFrame ? `Frame ${frame}, ${shift.store(frame)}` : 'No frame';
      parts.push(made('h3', title), made('p', this.holding(holder, isFrame)));
      if (holder.page !== NONE) pages.set(holder.page, isFrame ? 'on this frame' : 'without a frame');
    }
    if (this.choice.page !== null) pages.set(this.choice.page, 'chosen');
    if (shift.pageOf[turn] < PAGES) pages.set(shift.pageOf[turn], 'named by the message');
    for (const [page, why] of pages) parts.push(...this.page(page, why, turn, frame));
    place.replaceChildren(...parts);
  }

  tally(turn) {
    const { shift } = this;
    const fast = `${shift.heldFast[turn]} of ${shift.fast} fast`;
    const slow = `${shift.heldSlow[turn]} of ${shift.slow} slow`;
    const laid = counted(shift.laid[turn], 'byte', 'bytes');
    const pages = shift.frameless(turn);
    const frameless = pages.length > 0 ? ` Without a frame: page ${pages.join(', ')}.` : '';
    const most = turn === shift.mostAt ? ', the most, for the first time' : '';
    const held = `${fast}, ${slow} frames held${most}`;
    return `So far ${grouped(shift.refused[turn])} refused, ${laid} laid; ${held}.${frameless}`;
  }

  holding({ page, mark, since }, isFrame) {
    const when = this.shift.when(since);
    if (mark === RETIRED) return `retired ${when}`;
    if (page === NONE) return isFrame ? `free ${when}` : 'no page';
    return isFrame ? `page ${page}, ${MARKS[mark]} ${when}` : `page ${page} ${when}`;
  }

  // A page's copies after a message.
  page(page, why, turn, frame) {
    const copies = this.shift.copies(page, turn);
    const title = made('h3', `Page ${page}, ${why}`);
    if (copies.length === 0) return [title, made('p', 'does not stand')];
    const table = made('table');
    const head = made('tr');
    head.append(...['Copy', 'Frame', '', 'Mark', 'Since'].map(name => made('th', name)));
    table.append(head, ...copies.map((copy, number) => this.copyRow(page, number, copy, turn, frame)));
    return [title, table];
  }

  copyRow(page, number, copy, turn, frame) {
    const { shift, picture } = this;
    const isNull = copy.frame === NONE;
    const row = made('tr', '', copy.frame === frame ? { 'aria-current': 'true' } : {});
    const shape = made('td');
    if (!isNull) shape.append(sample(picture.palette, this.colour(page, copy, turn), copy.mark));
    const since = made('td');
    since.append(...this.since(page, copy, turn));
    const where = isNull ? 'none' : `${copy.frame} ${shift.store(copy.frame)}`;
    row.append(made('td', `${number}`), made('td', where), shape, made('td', MARKS[copy.mark]), since);
    return row;
  }

  // The colour of a copy in the picture.
  colour(page, { frame, mark }, turn) {
    const { arrived, turns } = this.shift.held[frame];
    const age = turn - arrived[lastUpTo(turns, turn)];
    return this.picture.palette.tones[this.picture.tone(page, mark, age)];
  }

  // Since when a copy has its mark; of a copy made of a stale one also which message made it.
  since(page, copy, turn) {
    const { shift } = this;
    if (copy.frame === NONE) return [this.jump(shift.changedAt(page, turn))];
    const { since, stale } = shift.holder(copy.frame, turn);
    if (copy.mark !== STALE || stale === since) return [this.jump(since)];
    return [this.jump(stale), made('span', ' made '), this.jump(since)];
  }

  jump(turn) {
    const { shift } = this;
    if (turn === 0) return made('span', shift.before > 0 ? 'before' : 'start');
    const attributes = { type: 'button', class: 'jump', title: `Go to message ${shift.named(turn)}` };
    const button = made('button', shift.named(turn), attributes);
    button.addEventListener('click', () => this.ways.visit(turn));
    return button;
  }

  // The most frames held, and the way to the message after which they are first.
  drawMost() {
    const { shift } = this;
    const start = shift.before > 0 ? `before message ${shift.named(1)}` : 'at the start';
    const where = shift.mostAt > 0 ? ['first after message ', this.jump(shift.mostAt)] : [start];
    element('most').replaceChildren(`Most frames held: ${shift.most} of ${shift.frames}, `, ...where, '.');
  }

  // ---- Legend

  drawLegend() {
    const { palette, colouring } = this.picture;
    const of = mark => (colouring === 'mark' ? palette.marks[mark] : palette.pages[1]);
    const words = [
      [CURRENT, 'CURRENT: a full bar'],
      [RECENT, 'MOST RECENT, not CURRENT: hatched'],
      [STALE, 'stale: a thin line'],
      [RETIRED, 'retired frame: a dashed line'],
    ];
    const items = words.map(([mark, text]) => legendItem(sample(palette, of(mark), mark), text));
    items.push(legendItem(sampleTicks(palette, of(CURRENT)), 'a read, at the top; a write, at the foot'));
    if (colouring === 'age') {
      const ages = AGES.map((text, age) => legendItem(sample(palette, palette.ages[age], CURRENT), text));
      items.push(made('li', 'So many messages on its frame:'), ...ages);
    }
    const colour = {
      page: 'A number in a bar is the page, and so is its colour.',
      mark: 'A number in a bar is the page; its colour is the mark.',
      age: 'A number in a bar is the page; its colour is its age on the frame.',
    };
    const notes = [
      `${colour[colouring]} Neither bar nor line: the frame is free; a freed one holds zeros.`,
      'Below the frames stand the pages that have no frame.',
      'A column shows the state after its message; zoomed out, after the last of its messages.',
      'Close up, an arrow is a copy being made, and \u271516 a message refused with number 16.',
      'Of the frames held, fast ones are full, slow ones hatched; a line marks the first message with the most.',
    ];
    element('legend').replaceChildren(...items, ...notes.map(text => made('li', text)));
  }

  // A button for each page in its colour; those that never stood are switched off.
  drawPages(choose) {
    const { picture, shift, choice } = this;
    const buttons = shift.pages.map(({ turns }, page) => {
      const isChosen = choice.page === page;
      const attributes = { type: 'button', 'aria-pressed': isChosen, title: `Page ${page}` };
      const button = made('button', `${page}`, attributes);
      button.style.borderBottomColor = picture.palette.pages[page];
      button.disabled = turns.length === 0;
      button.addEventListener('click', () => choose(isChosen ? null : page));
      return button;
    });
    element('pages').replaceChildren(...buttons);
  }

  // ---- The messages

  fillList() {
    element('message-count').textContent = `(${grouped(this.choice.list.length)})`;
    this.list.fill(this.choice.list);
    this.list.reveal(this.picture.cursor.turn);
  }

  listed(turn) {
    const { shift } = this;
    return `${shift.named(turn)}  ${shift.sentence(turn)}: ${shift.reply(turn)}`;
  }
}
