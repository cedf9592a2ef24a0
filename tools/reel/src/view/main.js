// ---- The page at work: what is chosen, keys, pointer, and the place in the address.

class View {
  constructor(shift) {
    this.shift = shift;
    this.choice = new Choice(shift);
    // The head takes its place before the picture is measured.
    this.writeHead();
    this.picture = new Picture(shift, this.choice);
    this.panel = new Panel(this.picture, { goTo: turn => this.goTo(turn), visit: turn => this.visit(turn) });
    this.panel.drawMost();
    this.isDue = false;
    this.readAddress();
    this.choose({});
    this.draw();
    this.listen();
  }

  writeHead() {
    const { shift } = this;
    const { messages } = shift;
    element('name').textContent = shift.name;
    const refused = grouped(shift.refused[messages]);
    const laid = counted(shift.laid[messages], 'byte', 'bytes');
    const frames = `${shift.fast} fast and ${shift.slow} slow frames`;
    const part = shift.before > 0 ? `, from message ${shift.named(1)} on` : '';
    element('summary').textContent =
      `${counted(messages, 'message', 'messages')}, ${refused} refused, ${laid} laid; ${frames}${part}`;
    const option = (value, text) => made('option', text, { value });
    const numbers = count => Array.from({ length: count }, (_, number) => option(number, `${number}`));
    element('page').append(option('', 'all'), ...numbers(PAGES));
    element('station').append(option('', 'all'), ...numbers(STATIONS));
    element('frame').append(option('', 'all'), ...numbers(shift.frames));
    for (const id of ['message', 'first', 'last']) {
      element(id).min = Math.min(shift.before + 1, shift.before + messages);
      element(id).max = shift.before + messages;
    }
    const kinds = shift.kinds.map((kind, i) => option(i + 1, kind.word));
    element('kind').append(option('', 'all'), ...kinds, option(0, 'broken'));
    const given = new Set(shift.numbers.subarray(1));
    const words = shift.words.map((word, number) => option(number, `${number} ${word}`));
    const isGiven = (_, number) => given.has(number);
    element('number').append(option('', 'all'), option(REFUSED, 'refused'), ...words.filter(isGiven));
  }

  // ---- Drawing

  draw() {
    this.picture.draw();
    this.drawPlace();
    this.writeAddress();
  }

  drawPlace() {
    this.picture.drawOverlay();
    this.panel.drawPlace();
  }

  // Draws once before the next frame of the screen, however often it is asked for.
  drawSoon() {
    if (this.isDue) return;
    this.isDue = true;
    requestAnimationFrame(() => {
      this.isDue = false;
      this.draw();
    });
  }

  // ---- Choosing and going

  // Chooses what is named in `changes`, and shows all that is chosen.
  choose(changes) {
    const { choice, panel } = this;
    choice.set(changes);
    for (const id of ['page', 'station', 'kind', 'number', 'frame']) element(id).value = choice[id] ?? '';
    this.showSpan();
    element('only').disabled = choice.page === null;
    panel.drawLegend();
    panel.drawPages(page => this.pick({ page }));
    panel.fillList();
    this.drawSoon();
  }

  // Chooses something, and Back leads to what was chosen before.
  pick(changes) {
    this.keepAddress();
    this.choose(changes);
  }

  // No page, no station and no span any more.
  chooseNothing() {
    const { choice } = this;
    if (choice.isAny() || choice.first !== null) this.pick({ page: null, station: null, first: null, last: null });
  }

  // Shows the span that is chosen, and its figures.
  showSpan() {
    const { choice, shift } = this;
    element('first').value = choice.first === null ? '' : choice.first + shift.before;
    element('last').value = choice.last === null ? '' : choice.last + shift.before;
    element('zoom-span').disabled = element('no-span').disabled = choice.first === null;
    drawFigures(shift, choice);
  }

  // A span from one message to another, in either order.
  spanOf(one, other) {
    const within = turn => Math.max(1, Math.min(this.shift.messages, turn));
    const [first, last] = [within(one), within(other)];
    return { first: Math.min(first, last), last: Math.max(first, last) };
  }

  goTo(turn) {
    const { picture, shift } = this;
    picture.cursor.turn = Math.max(Math.min(1, shift.messages), Math.min(shift.messages, turn));
    picture.hover = null;
    picture.reveal(picture.cursor.turn);
    element('message').value = picture.cursor.turn + shift.before;
    this.panel.list.reveal(picture.cursor.turn);
    this.drawSoon();
  }

  // Goes to a message, and Back leads from there to the place before.
  visit(turn) {
    this.keepAddress();
    this.goTo(turn);
  }

  goToFrame(step) {
    const { picture } = this;
    const { frame } = picture.cursor;
    const row = frame === null || picture.rowOf[frame] < 0 ? 0 : picture.rowOf[frame] + step;
    if (row < 0 || row >= picture.rows.length) return;
    picture.cursor.frame = picture.rows[row];
    picture.hover = null;
    picture.revealFrame(picture.cursor.frame);
    this.drawSoon();
  }

  // The next message after the place kept, or before it, that passes the test.
  goToNext(step, test) {
    let turn = this.picture.cursor.turn + step;
    while (turn >= 1 && turn <= this.shift.messages && !test(turn)) turn += step;
    if (turn >= 1 && turn <= this.shift.messages) this.goTo(turn);
  }

  goToRefusal(step) {
    const { choice, shift } = this;
    const isListed = number => number > 0 && (choice.number === null || choice.hasNumber(number));
    this.goToNext(step, turn => choice.has(turn) && isListed(shift.numbers[turn]));
  }

  // The next message of the list, or the one before.
  goToListed(step) {
    const { list } = this.choice;
    const { turn } = this.picture.cursor;
    const place = step > 0 ? lastUpTo(list, turn) + 1 : lastUpTo(list, turn - 1);
    if (place >= 0 && place < list.length) this.goTo(list[place]);
  }

  zoom(factor, x = this.picture.x(this.picture.cursor.turn)) {
    this.picture.zoom(factor, x);
    this.drawSoon();
  }

  showWhole() {
    this.picture.show(0, this.picture.whole());
    this.drawSoon();
  }

  rows(factor) {
    const { picture } = this;
    picture.fitRow(picture.row * factor);
    if (picture.cursor.frame !== null) picture.revealFrame(picture.cursor.frame);
    this.drawSoon();
  }

  // ---- The address: a link leads to the same part, place and settings, and Back to those before the last choice

  address() {
    const { picture, choice, shift } = this;
    const rounded = number => Math.round(number * 10) / 10;
    const inFile = turn => (turn === null ? null : turn + shift.before);
    const parts = {
      at: inFile(picture.cursor.turn),
      from: rounded(picture.from + shift.before),
      span: rounded(picture.span),
      frame: picture.cursor.frame,
      page: choice.page,
      station: choice.station,
      kind: choice.kind,
      number: choice.number,
      'list-frame': choice.frame,
      first: inFile(choice.first),
      last: inFile(choice.last),
      colour: picture.colouring === 'page' ? null : picture.colouring,
      all: element('only').checked ? null : 1,
      rows: picture.wish > LEAST_ROW ? rounded(picture.wish) : null,
      top: picture.top > 0 ? rounded(picture.top) : null,
    };
    return `#${new URLSearchParams(Object.entries(parts).filter(([, value]) => value !== null))}`;
  }

  // Writes the address of what is shown soon, over the one before.
  writeAddress() {
    clearTimeout(this.addressDue);
    this.shown = this.address();
    this.addressDue = setTimeout(() => history.replaceState(null, '', this.shown), 300);
  }

  // Before a choice is drawn: what is shown still becomes the place to which Back leads.
  keepAddress() {
    clearTimeout(this.addressDue);
    history.replaceState(null, '', this.shown);
    history.pushState(null, '', this.shown);
  }

  readAddress() {
    const parts = new URLSearchParams(location.hash.slice(1));
    const { picture, shift } = this;
    const number = (name, most) => {
      const value = parts.has(name) ? Number(parts.get(name)) : NaN;
      return value >= 0 && value <= most ? value : null;
    };
    const whole = (name, most) => (Number.isInteger(number(name, most)) ? number(name, most) : null);
    const turn = name => {
      const value = whole(name, shift.before + shift.messages);
      return value === null || value <= shift.before ? null : value - shift.before;
    };
    const from = number('from', shift.before + shift.messages);
    picture.show(from === null ? 0 : from - shift.before, number('span', shift.messages) ?? picture.whole());
    picture.cursor.turn = turn('at') ?? Math.min(1, shift.messages);
    picture.cursor.frame = whole('frame', shift.rows - 1);
    picture.wish = number('rows', MOST_ROW) ?? LEAST_ROW;
    picture.top = number('top', Infinity) ?? 0;
    picture.colouring = ['mark', 'age'].includes(parts.get('colour')) ? parts.get('colour') : 'page';
    element('colour').value = picture.colouring;
    element('message').value = picture.cursor.turn + shift.before;
    element('only').checked = !parts.has('all');
    const [first, last] = [turn('first'), turn('last')];
    const hasSpan = first !== null && last !== null && first <= last;
    this.choice.set({
      page: whole('page', PAGES - 1),
      station: whole('station', STATIONS - 1),
      kind: whole('kind', shift.kinds.length),
      number: parts.get('number') === REFUSED ? REFUSED : whole('number', shift.words.length - 1),
      frame: whole('list-frame', shift.frames - 1),
      first: hasSpan ? first : null,
      last: hasSpan ? last : null,
    });
  }

  // ---- Events

  listen() {
    const click = (id, action) => element(id).addEventListener('click', action);
    const chosen = id => (element(id).value === '' ? null : Number(element(id).value));
    click('zoom-in', () => this.zoom(0.5));
    click('zoom-out', () => this.zoom(2));
    click('whole', () => this.showWhole());
    click('rows-lower', () => this.rows(1 / 1.5));
    click('rows-higher', () => this.rows(1.5));
    click('earlier', () => this.goToListed(-1));
    click('later', () => this.goToListed(1));
    click('print', () => window.print());
    click('zoom-span', () => this.showSpanWhole());
    click('no-span', () => this.pick({ first: null, last: null }));
    const change = (id, action) => element(id).addEventListener('change', action);
    for (const id of ['page', 'station', 'kind', 'frame']) change(id, () => this.pick({ [id]: chosen(id) }));
    change('number', () => this.pick({ number: element('number').value === REFUSED ? REFUSED : chosen('number') }));
    change('only', () => {
      this.keepAddress();
      this.drawSoon();
    });
    change('colour', () => this.paint(element('colour').value));
    change('message', () => this.visit((Math.round(Number(element('message').value)) || 1) - this.shift.before));
    for (const id of ['first', 'last']) change(id, () => this.pickSpan(id));
    element('tools').addEventListener('submit', event => event.preventDefault());
    document.addEventListener('keydown', event => this.key(event));
    window.addEventListener('resize', () => this.resize());
    new ResizeObserver(() => this.resize()).observe(element('map'));
    window.addEventListener('popstate', () => {
      clearTimeout(this.addressDue);
      this.readAddress();
      this.choose({});
    });
    window.addEventListener('beforeprint', () => this.setPaper(true));
    window.addEventListener('afterprint', () => this.setPaper(false));
    matchMedia('(prefers-color-scheme: dark)').addEventListener('change', () => this.changeTheme());
    this.listenToPointer();
  }

  // The window, or what the head takes of it, has another size.
  resize() {
    this.picture.measure();
    this.draw();
  }

  changeTheme() {
    this.picture.readTheme();
    this.choose({});
  }

  // What a colour stands for from now on.
  paint(colouring) {
    this.keepAddress();
    this.picture.colouring = colouring;
    this.panel.drawLegend();
    this.drawSoon();
  }

  // One end of the span was typed; the other one is the shift's if there is none.
  pickSpan(id) {
    const { choice, shift } = this;
    const typed = element(id).value === '' ? null : Math.round(Number(element(id).value)) - shift.before;
    if (typed === null || shift.messages === 0) return this.pick({ first: null, last: null });
    const other = id === 'first' ? choice.last ?? shift.messages : choice.first ?? 1;
    this.pick(this.spanOf(typed, other));
  }

  // The picture shows the span that is chosen.
  showSpanWhole() {
    const { first, last } = this.choice;
    if (first === null) return;
    this.keepAddress();
    this.picture.show(first - 1, last - first + 1);
    this.drawSoon();
  }

  // Lays the page out for paper, or for the screen again.
  setPaper(isPaper) {
    document.documentElement.classList.toggle('print', isPaper);
    this.picture.readTheme();
    this.panel.drawLegend();
    this.resize();
  }

  key(event) {
    const isElsewhere = event.target.closest('input, select, #messages');
    if (isElsewhere || event.ctrlKey || event.metaKey || event.altKey) return;
    const { shift, choice, picture } = this;
    const { turn } = picture.cursor;
    const stride = event.shiftKey ? 10 : 1;
    const back = event.shiftKey ? -1 : 1;
    const actions = {
      ArrowLeft: () => this.goTo(turn - stride),
      ArrowRight: () => this.goTo(turn + stride),
      ArrowUp: () => this.goToFrame(-1),
      ArrowDown: () => this.goToFrame(1),
      PageUp: () => this.goTo(turn - Math.floor(picture.span / 2)),
      PageDown: () => this.goTo(turn + Math.floor(picture.span / 2)),
      Home: () => this.goTo(1),
      End: () => this.goTo(shift.messages),
      '+': () => this.zoom(0.5),
      '=': () => this.zoom(0.5),
      '-': () => this.zoom(2),
      0: () => this.showWhole(),
      '[': () => this.rows(1 / 1.5),
      ']': () => this.rows(1.5),
      n: () => this.goToListed(back),
      r: () => this.goToRefusal(back),
      s: () => this.pick(this.spanOf(turn, event.shiftKey ? choice.first ?? 1 : choice.last ?? shift.messages)),
      Escape: () => this.chooseNothing(),
    };
    const action = actions[event.key.length === 1 ? event.key.toLowerCase() : event.key];
    if (!action) return;
    event.preventDefault();
    action();
  }

  listenToPointer() {
    for (const id of ['map', 'lanes']) {
      const canvas = element(id);
      canvas.addEventListener('wheel', event => this.wheel(event), { passive: false });
      canvas.addEventListener('pointerdown', event => this.grab(event));
      canvas.addEventListener('pointermove', event => this.move(event));
      canvas.addEventListener('pointerup', event => this.release(event));
      canvas.addEventListener('pointercancel', () => (this.grabbed = null));
      canvas.addEventListener('pointerleave', () => this.leave());
    }
    const overview = element('overview');
    const drag = event => {
      const share = (event.offsetX - GUTTER) / this.picture.width;
      this.picture.show(share * this.picture.whole() - this.picture.span / 2, this.picture.span);
      this.drawSoon();
    };
    overview.addEventListener('pointerdown', event => {
      overview.setPointerCapture(event.pointerId);
      drag(event);
    });
    overview.addEventListener('pointermove', event => event.buttons && drag(event));
  }

  wheel(event) {
    event.preventDefault();
    const { picture } = this;
    const isAcross = Math.abs(event.deltaX) > Math.abs(event.deltaY);
    const way = isAcross ? event.deltaX : event.deltaY;
    if (event.altKey) {
      picture.scroll(picture.top + way);
    } else if (event.shiftKey || isAcross) {
      picture.show(picture.from + (way * picture.span) / picture.width, picture.span);
    } else {
      picture.zoom(1.0015 ** way, event.offsetX);
    }
    this.drawSoon();
  }

  placeOf(event) {
    const { picture } = this;
    const frame = event.target === element('map') ? picture.frameAt(event.offsetY) : null;
    return { turn: picture.turnAt(event.offsetX), frame };
  }

  grab(event) {
    const { picture } = this;
    event.target.setPointerCapture(event.pointerId);
    element('map').focus({ preventScroll: true });
    const { offsetX: x, offsetY: y } = event;
    const marksFrom = event.shiftKey ? picture.turnAt(x) : null;
    this.grabbed = { x, y, from: picture.from, top: picture.top, isMoved: false, marksFrom };
  }

  move(event) {
    const { picture, grabbed } = this;
    if (grabbed) {
      const [x, y] = [event.offsetX - grabbed.x, event.offsetY - grabbed.y];
      grabbed.isMoved = grabbed.isMoved || Math.abs(x) + Math.abs(y) > 4;
      if (!grabbed.isMoved) return;
      if (grabbed.marksFrom !== null) {
        this.markSpan(grabbed, picture.turnAt(event.offsetX));
        return;
      }
      picture.show(grabbed.from - x / picture.cell(), picture.span);
      picture.scroll(grabbed.top - y);
      picture.hover = null;
      this.drawSoon();
      return;
    }
    if (this.shift.messages === 0) return;
    picture.hover = this.placeOf(event);
    this.drawPlace();
  }

  // The pointer marks a span; its figures follow when it is let go.
  markSpan(grabbed, turn) {
    if (!grabbed.isMarking) this.keepAddress();
    grabbed.isMarking = true;
    Object.assign(this.choice, this.spanOf(grabbed.marksFrom, turn));
    this.picture.hover = null;
    this.drawPlace();
  }

  release(event) {
    const { grabbed, picture } = this;
    if (grabbed && grabbed.isMarking) {
      this.showSpan();
      this.writeAddress();
    }
    this.grabbed = null;
    if (!grabbed || grabbed.isMoved || this.shift.messages === 0) return;
    this.keepAddress();
    picture.cursor = this.placeOf(event);
    this.goTo(picture.cursor.turn);
  }

  leave() {
    if (this.grabbed) return;
    this.picture.hover = null;
    this.drawPlace();
  }
}

new View(new Shift());
document.documentElement.dataset.firstPicture = Math.round(performance.now());
