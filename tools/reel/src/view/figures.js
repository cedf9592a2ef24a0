// ---- Figures of the span that is chosen, or of the whole shift.

// How often each number was given, and each kind accepted and refused; all messages beside the chosen ones.
function figuresOf(shift, choice) {
  const [first, last] = choice.ends();
  const figures = {
    numbers: shift.words.map(() => ({ all: 0, chosen: 0 })),
    kinds: [...shift.kinds.map(kind => kind.word), 'broken'].map(word => ({ word, accepted: 0, refused: 0 })),
    held: [Infinity, 0],
  };
  for (let turn = first; turn <= last; turn++) {
    const number = shift.numbers[turn];
    figures.numbers[number].all++;
    if (choice.has(turn)) figures.numbers[number].chosen++;
    const kind = figures.kinds[(shift.kindOf[turn] || figures.kinds.length) - 1];
    if (number > 0) kind.refused++;
    else kind.accepted++;
    const held = shift.heldFast[turn] + shift.heldSlow[turn];
    figures.held = [Math.min(figures.held[0], held), Math.max(figures.held[1], held)];
  }
  return figures;
}

// The figures in a sentence.
function figuresInWords(shift, choice, { held }) {
  const [first, last] = choice.ends();
  if (shift.messages === 0) return 'The file has no messages.';
  const refused = grouped(shift.refused[last] - shift.refused[first - 1]);
  const laid = counted(shift.laid[last] - shift.laid[first - 1], 'byte', 'bytes');
  const frames = held[0] === held[1] ? `${held[0]}` : `${held[0]} to ${held[1]}`;
  return (
    `Messages ${shift.named(first)} to ${shift.named(last)}: ${grouped(last - first + 1)}, ${refused} refused, ` +
    `${laid} laid, ${frames} of ${shift.frames} frames held.`
  );
}

function drawFigures(shift, choice) {
  const figures = figuresOf(shift, choice);
  element('figures-words').textContent = figuresInWords(shift, choice, figures);
  const rows = figures.numbers.map((count, number) => ({ ...count, number })).filter(({ all }) => all > 0);
  element('counts').tBodies[0].replaceChildren(...rows.map(row => countRow(shift, choice, row)));
  element('chosen-head').textContent = choice.isAny() ? 'Chosen' : '';
  const kinds = figures.kinds.filter(({ accepted, refused }) => accepted + refused > 0);
  element('kinds').tBodies[0].replaceChildren(...kinds.map(kindRow));
}

function countRow(shift, choice, { number, all, chosen }) {
  const row = made('tr', '', { 'data-number': number, 'data-count': all });
  const cells = [`${number}`, shift.words[number], grouped(all), choice.isAny() ? grouped(chosen) : ''];
  row.append(...cells.map(cell => made('td', cell)));
  return row;
}

function kindRow({ word, accepted, refused }) {
  const row = made('tr', '', { 'data-kind': word, 'data-accepted': accepted, 'data-refused': refused });
  row.append(...[word, grouped(accepted), grouped(refused)].map(cell => made('td', cell)));
  return row;
}
