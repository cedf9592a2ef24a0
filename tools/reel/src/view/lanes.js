// ---- The lanes below the map, and the whole shift above it.

// The lanes of the lower canvas: where each begins, and how high it is.
const LANES = { messages: [4, 108], held: [120, 46], tally: [174, 46] };

function drawLanes(picture) {
  const context = picture.contexts.lanes;
  picture.clear(context);
  if (picture.shift.messages === 0) return;
  if (picture.cell() >= 13) drawWords(picture, context);
  else drawDensity(picture, context);
  drawHeld(picture, context);
  drawTally(picture, context);
}

function drawLaneName(picture, context, [top], ...lines) {
  lines.forEach((line, i) => picture.name(context, line, top + 8 + 15 * i));
}

function drawFloor(picture, context, y) {
  context.strokeStyle = picture.palette.line;
  context.lineWidth = 1;
  context.beginPath();
  context.moveTo(GUTTER, y + 0.5);
  context.lineTo(GUTTER + picture.width, y + 0.5);
  context.stroke();
}

// Single messages: the word of each, upwards; a cross and the number at a refused one.
function drawWords(picture, context) {
  const { shift, palette, choice } = picture;
  const [top, height] = LANES.messages;
  drawLaneName(picture, context, LANES.messages, 'messages');
  drawFloor(picture, context, top + height);
  const turns = picture.visibleTurns();
  for (let turn = turns.first; turn <= turns.last; turn++) {
    const x = picture.x(turn) + picture.cell() / 2;
    if (x < GUTTER + 4) continue;
    const kind = shift.kinds[shift.kindOf[turn] - 1];
    const number = shift.numbers[turn];
    const word = kind ? kind.word : 'broken';
    context.save();
    context.translate(x, top + height - 3);
    context.rotate(-Math.PI / 2);
    context.globalAlpha = choice.has(turn) ? 1 : 0.35;
    const words = number > 0 ? `\u2715${number} ${word}` : word;
    picture.text(context, words, 0, 0, number > 0 ? palette.refused : palette.ink, 'left', height - 4);
    context.restore();
  }
}

// Many messages: accepted ones upwards, refused ones downwards, each to its own scale.
function drawDensity(picture, context) {
  const { palette } = picture;
  const [top, height] = LANES.messages;
  const { accepted, refused, width } = density(picture);
  const middle = top + Math.round(height * 0.5);
  const most = list => list.reduce((a, b) => Math.max(a, b), 0) || 1;
  const up = (middle - top) / most(accepted);
  const down = (top + height - middle) / most(refused);
  context.save();
  context.beginPath();
  context.rect(GUTTER, 0, picture.width, top + height);
  context.clip();
  context.fillStyle = palette.soft;
  accepted.forEach((count, i) => context.fillRect(GUTTER + i * width, middle - count * up, width, count * up));
  context.fillStyle = palette.refused;
  refused.forEach((count, i) => context.fillRect(GUTTER + i * width, middle + 1, width, count * down));
  context.restore();
  drawFloor(picture, context, middle);
  drawLaneName(picture, context, LANES.messages, 'accepted');
  drawLaneName(picture, context, [middle + 4], 'refused');
}

// So many messages at least are counted together where they are not drawn one by one: with fewer, one more or less in a
// column would be seen as the teeth of a comb.
const COUNTED = 12;

// How many chosen messages were accepted and refused in each column, and how wide a column is. A message that lies in
// two columns counts in each with its share, so that messages that come evenly are drawn evenly.
function density(picture) {
  const { shift, choice } = picture;
  const cell = picture.cell();
  const width = Math.max(1, Math.ceil(cell * (cell < 2 ? COUNTED : 0)));
  const columns = Math.ceil(picture.width / width);
  const accepted = new Float64Array(columns);
  const refused = new Float64Array(columns);
  const turns = picture.visibleTurns();
  for (let turn = turns.first; turn <= turns.last; turn++) {
    if (!choice.has(turn)) continue;
    const list = shift.numbers[turn] > 0 ? refused : accepted;
    const left = Math.max(0, (picture.x(turn) - GUTTER) / width);
    const right = Math.min(columns, (picture.x(turn) - GUTTER + cell) / width);
    for (let x = Math.floor(left); x < right; x++) {
      list[x] += ((Math.min(x + 1, right) - Math.max(x, left)) * width) / cell;
    }
  }
  return { accepted, refused, width };
}

// A step curve over the visible messages, by columns where there are many.
function curve(picture, value, put) {
  const turns = picture.visibleTurns();
  const step = Math.max(1, picture.span / picture.width / 2);
  for (let at = turns.first; at < turns.last + step; at += step) {
    const turn = Math.min(turns.last, Math.floor(at));
    put(Math.max(GUTTER, picture.x(turn)), value(turn));
    put(Math.min(GUTTER + picture.width, picture.x(turn + 1)), value(turn));
  }
}

// Fast frames below in one tone, slow ones above them hatched.
function drawHeld(picture, context) {
  const { shift, palette } = picture;
  const [top, height] = LANES.held;
  const floor = top + height;
  const unit = height / Math.max(1, shift.frames);
  const area = value => {
    context.beginPath();
    context.moveTo(GUTTER, floor);
    curve(picture, value, (x, y) => context.lineTo(x, floor - y * unit));
    context.lineTo(Math.min(GUTTER + picture.width, picture.x(shift.messages + 1)), floor);
    context.fill();
  };
  context.fillStyle = palette.hatch(context, palette.soft);
  area(turn => shift.heldFast[turn] + shift.heldSlow[turn]);
  context.fillStyle = palette.paper;
  area(turn => shift.heldFast[turn]);
  context.globalAlpha = 0.75;
  context.fillStyle = palette.soft;
  area(turn => shift.heldFast[turn]);
  context.globalAlpha = 1;
  drawFloor(picture, context, floor);
  drawFloor(picture, context, top);
  drawMost(picture, context);
  drawLaneName(picture, context, LANES.held, 'held of', `${shift.frames}`);
}

// A line at the message after which the most frames are held first, or at the left edge where that is the start.
function drawMost(picture, context) {
  const { shift, palette } = picture;
  const [top, height] = LANES.held;
  const x = shift.mostAt > 0 ? picture.x(shift.mostAt) + picture.cell() / 2 : picture.x(1);
  if (x < GUTTER || x > GUTTER + picture.width) return;
  context.strokeStyle = palette.accent;
  context.lineWidth = 2;
  context.beginPath();
  context.moveTo(x, top);
  context.lineTo(x, top + height);
  context.stroke();
  const [beside, align] = x < GUTTER + picture.width / 2 ? [x + 5, 'left'] : [x - 5, 'right'];
  picture.text(context, `most: ${shift.most}`, beside, top + 8, palette.accent, align);
}

// Bytes laid as a line, refusals dashed, each from its value at the left to that at the right.
function drawTally(picture, context) {
  const { shift, palette } = picture;
  const [top, height] = LANES.tally;
  const turns = picture.visibleTurns();
  const line = (list, colour, dash) => {
    const low = list[turns.first - 1];
    const rise = Math.max(1, list[turns.last] - low);
    context.strokeStyle = colour;
    context.lineWidth = 1.5;
    context.setLineDash(dash);
    context.beginPath();
    const y = value => top + height - ((value - low) / rise) * (height - 2);
    curve(picture, turn => list[turn], (x, value) => context.lineTo(x, y(value)));
    context.stroke();
    context.setLineDash([]);
  };
  line(shift.laid, palette.ink, []);
  line(shift.refused, palette.refused, [5, 4]);
  drawFloor(picture, context, top + height);
  drawLaneName(picture, context, LANES.tally, 'tally');
  const range = list => `${grouped(list[turns.first - 1])} to ${grouped(list[turns.last])}`;
  picture.text(context, `\u2014 ${range(shift.laid)} bytes laid`, GUTTER + 6, top + 8, palette.ink);
  picture.text(context, `- - ${range(shift.refused)} refused`, GUTTER + 6, top + 22, palette.refused);
}

// Frames held over the whole shift, a tick for each refusal, and the part that the map shows.
function drawOverview(picture) {
  const context = picture.contexts.overview;
  const { shift, palette } = picture;
  picture.clear(context);
  const height = context.canvas.clientHeight;
  if (shift.messages === 0) return;
  const x = turn => GUTTER + ((turn - 1) * picture.width) / picture.whole();
  context.fillStyle = palette.dim;
  const unit = (height - 14) / Math.max(1, shift.frames);
  const columns = Math.ceil(picture.width);
  for (let column = 0; column < columns; column++) {
    const turn = Math.min(shift.messages, Math.floor((column * shift.messages) / columns) + 1);
    const held = (shift.heldFast[turn] + shift.heldSlow[turn]) * unit;
    context.fillRect(GUTTER + column, height - 10 - held, 1, held);
  }
  context.fillStyle = palette.refused;
  for (const turn of picture.choice.refusals) context.fillRect(Math.floor(x(turn)), height - 9, 1, 7);
  const left = x(picture.from + 1);
  const width = Math.max(3, (picture.span * picture.width) / picture.whole());
  context.strokeStyle = palette.accent;
  context.lineWidth = 2;
  context.strokeRect(left + 1, 1, width - 2, height - 3);
  picture.name(context, 'whole shift', height / 2 - 4);
}
