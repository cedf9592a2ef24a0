// ---- Colours and shapes: a page has its colour, a mark its shape, so that no mark rests on colour.

class Palette {
  constructor() {
    const style = getComputedStyle(document.documentElement);
    const value = name => style.getPropertyValue(`--${name}`).trim();
    this.paper = value('paper');
    this.ink = value('ink');
    this.soft = value('soft');
    this.line = value('line');
    this.dim = value('dim');
    this.accent = value('accent');
    this.refused = value('refused');
    // On paper it is always light.
    const isPaper = document.documentElement.classList.contains('print');
    const isDark = matchMedia('(prefers-color-scheme: dark)').matches && !isPaper;
    this.pages = Array.from({ length: PAGES }, (_, page) => pageColour(page, isDark));
    this.marks = ['stale', 'recent', 'current'].map(value);
    this.ages = Array.from({ length: AGES.length }, (_, age) => ageColour(age, isDark));
    this.tones = [...this.pages, ...this.marks, ...this.ages, this.dim];
    this.hatches = new Map();
  }

  // Lines in one colour over a light tint of it.
  hatch(context, colour) {
    if (!this.hatches.has(colour)) {
      this.hatches.set(colour, context.createPattern(hatchTile(colour), 'repeat'));
    }
    return this.hatches.get(colour);
  }
}

// How long a page is on its frame, in messages: each class begins with a power of ten.
const AGES = ['below 10', '10 and more', '100', '1,000', '10,000', '100,000', '1,000,000 and more'];

function ageClass(age) {
  return Math.min(AGES.length - 1, Math.floor(Math.log10(Math.max(1, age))));
}

// From a light blue to a dark red, or to a light yellow on a dark ground.
function ageColour(age, isDark) {
  const share = age / (AGES.length - 1);
  const hue = isDark ? 220 - 165 * share : 205 + 150 * share;
  return hslColour(hue, 65, isDark ? 35 + 40 * share : 68 - 40 * share);
}

// Where in the list of tones the marks, the ages and the tone of what is not chosen stand; pages come first.
const TONES = { marks: PAGES, ages: PAGES + MARKS.length, dim: PAGES + MARKS.length + AGES.length };

// Neighbouring pages get hues far apart.
function pageColour(page, isDark) {
  const hue = (page * 137.508) % 360;
  const level = (page % 3) * 7;
  return isDark ? hslColour(hue, 58, 56 + level) : hslColour(hue, 62, 33 + level);
}

function hslColour(hue, saturation, lightness) {
  const amount = (saturation / 100) * Math.min(lightness / 100, 1 - lightness / 100);
  const part = n => {
    const k = (n + hue / 30) % 12;
    return Math.round(255 * (lightness / 100 - amount * Math.max(-1, Math.min(k - 3, 9 - k, 1))));
  };
  return `#${[0, 8, 4].map(n => part(n).toString(16).padStart(2, '0')).join('')}`;
}

function hatchTile(colour) {
  const tile = document.createElement('canvas');
  tile.width = tile.height = 6;
  const context = tile.getContext('2d');
  context.strokeStyle = colour;
  context.globalAlpha = 0.2;
  context.fillStyle = colour;
  context.fillRect(0, 0, 6, 6);
  context.globalAlpha = 1;
  context.lineWidth = 1.6;
  context.beginPath();
  for (const shift of [-6, 0, 6]) {
    context.moveTo(shift - 1, 7);
    context.lineTo(shift + 7, -1);
  }
  context.stroke();
  return tile;
}

// The height of the line that stands for a stale copy in a bar of this height.
function staleHeight(height) {
  return Math.max(1, Math.round(height / 5));
}

// A tick at a read, from the top of the bar, and at a write, from its foot.
function drawTick(context, palette, isWrite, x, y, height) {
  const length = Math.max(3, height * (isWrite ? 0.5 : 0.3));
  context.fillStyle = palette.paper;
  context.fillRect(x - 1, isWrite ? y + height - length : y, 2, length);
}

// The length of a dash, and of a gap.
const DASH = 6;

// A retired frame: a dashed line through the middle.
function drawRetired(context, palette, x, y, width, height) {
  context.strokeStyle = palette.soft;
  context.lineWidth = staleHeight(height);
  context.setLineDash([DASH, DASH]);
  context.beginPath();
  context.moveTo(x, y + height / 2);
  context.lineTo(x + width, y + height / 2);
  context.stroke();
  context.setLineDash([]);
}

// CURRENT: a full bar; MOST RECENT: a hatched bar with a border; stale: a thin line.
function drawCopy(context, palette, colour, mark, x, y, width, height) {
  if (mark === STALE) {
    const line = staleHeight(height);
    context.fillStyle = colour;
    context.fillRect(x, y + height - line, width, line);
    return;
  }
  context.fillStyle = mark === CURRENT ? colour : palette.hatch(context, colour);
  context.fillRect(x, y, width, height);
  if (mark === RECENT && width > 3) {
    context.strokeStyle = colour;
    context.lineWidth = 1;
    context.strokeRect(x + 0.5, y + 0.5, width - 1, height - 1);
  }
}

// A colour as a pixel of image data; `strength` below 1 mixes it with the paper.
function pixelOf(colour, paper, strength = 1) {
  const part = (text, at) => parseInt(text.slice(at, at + 2), 16);
  const mix = at => Math.round(part(colour, at) * strength + part(paper, at) * (1 - strength));
  return ((255 << 24) | (mix(5) << 16) | (mix(3) << 8) | mix(1)) >>> 0;
}
