// A plane mesh on a canvas: cells by their colours, lines over them, zoomed and panned; of the desk and of the pages that are written beside a mesh. A large mesh is painted
// into a bitmap in slices of a few milliseconds, and the bitmap is moved while the hand moves, so that a frame never waits for the mesh.
'use strict';

const SLICE = 7;          // milliseconds of painting in a frame
const REST = 90;          // milliseconds after which a view counts as still
const MARGIN = 0.3;       // of the view, painted beyond each side of it
const SMALL = 3.5;        // pixels: cells below it are painted pixel by pixel, without lines
const AT_ONCE = 2500;     // cells that are painted in every frame
const CLOSEST = 4000;     // times the fit that a view can be zoomed in
const FAREST = 0.2;

// ---- cells in a grid of squares, to find those in a window or at a place

class Index {
  constructor(points, groups) {
    this.points = points;
    this.groups = groups;
    this.count = groups.reduce((sum, {nodes, width}) => sum + nodes.length / width, 0);
    this.boxes = new Float64Array(4 * this.count);
    this.all = new Uint32Array(groups.reduce((sum, {nodes}) => sum + nodes.length, 0));   // the nodes of all cells, one after the other
    this.offset = new Uint32Array(this.count + 1);
    const {boxes} = this;
    let filled = 0, at = 0, lowX = Infinity, lowY = Infinity, highX = -Infinity, highY = -Infinity;
    for (const {nodes, width} of groups) {
      this.all.set(nodes, filled);
      filled += nodes.length;
      for (let i = 0; i < nodes.length; i += width, at++) {
        this.offset[at + 1] = this.offset[at] + width;
        let ax = Infinity, ay = Infinity, bx = -Infinity, by = -Infinity;
        for (let k = 0; k < width; k++) {
          const x = points[2 * nodes[i + k]], y = points[2 * nodes[i + k] + 1];
          if (x < ax) ax = x;
          if (x > bx) bx = x;
          if (y < ay) ay = y;
          if (y > by) by = y;
        }
        if (ax < lowX) lowX = ax;
        if (ay < lowY) lowY = ay;
        if (bx > highX) highX = bx;
        if (by > highY) highY = by;
        boxes[4 * at] = ax;
        boxes[4 * at + 1] = ay;
        boxes[4 * at + 2] = bx;
        boxes[4 * at + 3] = by;
      }
    }
    const [low, high] = this.count ? [[lowX, lowY], [highX, highY]] : [[0, 0], [1, 1]];
    Object.assign(this, {low, high});
    const extent = Math.max(high[0] - low[0], high[1] - low[1]) || 1;
    this.step = Math.max(extent / 512, Math.sqrt((high[0] - low[0] || extent) * (high[1] - low[1] || extent) / Math.max(this.count, 1)) * 1.5) || 1;
    this.columns = Math.max(1, Math.ceil((high[0] - low[0]) / this.step));
    this.rows = Math.max(1, Math.ceil((high[1] - low[1]) / this.step));
    this.stamp = new Uint32Array(this.count);
    this.now = 0;
  }

  span(ax, ay, bx, by) {
    const column = x => Math.max(0, Math.min(this.columns - 1, Math.floor((x - this.low[0]) / this.step)));
    const row = y => Math.max(0, Math.min(this.rows - 1, Math.floor((y - this.low[1]) / this.step)));
    return [column(ax), row(ay), column(bx), row(by)];
  }

  // The cells of each square, one square after the other; filed when they are first asked for.
  file() {
    const {columns, rows, count, boxes, step, low: [x, y]} = this, starts = new Uint32Array(columns * rows + 1), spans = new Uint16Array(4 * count);
    const place = (far, most) => Math.max(0, Math.min(most - 1, Math.floor(far / step)));
    for (let cell = 0, at = 0; cell < count; cell++, at += 4) {
      const c0 = spans[at] = place(boxes[at] - x, columns), r0 = spans[at + 1] = place(boxes[at + 1] - y, rows);
      const c1 = spans[at + 2] = place(boxes[at + 2] - x, columns), r1 = spans[at + 3] = place(boxes[at + 3] - y, rows);
      for (let r = r0; r <= r1; r++) for (let c = c0; c <= c1; c++) starts[r * columns + c + 1]++;
    }
    for (let i = 0; i < starts.length - 1; i++) starts[i + 1] += starts[i];
    const next = starts.slice(), items = new Uint32Array(starts[starts.length - 1]);
    for (let cell = 0, at = 0; cell < count; cell++, at += 4) {
      for (let r = spans[at + 1]; r <= spans[at + 3]; r++) for (let c = spans[at]; c <= spans[at + 2]; c++) items[next[r * columns + c]++] = cell;
    }
    Object.assign(this, {starts, items});
  }

  // The cells whose box meets a window, each once.
  within(ax, ay, bx, by) {
    if (!this.items) this.file();
    const found = [], [c0, r0, c1, r1] = this.span(ax, ay, bx, by), {boxes} = this;
    this.now++;
    for (let r = r0; r <= r1; r++) {
      for (let c = c0; c <= c1; c++) {
        const square = r * this.columns + c;
        for (let i = this.starts[square]; i < this.starts[square + 1]; i++) {
          const cell = this.items[i], at = 4 * cell;
          if (this.stamp[cell] === this.now) continue;
          this.stamp[cell] = this.now;
          if (boxes[at] <= bx && boxes[at + 2] >= ax && boxes[at + 1] <= by && boxes[at + 3] >= ay) found.push(cell);
        }
      }
    }
    return found;
  }

  // The nodes of a cell by its number in all groups.
  nodes(cell) {
    return this.all.subarray(this.offset[cell], this.offset[cell + 1]);
  }

  // The cell that holds a place; -1 where none does.
  at(x, y) {
    const near = this.within(x, y, x, y);
    for (const cell of near) {
      const nodes = this.nodes(cell), {points} = this;
      let inside = true;
      for (let k = 0; k < nodes.length && inside; k++) {
        const a = 2 * nodes[k], b = 2 * nodes[(k + 1) % nodes.length];
        inside = (points[b] - points[a]) * (y - points[a + 1]) - (points[b + 1] - points[a + 1]) * (x - points[a]) >= 0;
      }
      if (inside) return cell;
    }
    return -1;
  }
}

// ---- what is drawn: points, groups of cells with a colour each, lines and dots over them

class Picture {
  // groups: [{nodes, width, classes (a colour's place for each cell), palette}]; lines: [{pairs, colour, width, halo, dash}]; dots: [{nodes, colour, radius, rim}];
  // labels: [{node, words}], beside rings. Widths and radii are pixels of the page at any scale, but for dots with a share of a cell.
  constructor({points, groups, lines = [], dots = [], labels = []}) {
    Object.assign(this, {points, groups, lines, dots, labels});
    this.index = new Index(points, groups);
    this.count = this.index.count;
    this.classes = new Uint8Array(this.count);
    this.palette = [];
    let at = 0;
    for (const {nodes, width, classes, palette} of groups) {
      const own = nodes.length / width, base = this.palette.length;
      for (let i = 0; i < own; i++) this.classes[at + i] = base + (classes ? classes[i] : 0);
      this.palette.push(...palette);
      at += own;
    }
    this.order = new Uint32Array(this.count);
    for (let i = 0; i < this.count; i++) this.order[i] = i;
    this.order = this.sorted(this.order);
    const {low, high} = this.index, area = (high[0] - low[0]) * (high[1] - low[1]);
    this.typical = Math.sqrt(area / Math.max(this.count, 1)) || 1;
  }

  // Cells by their colour.
  sorted(cells) {
    const starts = new Uint32Array(this.palette.length + 1), sorted = new Uint32Array(cells.length);
    for (const cell of cells) starts[this.classes[cell] + 1]++;
    for (let i = 0; i < this.palette.length; i++) starts[i + 1] += starts[i];
    for (const cell of cells) sorted[starts[this.classes[cell]]++] = cell;
    return sorted;
  }
}

// A place of the mesh on the screen and back; y goes up in the mesh and down on the screen.
class Camera {
  constructor(x = 0, y = 0, scale = 1) {
    Object.assign(this, {x, y, scale}); // the place in the middle, and pixels to a unit
  }

  same(other) {
    return other && this.x === other.x && this.y === other.y && this.scale === other.scale;
  }

  copy() {
    return new Camera(this.x, this.y, this.scale);
  }
}

const rgb = colour => {
  const n = parseInt(colour.slice(1), 16);
  return 0xff000000 | (n & 0xff) << 16 | (n & 0xff00) | n >> 16 & 0xff;
};

// Paints a picture for a camera into a bitmap, a slice at a time.
class Painter {
  constructor(picture, camera, width, height, ratio, style) {
    Object.assign(this, {picture, camera: camera.copy(), width, height, ratio, style});
    this.canvas = document.createElement('canvas');
    this.canvas.width = Math.max(1, Math.round(width * ratio));
    this.canvas.height = Math.max(1, Math.round(height * ratio));
    this.context = this.canvas.getContext('2d');
    this.scale = camera.scale * ratio;
    this.left = this.canvas.width / 2 - camera.x * this.scale;
    this.top = this.canvas.height / 2 + camera.y * this.scale;
    const half = [width / 2 / camera.scale, height / 2 / camera.scale], {index} = picture;
    const window = [camera.x - half[0], camera.y - half[1], camera.x + half[0], camera.y + half[1]];
    const all = window[0] <= index.low[0] && window[1] <= index.low[1] && window[2] >= index.high[0] && window[3] >= index.high[1];
    this.cells = all ? picture.order : picture.sorted(index.within(...window));
    this.fine = picture.typical * camera.scale >= SMALL;
    this.place = 0;
    this.done = false;
  }

  // Paints until the time is over; true when the bitmap is whole.
  paint(until) {
    while (this.place < this.cells.length) {
      if (performance.now() > until) return false;
      const end = Math.min(this.cells.length, this.place + (this.fine ? 600 : 6000));
      this.fine ? this.draw(this.place, end) : this.fill(this.place, end);
      this.place = end;
    }
    if (!this.done) {
      if (this.image) this.context.putImageData(this.image, 0, 0);
      this.over();
      this.done = true;
    }
    return true;
  }

  draw(from, to) {
    const {context, picture, cells, scale, left, top} = this, {points, classes, palette, index} = picture;
    const room = picture.typical * this.camera.scale;
    context.lineWidth = Math.min(1, Math.max(0.25, room / 36)) * this.ratio;
    context.lineJoin = 'round';
    for (let at = from; at < to;) {
      const own = classes[cells[at]];
      context.beginPath();
      for (; at < to && classes[cells[at]] === own; at++) {
        const first = index.offset[cells[at]], last = index.offset[cells[at] + 1];
        for (let k = first; k < last; k++) {
          const x = left + points[2 * index.all[k]] * scale, y = top - points[2 * index.all[k] + 1] * scale;
          k > first ? context.lineTo(x, y) : context.moveTo(x, y);
        }
        context.closePath();
      }
      context.fillStyle = palette[own];
      context.fill();
      context.strokeStyle = this.style.line;
      context.stroke();
    }
  }

  // Cells of a few pixels: a pixel has the colour of the cell that holds its middle.
  fill(from, to) {
    const {canvas: {width, height}, picture, cells, scale, left, top} = this, {points, classes, palette, index} = picture;
    this.image = this.image || this.context.createImageData(width, height);
    this.pixels = this.pixels || new Uint32Array(this.image.data.buffer);
    this.colours = this.colours || palette.map(rgb);
    const {pixels, colours} = this, xs = new Float64Array(4), ys = new Float64Array(4);
    for (let at = from; at < to; at++) {
      const first = index.offset[cells[at]], count = index.offset[cells[at] + 1] - first, colour = colours[classes[cells[at]]];
      let ax = width, ay = height, bx = 0, by = 0;
      for (let k = 0; k < count; k++) {
        const node = 2 * index.all[first + k], x = xs[k] = left + points[node] * scale, y = ys[k] = top - points[node + 1] * scale;
        if (x < ax) ax = x;
        if (x > bx) bx = x;
        if (y < ay) ay = y;
        if (y > by) by = y;
      }
      const x0 = Math.max(0, Math.floor(ax)), x1 = Math.min(width - 1, Math.ceil(bx)), y0 = Math.max(0, Math.floor(ay)), y1 = Math.min(height - 1, Math.ceil(by));
      for (let y = y0; y <= y1; y++) {
        for (let x = x0; x <= x1; x++) {
          const px = x + 0.5, py = y + 0.5;
          let inside = true;
          for (let k = 0; k < count && inside; k++) {
            const n = k + 1 === count ? 0 : k + 1;
            inside = (xs[n] - xs[k]) * (py - ys[k]) - (ys[n] - ys[k]) * (px - xs[k]) <= 1e-9;
          }
          if (inside) pixels[y * width + x] = colour;
        }
      }
    }
  }

  // Lines, dots and labels over the cells.
  over() {
    const {context, picture, scale, left, top, ratio} = this, {points} = picture, colourOf = colour => this.style[colour] || colour;
    const x = node => left + points[2 * node] * scale, y = node => top - points[2 * node + 1] * scale;
    context.lineCap = context.lineJoin = 'round';
    for (const {pairs, colour, width, halo, dash} of picture.lines) {
      context.beginPath();
      for (let i = 0; i < pairs.length; i += 2) {
        context.moveTo(x(pairs[i]), y(pairs[i]));
        context.lineTo(x(pairs[i + 1]), y(pairs[i + 1]));
      }
      if (halo) {  // light around dark, so that the line stands on cells of any colour
        context.strokeStyle = this.style.halo;
        context.lineWidth = (width + 2.4) * ratio;
        context.stroke();
      }
      context.lineCap = dash ? 'butt' : 'round';
      context.setLineDash((dash || []).map(n => n * ratio));
      context.strokeStyle = colourOf(colour);
      context.lineWidth = width * ratio;
      context.stroke();
      context.setLineDash([]);
    }
    const {width: wide, height: high} = this.canvas;
    for (const {nodes, colour, radius, share, rim = 'halo', thick = 1.2} of picture.dots) {
      const r = (share ? Math.min(radius, share * picture.typical * this.camera.scale) : radius) * ratio;
      if (r < 0.4) continue;
      context.beginPath();
      for (const node of nodes) {
        const px = x(node), py = y(node);
        if (px < -r || py < -r || px > wide + r || py > high + r) continue;
        context.moveTo(px + r, py);
        context.arc(px, py, r, 0, 7);
      }
      context.fillStyle = colourOf(colour);
      if (colour !== 'none') context.fill();
      context.lineWidth = thick * ratio;
      context.strokeStyle = colourOf(rim);
      if (rim !== 'none') context.stroke();
    }
    const marks = picture.labels.map(({node, words}) => ({x: x(node) / ratio, y: y(node) / ratio, words}));
    for (const {words, left: from, base} of labelled(marks)) write(context, words, from * ratio, base * ratio, 12 * ratio, this.style);
  }
}

// Where the labels of marks with rings begin: the first place around its ring that no other label or ring has.
function labelled(marks) {
  const room = ([left, base], words) => [left - 1, base - 11, left + 8.5 * words.length + 1, base + 3], apart = (a, b) => a[2] <= b[0] || b[2] <= a[0] || a[3] <= b[1] || b[3] <= a[1];
  const taken = marks.map(({x, y}) => [x - 9, y - 9, x + 9, y + 9]);
  return marks.map(({x, y, words}) => {
    const wide = 8.5 * words.length, spots = [10, 24, 38, 52].flatMap(off => [[off, 6 - off], [off, off + 2], [-off, 6 - off], [-off, off + 2], [off, 4], [-off, 4], [0, -off - 2], [0, off + 12]])
      .map(([dx, dy]) => [dx > 0 ? x + dx : dx < 0 ? x + dx - wide : x - wide / 2, y + dy]);
    const found = spots.find(spot => taken.every(other => apart(room(spot, words), other))) || spots[0];
    taken.push(room(found, words));
    return {words, left: found[0], base: found[1]};
  });
}

const LETTERS = "'DejaVu Sans', Verdana, Arial, sans-serif";

// Words in the ink of the page with a halo around them.
function write(context, words, x, y, size, style, weight = 'bold') {
  context.font = weight + ' ' + size + 'px ' + LETTERS;
  context.lineJoin = 'round';
  context.lineWidth = size / 4;
  context.strokeStyle = style.halo;
  context.strokeText(words, x, y);
  context.fillStyle = style.kept;
  context.fillText(words, x, y);
}

// ---- rulers: the file's coordinates along two sides of a view

const TICK = 76;         // pixels between two ticks at least

// The least of 1, 2 and 5 times a power of ten that is not below a value.
function roundStep(value) {
  const power = 10 ** Math.floor(Math.log10(value));
  return power * [1, 2, 5, 10].find(factor => power * factor >= value * (1 - 1e-9));
}

// A tick's value with as many digits as tell it from the next tick.
function tickWords(value, step) {
  if (step >= 1e-5 && step < 1e6) return value.toFixed(Math.max(0, -Math.floor(Math.log10(step) + 1e-9)));
  return String(Number(value.toPrecision(Math.max(1, Math.ceil(Math.log10(Math.max(Math.abs(value), step) / step) + 1e-9) + 1))));
}

// The ticks of a window: [{x, y, words}], below those with y at the foot, those of the left with x at 0. `wide` is the width of some words in pixels.
function ticksOf({low, high, scale, height}, wide) {
  const values = (k, step) => { const found = []; for (let i = Math.ceil(low[k] / step - 1e-9); i * step <= high[k]; i++) found.push(i * step); return found; };
  let step = roundStep(TICK / scale);
  for (let more = true; more;) {
    const widest = Math.max(0, ...values(0, step).map(value => wide(tickWords(value, step))));
    more = widest + 14 > step * scale;
    if (more) step = roundStep((widest + 14) / scale);
  }
  return [...values(0, step).map(value => ({x: (value - low[0]) * scale, y: height, words: tickWords(value, step)})),
    ...values(1, step).map(value => ({x: 0, y: (high[1] - value) * scale, words: tickWords(value, step)}))];
}

// Draws the rulers; a tick whose words would be cut off, or meet those of the other side, is left out.
function rulers(context, view) {
  const [ax, ay] = view.place(0, view.height), [bx, by] = view.place(view.width, 0), {width, height, style} = view;
  context.font = '12px ' + LETTERS;
  const wide = words => context.measureText(words).width, shown = [];
  for (const {x, y, words} of ticksOf({low: [ax, ay], high: [bx, by], scale: view.camera.scale, height}, wide)) {
    const below = y === height, own = wide(words), room = below ? [x - own / 2, height - 22, x + own / 2, height - 8] : [9, y - 7, 9 + own, y + 7];
    if (room[0] < (below ? 24 : 0) || room[2] > width - 2 || room[1] < 4 || room[3] > height - (below ? 0 : 26)) continue;
    context.beginPath();
    context.moveTo(x, y);
    context.lineTo(below ? x : x + 6, below ? y - 6 : y);
    context.strokeStyle = style.kept;
    context.lineWidth = 1.5;
    context.stroke();
    context.textAlign = below ? 'center' : 'left';
    write(context, words, below ? x : 9, below ? height - 10 : y + 4.5, 12, style, 'normal');
    shown.push({words, room});
  }
  context.textAlign = 'left';
  return shown;
}

// ---- the view: a canvas with a picture, a camera and what is laid over it

class View {
  // over(context, view): draws on top, in pixels of the page. moved(): the camera changed. still: on a page that scrolls, where the bare wheel and one finger are the page's own
  // until the picture is zoomed. pad: pixels around a picture that fits.
  constructor(canvas, {style, over = () => {}, moved = () => {}, still = false, pad = 0}) {
    Object.assign(this, {canvas, style, over, moved, scrolls: still, pad});
    this.context = canvas.getContext('2d');
    this.camera = new Camera();
    this.picture = null;
    this.shown = null;    // the bitmap that is shown, and the painter of the next
    this.painter = null;
    this.zoomed = 0;      // when the scale changed last
    this.asked = false;
    this.frames = 0;
    this.pointers = new Map();
    this.listen();
    new ResizeObserver(() => this.resize()).observe(canvas);
    this.resize();
  }

  resize() {
    const {width, height} = this.canvas.getBoundingClientRect(), ratio = window.devicePixelRatio || 1;
    if (!width || !height) return;
    const fitted = this.fitted;
    Object.assign(this, {width, height, ratio});
    this.canvas.width = Math.round(width * ratio);
    this.canvas.height = Math.round(height * ratio);
    this.shown = null;
    if (fitted) this.fit();
    this.request();
  }

  // Another picture; the camera stays where the mesh is the same one.
  show(picture, stay = false) {
    const before = this.shown;
    this.picture = picture;
    this.shown = stay && before ? {...before, stale: true} : null;
    if (!stay) {  // otherwise a bitmap that is under way is finished and shown first, so that something moves while pictures follow each other
      this.painter = null;
      this.fit();
    }
    this.request();
  }

  restyle(style) {
    this.style = style;
    if (this.shown) this.shown.stale = true;
    this.painter = null;
    this.request();
  }

  fitScale() {
    const {low, high} = this.picture.index, pad = this.pad || Math.min(56, 0.08 * Math.min(this.width, this.height));
    return Math.min((this.width - 2 * pad) / (high[0] - low[0] || 1), (this.height - 2 * pad) / (high[1] - low[1] || 1));
  }

  fit() {
    if (!this.picture || !this.width) return;
    const {low, high} = this.picture.index;
    this.camera = new Camera((low[0] + high[0]) / 2, (low[1] + high[1]) / 2, this.fitScale());
    this.fitted = true;
    this.touch(true);
  }

  // Goes to a place, so near that so much of the mesh is around it.
  go(x, y, extent) {
    this.camera = new Camera(x, y, Math.min(this.width, this.height) / extent);
    this.touch();
  }

  zoom(px, py, factor) {
    if (!this.picture) return;
    const [x, y] = this.place(px, py), fit = this.fitScale();
    const scale = Math.min(CLOSEST * fit, Math.max(FAREST * fit, this.camera.scale * factor));
    this.camera = new Camera(x - (px - this.width / 2) / scale, y + (py - this.height / 2) / scale, scale);
    this.touch();
  }

  pan(dx, dy) {
    this.camera = new Camera(this.camera.x - dx / this.camera.scale, this.camera.y + dy / this.camera.scale, this.camera.scale);
    this.touch();
  }

  touch(fitted = false) {
    this.fitted = fitted;
    if (this.scrolls) this.canvas.style.touchAction = fitted ? 'pan-x pan-y' : 'none';
    if (this.camera.scale !== this.before) this.zoomed = performance.now();
    this.before = this.camera.scale;
    this.moved();
    this.request();
  }

  // From the page's pixels to the mesh, and back.
  place(px, py) {
    return [this.camera.x + (px - this.width / 2) / this.camera.scale, this.camera.y - (py - this.height / 2) / this.camera.scale];
  }

  spot(x, y) {
    return [this.width / 2 + (x - this.camera.x) * this.camera.scale, this.height / 2 - (y - this.camera.y) * this.camera.scale];
  }

  request() {
    if (this.asked) return;
    this.asked = true;
    requestAnimationFrame(() => this.frame());
  }

  // Whether the bitmap serves for the camera: the same scale, and the window within it.
  serves() {
    const {shown, camera} = this;
    if (!shown || shown.stale || shown.camera.scale !== camera.scale) return false;
    return Math.abs(camera.x - shown.camera.x) * camera.scale <= (shown.width - this.width) / 2 + 0.5
      && Math.abs(camera.y - shown.camera.y) * camera.scale <= (shown.height - this.height) / 2 + 0.5;
  }

  paint() {
    const now = performance.now(), small = this.picture.count <= AT_ONCE;
    if (this.serves()) {
      this.painter = null;
      return true;
    }
    if (this.painter && this.painter.camera.scale !== this.camera.scale) this.painter = null;
    if (!this.painter) {
      if (!small && this.shown && now - this.zoomed < REST) return false;
      this.painter = new Painter(this.picture, this.camera, this.width * (1 + 2 * MARGIN), this.height * (1 + 2 * MARGIN), this.ratio, this.style);
    }
    if (!this.painter.paint(small ? Infinity : now + (this.shown && this.shown.stale ? 4 * SLICE : SLICE))) return false;  // longer where what is shown is of another picture
    const {canvas, camera, width, height, picture, style} = this.painter;
    this.shown = {canvas, camera, width, height, stale: picture !== this.picture || style !== this.style};
    this.painter = null;
    return this.serves();
  }

  frame() {
    this.asked = false;
    this.frames++;
    const {context, ratio, width, height, camera} = this;
    context.setTransform(1, 0, 0, 1, 0, 0);
    context.clearRect(0, 0, this.canvas.width, this.canvas.height);
    if (!this.picture) return;
    const done = this.paint();
    if (this.shown) {
      const {shown} = this, zoom = camera.scale / shown.camera.scale, w = shown.width * zoom, h = shown.height * zoom;
      const x = width / 2 + (shown.camera.x - camera.x) * camera.scale - w / 2, y = height / 2 - (shown.camera.y - camera.y) * camera.scale - h / 2;
      context.imageSmoothingEnabled = zoom !== 1;
      context.imageSmoothingQuality = 'low';
      context.drawImage(shown.canvas, x * ratio, y * ratio, w * ratio, h * ratio);
    }
    context.setTransform(ratio, 0, 0, ratio, 0, 0);
    this.over(context, this);
    if (!done) this.request();
  }

  // ---- hands: wheel, pointers, keys

  listen() {
    const {canvas} = this, at = event => {
      const box = canvas.getBoundingClientRect();
      return [event.clientX - box.left, event.clientY - box.top];
    };
    canvas.addEventListener('wheel', event => {
      if (this.scrolls && !event.ctrlKey && !event.metaKey) return;
      event.preventDefault();
      const by = event.deltaY * (event.deltaMode === 1 ? 16 : event.deltaMode === 2 ? 400 : 1);
      this.zoom(...at(event), Math.exp(-Math.max(-400, Math.min(400, by)) * (event.ctrlKey ? 0.01 : 0.0016)));
    }, {passive: false});
    canvas.addEventListener('pointerdown', event => {
      if (event.button > 1) return;
      canvas.setPointerCapture(event.pointerId);
      this.pointers.set(event.pointerId, at(event));
      this.still = this.pointers.size === 1 ? at(event) : null;
      if (this.held) this.release();  // a second finger: the hand zooms
      this.held = this.pointers.size === 1 && event.button === 0 && this.grab ? this.grab(...at(event)) : false;
    });
    canvas.addEventListener('pointermove', event => {
      const before = this.pointers.get(event.pointerId), here = at(event);
      if (!before) {
        if (this.hover) this.hover(...here, event);
        return;
      }
      if (this.still && Math.hypot(here[0] - this.still[0], here[1] - this.still[1]) > 4) this.still = null;
      if (this.held) this.drag(...here);
      else if (this.pointers.size === 1 && !this.still && !(this.scrolls && this.fitted && event.pointerType === 'touch')) this.pan(here[0] - before[0], here[1] - before[1]);
      else if (this.pointers.size === 2) this.pinch(event.pointerId, before, here);
      if (!this.still || this.pointers.size === 2) this.pointers.set(event.pointerId, here);
    });
    const up = event => {
      if (!this.pointers.delete(event.pointerId)) return;
      const here = at(event), clicked = event.type === 'pointerup' && this.still;
      if (this.held) this.drop(...here, clicked);
      else if (clicked && this.click) this.click(...here);
      this.held = false;
      this.still = null;
    };
    canvas.addEventListener('pointerup', up);
    canvas.addEventListener('pointercancel', up);
    canvas.addEventListener('pointerleave', () => { if (this.left && !this.pointers.size) this.left(); });
    canvas.addEventListener('dblclick', event => this.zoom(...at(event), event.shiftKey ? 0.5 : 2));
    canvas.addEventListener('keydown', event => {
      const far = 60, keys = {ArrowLeft: [far, 0], ArrowRight: [-far, 0], ArrowUp: [0, far], ArrowDown: [0, -far]};
      if (event.ctrlKey || event.metaKey || event.altKey) return;
      if (this.key && this.key(event)) return event.preventDefault();
      if (keys[event.key]) this.pan(...keys[event.key]);
      else if (event.key === '+' || event.key === '=') this.zoom(this.width / 2, this.height / 2, 1.4);
      else if (event.key === '-') this.zoom(this.width / 2, this.height / 2, 1 / 1.4);
      else if (event.key === '0') this.fit();
      else return;
      event.preventDefault();
    });
  }

  // Lets go of what is dragged, and nothing comes of it.
  release() {
    this.held = false;
    if (this.let) this.let();
  }

  pinch(id, before, here) {
    const other = [...this.pointers].find(([own]) => own !== id)[1];
    const middle = p => [(p[0] + other[0]) / 2, (p[1] + other[1]) / 2], apart = p => Math.max(8, Math.hypot(p[0] - other[0], p[1] - other[1]));
    const [from, to] = [middle(before), middle(here)];
    this.pan(to[0] - from[0], to[1] - from[1]);
    this.zoom(...to, apart(here) / apart(before));
  }
}

// A line over the mesh, dark within light; places are the file's.
function outline(context, view, places, {width = 2.5, closed = false, dashed = false}) {
  context.beginPath();
  places.forEach(([x, y], i) => { const at = view.spot(x, y); i ? context.lineTo(...at) : context.moveTo(...at); });
  if (closed) context.closePath();
  context.lineCap = context.lineJoin = 'round';
  for (const [colour, wide, dash] of [[view.style.halo, width + 3, []], [view.style.kept, width, dashed ? [4, 5] : []]]) {
    context.setLineDash(dash);
    context.strokeStyle = colour;
    context.lineWidth = wide;
    context.stroke();
  }
  context.setLineDash([]);
}

// What an edge of the front would give: its quad, where it gives one, and the edge itself.
function would(context, view, quad, base) {
  if (quad) {
    context.beginPath();
    quad.forEach(([x, y], i) => { const at = view.spot(x, y); i ? context.lineTo(...at) : context.moveTo(...at); });
    context.closePath();
    context.fillStyle = view.style.halo;
    context.globalAlpha = 0.62;
    context.fill();
    context.globalAlpha = 1;
    outline(context, view, quad, {width: 3, closed: true});
  }
  outline(context, view, base, {width: 7});
}

// ---- what the hand reaches for

// The front edge that is meant, of triangles with the edge first: the nearest within reach, or that of the triangle that is pointed at; -1 where there is none.
function nearestFront(places, x, y, reach) {
  let found = -1, least = Infinity;
  for (let i = 0; i < places.length; i += 6) {
    const far = Math.min(least, off(places, i / 2, i / 2 + 1, x, y));
    if (far < least && (far < reach || holds(places, i, x, y))) [least, found] = [far, i / 6];
  }
  return found;
}

// Whether a triangle holds a place.
function holds(p, at, x, y) {
  const turn = (i, k) => (p[at + k] - p[at + i]) * (y - p[at + i + 1]) - (p[at + k + 1] - p[at + i + 1]) * (x - p[at + i]), turns = [turn(0, 2), turn(2, 4), turn(4, 0)];
  return turns.every(n => n >= 0) || turns.every(n => n <= 0);
}

// The distance of a place from the line between two others.
function off(points, a, b, x, y) {
  const ax = points[2 * a], ay = points[2 * a + 1], dx = points[2 * b] - ax, dy = points[2 * b + 1] - ay, long = dx * dx + dy * dy;
  const t = long ? Math.max(0, Math.min(1, ((x - ax) * dx + (y - ay) * dy) / long)) : 0;
  return Math.hypot(x - ax - t * dx, y - ay - t * dy);
}

// The edge of a cell nearest to a place, within a distance: [u, v], u below v; null where there is none.
function nearestEdge(index, x, y, within) {
  let found = null, least = within;
  for (const cell of index.within(x - within, y - within, x + within, y + within)) {
    const nodes = index.nodes(cell);
    for (let k = 0; k < nodes.length; k++) {
      const a = nodes[k], b = nodes[(k + 1) % nodes.length], far = off(index.points, a, b, x, y);
      if (far < least) [least, found] = [far, a < b ? [a, b] : [b, a]];
    }
  }
  return found;
}

// The node nearest to a place, within a distance; -1 where there is none.
function nearestNode(index, x, y, within) {
  let found = -1, least = within;
  for (const cell of index.within(x - within, y - within, x + within, y + within)) {
    for (const node of index.nodes(cell)) {
      const far = Math.hypot(index.points[2 * node] - x, index.points[2 * node + 1] - y);
      if (far < least) [least, found] = [far, node];
    }
  }
  return found;
}

// The node nearest to a place, however far; -1 where there is no cell.
function closestNode(index, x, y) {
  const {low, high, step} = index, far = Math.hypot(Math.max(low[0] - x, 0, x - high[0]), Math.max(low[1] - y, 0, y - high[1])), most = far + 2 * Math.hypot(high[0] - low[0], high[1] - low[1]);
  for (let within = far + step; index.count && within < 2 * most + 4 * step; within *= 2) {
    const found = nearestNode(index, x, y, within);
    if (found >= 0) return found;
  }
  return -1;
}

// Places by a worth, the least first.
class Heap {
  constructor() {
    this.items = [];
  }

  push(worth, item) {
    const {items} = this;
    let at = items.push([worth, item]) - 1;
    for (let up = at - 1 >> 1; at && items[up][0] > items[at][0]; up = at - 1 >> 1) {
      [items[up], items[at]] = [items[at], items[up]];
      at = up;
    }
  }

  pop() {
    const {items} = this, first = items[0], last = items.pop();
    if (!items.length) return first;
    items[0] = last;
    for (let at = 0; ;) {
      let least = at;
      for (const child of [2 * at + 1, 2 * at + 2]) if (child < items.length && items[child][0] < items[least][0]) least = child;
      if (least === at) return first;
      [items[at], items[least]] = [items[least], items[at]];
      at = least;
    }
  }
}

const STRAY = 0.06;      // what an edge costs on the line itself, for its length; off it the square of the distance, in mean edges, is added

// The edges along a straight line from a node to another: the path with the least cost, which is its length weighted by the square of its distance from the line. [] where no path leads there.
function along(index, around, from, to) {
  const {points} = index, ring = [...around(from)], known = new Map();
  const long = (a, b) => Math.hypot(points[2 * a] - points[2 * b], points[2 * a + 1] - points[2 * b + 1]);
  const unit = ring.reduce((sum, node) => sum + long(from, node), 0) / (ring.length || 1) || 1, heap = new Heap(), cost = new Map([[from, 0]]), before = new Map(), done = new Set();
  const far = node => {
    if (!known.has(node)) known.set(node, off(points, from, to, points[2 * node], points[2 * node + 1]) / unit);
    return known.get(node);
  };
  const price = (a, b) => long(a, b) / unit * (STRAY + (far(a) ** 2 + far(b) ** 2) / 2);
  heap.push(0, from);
  while (heap.items.length) {
    const [, here] = heap.pop();
    if (here === to) break;
    if (done.has(here)) continue;
    done.add(here);
    for (const node of around(here)) {
      const worth = cost.get(here) + price(here, node);
      if (worth >= (cost.has(node) ? cost.get(node) : Infinity)) continue;
      cost.set(node, worth);
      before.set(node, here);
      heap.push(worth + STRAY * long(node, to) / unit, node);  // with the least that the rest can cost
    }
  }
  const path = [];
  for (let node = to; before.has(node); node = before.get(node)) path.unshift([node, before.get(node)].sort((a, b) => a - b));
  return path;
}

// Of the nodes around a node, the one that lies most in a direction (of length 1), and nearest to the line in that direction through another node; -1 where none lies there.
function beside(index, around, node, [dx, dy], through = node) {
  const {points} = index;
  let found = -1, most = -Infinity;
  for (const other of around(node)) {
    const x = points[2 * other] - points[2 * node], y = points[2 * other + 1] - points[2 * node + 1], long = Math.hypot(x, y), turn = (x * dx + y * dy) / long;
    const aside = Math.abs((points[2 * other] - points[2 * through]) * dy - (points[2 * other + 1] - points[2 * through + 1]) * dx) / long;
    if (turn > 0.35 && turn - 0.7 * aside > most) [most, found] = [turn - 0.7 * aside, other];  // 0.35: the cosine of about 70 degrees
  }
  return found;
}

if (typeof module !== 'undefined') module.exports = {Index, Picture, nearestFront, nearestEdge, nearestNode, closestNode, along, beside, off, labelled, ticksOf, tickWords};
