// The mesh of a page as it grew: replays the entries of its traces and steps through what they changed. Nothing but the given mesh and the trace is drawn.
'use strict';

// ---- the replay

const INSERTION = 1, FLIP = 2, QUAD = 4, INSIDE = 1e-12;

const halves = new DataView(new ArrayBuffer(8));
function double(low, high) {
  halves.setUint32(0, low, true);
  halves.setUint32(4, high, true);
  return halves.getFloat64(0, true);
}

// The entry that begins at a place, with the number of its words; null where it is cut short or of another kind.
function read(words, at) {
  const kind = words[at], there = words.length - at;
  if (kind === INSERTION && there >= 6) {
    return {kind, size: 6, slot: words[at + 1], x: double(words[at + 2], words[at + 3]), y: double(words[at + 4], words[at + 5])};
  }
  if (kind === FLIP && there >= 3) return {kind, size: 3, edge: [words[at + 1], words[at + 2]]};
  if (kind === QUAD && there >= 9 && there >= 9 + words[at + 8]) {
    const [, a, b, c, d, u, v, round, count] = words.slice(at, at + 9);
    return {kind, size: 9 + count, nodes: [a, b, c, d], edge: [u, v], round, slots: Array.from(words.slice(at + 9, at + 9 + count))};
  }
  return null;
}

const key = (u, v) => u < v ? u * 0x4000000 + v : v * 0x4000000 + u;

// The edges of a cell, each once.
function sides(nodes) {
  const found = [];
  for (let i = 0; i < nodes.length; i++) {
    const side = key(nodes[i], nodes[i + 1 < nodes.length ? i + 1 : 0]);
    if (!found.includes(side)) found.push(side);
  }
  return found;
}

// A mesh between two entries: its points, the cells by their slots, and the owners of each edge in the order in which they came.
class Mesh {
  constructor(points, triangles) {
    this.points = [];
    for (let i = 0; i < points.length; i += 2) this.points.push([points[i], points[i + 1]]);
    this.cells = [];
    this.owners = new Map();
    this.changes = [];
    for (let i = 0; i < triangles.length; i += 3) this.put(i / 3, [triangles[i], triangles[i + 1], triangles[i + 2]]);
  }

  // Every change is noted: a slot, its cell before, and the one after.
  put(slot, nodes) {
    const before = this.cells[slot] || null;
    if (before) for (const side of sides(before)) this.owners.set(side, this.owners.get(side).filter(other => other !== slot));
    if (nodes) {
      for (const side of sides(nodes)) this.owners.set(side, [...(this.owners.get(side) || []), slot]);
    }
    this.cells[slot] = nodes;
    this.changes.push([slot, before, nodes]);
  }

  triangle(slot) {
    const cell = this.cells[slot];
    return cell && cell.length === 3 ? cell : null;
  }

  side(a, b, p) {
    const [ax, ay] = this.points[a], [bx, by] = this.points[b];
    return (bx - ax) * (p[1] - ay) - (by - ay) * (p[0] - ax);
  }

  // Makes an entry; false where it cannot be made.
  make(entry) {
    this.changes = [];
    return entry.kind === INSERTION ? this.insert(entry) : entry.kind === FLIP ? this.flip(entry) : this.place(entry);
  }

  insert({slot, x, y}) {
    const nodes = this.triangle(slot);
    if (!nodes) return false;
    const [a, b, c] = nodes, p = [x, y], turns = [this.side(a, b, p), this.side(b, c, p), this.side(c, a, p)];
    if (!turns.every(turn => turn > INSIDE) && !turns.every(turn => turn < -INSIDE)) return false;
    const node = this.points.push(p) - 1, next = this.cells.length;
    this.put(slot, [a, b, node]);
    this.put(next, [b, c, node]);
    this.put(next + 1, [c, a, node]);
    return true;
  }

  flip({edge: [u, v]}) {
    const owners = u < v && this.owners.get(key(u, v)) || [];
    if (owners.length !== 2 || !owners.every(slot => this.triangle(slot))) return false;
    const [s, t] = owners.map(slot => this.triangle(slot));
    const [p, q] = [s, t].map(nodes => nodes.find(node => node !== u && node !== v));
    const beside = (a, b, c, d) => this.side(a, b, this.points[c]) * this.side(a, b, this.points[d]) >= 0;
    if (p === q || beside(u, v, p, q) || beside(p, q, u, v)) return false;
    const along = s.some((node, i) => node === u && s[(i + 1) % 3] === v);
    this.put(owners[0], along ? [p, u, q] : [p, q, u]);
    this.put(owners[1], along ? [q, v, p] : [q, p, v]);
    return true;
  }

  place({nodes, slots}) {
    const known = nodes.every(node => node < this.points.length);
    if (!known || new Set(slots).size !== slots.length || !slots.every(slot => this.triangle(slot))) return false;
    const next = this.cells.length;
    for (const slot of slots) this.put(slot, null);
    this.put(next, nodes);
    return true;
  }

  // How many triangles and quads there are, and a checksum of their nodes: triangles by their slots, then quads by theirs.
  lists() {
    const live = this.cells.filter(cell => cell), triangles = live.filter(cell => cell.length === 3), quads = live.filter(cell => cell.length === 4);
    return {points: this.points.length, quads: quads.length, triangles: triangles.length, sum: checksum([...triangles, ...quads].flat())};
  }
}

// FNV-1a of numbers, 32 bits.
function checksum(numbers) {
  let sum = 0x811c9dc5;
  for (const number of numbers) sum = Math.imul(sum ^ number, 0x01000193) >>> 0;
  return sum;
}

// The steps of a part: what each entry changed. `broken` is the first entry that could not be made, if there is one.
function grown(points, triangles, words) {
  const mesh = new Mesh(points, triangles), steps = [];
  let at = 0, broken = null;
  while (at < words.length) {
    const entry = read(words, at);
    if (!entry || !mesh.make(entry)) {
      broken = steps.length;
      break;
    }
    steps.push({entry, changes: mesh.changes});
    at += entry.size;
  }
  return {mesh, steps, broken};
}

// ---- metrics of cells, for their colours

// The least scaled Jacobian of a quad's corners: the sine of the angle there.
function jacobian(corners) {
  return Math.min(...corners.map((here, i) => {
    const next = corners[(i + 1) % 4], last = corners[(i + 3) % 4];
    const u = [next[0] - here[0], next[1] - here[1]], v = [last[0] - here[0], last[1] - here[1]];
    return (u[0] * v[1] - u[1] * v[0]) / (Math.hypot(...u) * Math.hypot(...v));
  }));
}

// The least angle of a triangle, in degrees.
function angle(corners) {
  return Math.min(...corners.map((here, i) => {
    const next = corners[(i + 1) % 3], last = corners[(i + 2) % 3];
    const u = [next[0] - here[0], next[1] - here[1]], v = [last[0] - here[0], last[1] - here[1]];
    return Math.abs(Math.atan2(u[0] * v[1] - u[1] * v[0], u[0] * v[0] + u[1] * v[1])) * 180 / Math.PI;
  }));
}

// ---- a part of the page's mesh: places in the file's units, nodes by the file's numbers

class Part {
  constructor(data, clockwise) {
    Object.assign(this, data);
    this.clockwise = clockwise;
    Object.assign(this, grown(data.points, data.triangles, data.trace));
    this.places = this.mesh.points.map(p => p.map((x, k) => (x - this.shift[k]) / this.scale));
    this.given = this.numbers.length;
  }

  number(node) {
    return node < this.given ? this.numbers[node] : this.first + node - this.given;
  }

  // A cell's nodes, as the file turns them.
  names(nodes) {
    const numbers = nodes.map(node => this.number(node));
    return (this.clockwise ? numbers.reverse() : numbers).join(' ');
  }

  // Whether the mesh at the end has the lists of the run.
  faithful() {
    const found = this.mesh.lists();
    return this.broken === null && Object.keys(found).every(name => found[name] === this.lists[name]);
  }

  words({entry, changes}) {
    if (entry.kind === INSERTION) {
      const [x, y] = this.places[changes[0][2][2]].map(short);
      return 'insertion at ' + x + ', ' + y + ' in triangle ' + this.names(changes[0][1]) + '; its node is ' + this.number(changes[0][2][2]);
    }
    const edge = entry.edge.map(node => this.number(node)).sort((a, b) => a - b).join('-');
    if (entry.kind === FLIP) return 'edge ' + edge + ' flipped';
    const count = entry.slots.length;
    return 'quad ' + this.names(entry.nodes) + ' from edge ' + edge + ' in round ' + entry.round + ' in place of ' + count + (count === 1 ? ' triangle' : ' triangles');
  }
}

const short = x => String(Number(x.toPrecision(6)));

// All steps of the parts, one part after the other, with what there is after each.
class Story {
  constructor(data) {
    this.parts = data.parts.map(part => new Part(part, data.clockwise));
    this.steps = this.parts.flatMap((part, which) => part.steps.map(step => ({...step, part: which})));
    const start = this.parts.reduce((sum, part) => sum + part.triangles.length / 3, 0);
    let counts = {quads: 0, triangles: start, added: 0, flips: 0};
    this.counts = [counts];
    for (const {entry} of this.steps) {
      const split = entry.kind === INSERTION, placed = entry.kind === QUAD;
      counts = {quads: counts.quads + placed, triangles: counts.triangles + (split ? 2 : placed ? -entry.slots.length : 0),
        added: counts.added + split, flips: counts.flips + (entry.kind === FLIP)};
      this.counts.push(counts);
    }
    this.faithful = this.parts.every(part => part.faithful());
  }

  // The words of the step that leads to a place; of place 0 those of the beginning.
  words(place) {
    if (place === 0) return 'the given mesh';
    const step = this.steps[place - 1];
    return (this.parts.length > 1 ? 'part ' + (step.part + 1) + ': ' : '') + this.parts[step.part].words(step);
  }
}

// ---- the mesh after so many steps

// The cells that stand, by their slots in all parts one after the other, with the place of each one's colour; nodes are numbered through all parts.
class Growth {
  // quads, triangles: the classes, [least, colour] each.
  constructor(story, quads, triangles) {
    Object.assign(this, {story, quads, triangles, at: 0, bases: [], firsts: []});
    let nodes = 0, slots = 0;
    for (const part of story.parts) {
      this.bases.push(nodes);
      this.firsts.push(slots);
      nodes += part.places.length;
      slots += part.mesh.cells.length;
    }
    this.points = new Float64Array(2 * nodes);
    this.nodes = new Uint32Array(4 * slots);
    this.widths = new Uint8Array(slots);   // 0: no cell
    this.sorts = new Uint8Array(slots);
    this.tally = {3: new Uint32Array(triangles.length), 4: new Uint32Array(quads.length)};
    story.parts.forEach((part, which) => {
      part.places.forEach(([x, y], node) => { this.points[2 * (this.bases[which] + node)] = x; this.points[2 * (this.bases[which] + node) + 1] = y; });
      for (let i = 0; i < part.triangles.length; i += 3) this.put(which, i / 3, [part.triangles[i], part.triangles[i + 1], part.triangles[i + 2]]);
    });
  }

  put(part, slot, nodes) {
    const place = this.firsts[part] + slot, {places} = this.story.parts[part], before = this.widths[place];
    if (before) this.tally[before][this.sorts[place]]--;
    this.widths[place] = nodes ? nodes.length : 0;
    if (!nodes) return;
    nodes.forEach((node, i) => { this.nodes[4 * place + i] = this.bases[part] + node; });
    const corners = nodes.map(node => places[node]), [classes, value] = nodes.length === 4 ? [this.quads, jacobian(corners)] : [this.triangles, angle(corners)];
    let sort = 0;
    for (let i = 1; i < classes.length; i++) if (value >= classes[i][0]) sort = i;
    this.sorts[place] = sort;
    this.tally[nodes.length][sort]++;
  }

  // Goes to the mesh after so many steps; each slot that differs is put once. Returns the place.
  go(place) {
    const {steps} = this.story, slots = new Map(), note = (part, slot, nodes) => slots.set(this.firsts[part] + slot, [part, slot, nodes]);
    place = Math.max(0, Math.min(Math.round(place) || 0, steps.length));
    for (; this.at < place; this.at++) for (const [slot, , after] of steps[this.at].changes) note(steps[this.at].part, slot, after);
    for (; this.at > place; this.at--) {
      const {changes, part} = steps[this.at - 1];
      for (let i = changes.length - 1; i >= 0; i--) note(part, changes[i][0], changes[i][1]);
    }
    for (const [part, slot, nodes] of slots.values()) this.put(part, slot, nodes);
    return place;
  }

  // The cells as groups of a picture: quads, then triangles.
  groups() {
    return [[4, this.quads], [3, this.triangles]].map(([width, palette]) => {
      const count = this.tally[width].reduce((sum, n) => sum + n, 0), nodes = new Uint32Array(width * count), classes = new Uint8Array(count);
      for (let place = 0, at = 0; place < this.widths.length; place++) {
        if (this.widths[place] !== width) continue;
        for (let i = 0; i < width; i++) nodes[width * at + i] = this.nodes[4 * place + i];
        classes[at++] = this.sorts[place];
      }
      return {nodes, width, classes, palette: palette.map(([, fill]) => fill)};
    });
  }

  // The part of a node, and its number in the file.
  part(node) {
    let which = this.bases.length - 1;
    while (this.bases[which] > node) which--;
    return which;
  }

  number(node) {
    const which = this.part(node);
    return this.story.parts[which].number(node - this.bases[which]);
  }

  // What the last step did, as lines over the mesh: the triangles or the quad in outline; the edge that went, dashed; edges and a base that came.
  marks() {
    if (this.at === 0) return [];
    const {entry, changes, part} = this.story.steps[this.at - 1], {places} = this.story.parts[part], line = (nodes, width, more = {}) => ({places: nodes.map(node => places[node]), width, ...more});
    if (entry.kind === INSERTION) {
      const [a, b, node] = changes[0][2], c = changes[1][2][1];
      return [line([a, b, c], 2.5, {closed: true}), ...[a, b, c].map(corner => line([corner, node], 1.5))];
    }
    if (entry.kind === FLIP) {
      const [u, v] = entry.edge, [p, q] = changes.map(([, before]) => before.find(node => node !== u && node !== v));
      return [line([u, p, v, q], 2.5, {closed: true}), line([u, v], 1.5, {dashed: true}), line([p, q], 3.5)];
    }
    return [line(entry.nodes, 3, {closed: true}), line(entry.edge, 7)];
  }
}

// Draws what the last step did; where it is small a ring is around it.
function drawMarks(context, view, growth) {
  const marks = growth.marks();
  if (!marks.length) return;
  const spots = marks[0].places.map(place => view.spot(...place)), [x, y] = [0, 1].map(k => spots.reduce((sum, spot) => sum + spot[k], 0) / spots.length);
  const far = Math.max(...spots.map(spot => Math.hypot(spot[0] - x, spot[1] - y)));
  for (const mark of marks) outline(context, view, mark.places, far < RINGED ? {...mark, width: mark.width * Math.max(0.4, far / RINGED)} : mark);
  if (far >= RINGED) return;
  for (const [colour, width] of [[view.style.halo, 5], [view.style.kept, 2]]) {
    context.beginPath();
    context.arc(x, y, far + 9, 0, 7);
    context.strokeStyle = colour;
    context.lineWidth = width;
    context.stroke();
  }
}

const RINGED = 14;  // pixels

if (typeof module !== 'undefined') module.exports = {read, grown, checksum, jacobian, angle, Part, Story, Growth};

// ---- the page

const NEAR = 5;

class Page {
  constructor(data, board) {
    Object.assign(this, {data, board, timer: null});
    this.story = new Story(data);
    this.growth = new Growth(this.story, data.quads, data.triangles);
    this.get('slider').max = this.story.steps.length;
    this.get('unfaithful').hidden = this.story.faithful;
    board.extra = (context, view) => drawMarks(context, view, this.growth);
    board.view.hover = (px, py) => this.point(px, py);
    board.view.left = () => this.tellCell(-1);
    this.listen();
    this.go(Number(location.hash.slice(1)) || 0);
  }

  get(id) {
    return document.getElementById(id);
  }

  get at() {
    return this.growth.at;
  }

  // ---- the picture

  draw() {
    const {board, growth} = this;
    board.show(new Picture({points: growth.points, groups: growth.groups()}), Boolean(board.view.picture));
  }

  // The cell that is pointed at, by its nodes.
  point(px, py) {
    const {view} = this.board;
    this.tellCell(view.picture.index.at(...view.place(px, py)));
  }

  tellCell(cell) {
    const {view} = this.board, nodes = cell < 0 ? [] : [...view.picture.index.nodes(cell)], {clockwise} = this.data;
    this.get('cell').textContent = nodes.length ? (nodes.length === 4 ? 'quad ' : 'triangle ') + (clockwise ? nodes.reverse() : nodes).map(node => this.growth.number(node)).join(' ') : '';
  }

  count() {
    const counts = {...this.story.counts[this.at]}, {tally} = this.growth;
    for (const [letter, width] of [['q', 4], ['t', 3]]) tally[width].forEach((count, i) => { counts[letter + i] = count; });
    for (const [name, count] of Object.entries(counts)) {
      const element = this.get('count-' + name);
      if (element) element.textContent = count;
    }
  }

  // ---- steps

  go(place) {
    this.growth.go(place);
    this.draw();
    this.count();
    this.tell();
  }

  tell() {
    const steps = this.story.steps.length;
    this.get('says').textContent = 'Step ' + this.at + ' of ' + steps + ': ' + this.story.words(this.at);
    this.get('slider').value = this.at;
    for (const id of ['first', 'back', 'quad-back']) this.get(id).disabled = this.at === 0;
    for (const id of ['forward', 'last', 'quad-forward']) this.get(id).disabled = this.at === steps;
    const log = this.get('log');
    log.replaceChildren();
    const from = Math.max(0, Math.min(this.at - NEAR, steps - 2 * NEAR)), to = Math.min(steps, from + 2 * NEAR);
    for (let place = from; place <= to; place++) {
      const row = document.createElement('li'), link = document.createElement('a');
      link.href = '#' + place;
      link.textContent = place + ': ' + this.story.words(place);
      if (place === this.at) link.className = 'here';
      row.append(link);
      log.append(row);
    }
    try { history.replaceState(null, '', '#' + this.at); } catch (_) { /* a page that may not change its address */ }
  }

  // The next place, forward or back, at which a quad was placed.
  quad(by) {
    let place = this.at + by;
    while (place > 0 && place < this.story.steps.length && this.story.steps[place - 1].entry.kind !== QUAD) place += by;
    this.go(place);
  }

  play(on) {
    clearInterval(this.timer);
    this.timer = null;
    if (on && this.at === this.story.steps.length) this.go(0);
    if (on) {
      this.timer = setInterval(() => {
        this.go(this.at + 1);
        if (this.at === this.story.steps.length) this.play(false);
      }, 1000 / Number(this.get('speed').value));
    }
    this.get('play').textContent = on ? 'Pause' : 'Play';
  }

  listen() {
    const end = this.story.steps.length;
    const acts = {first: () => this.go(0), 'quad-back': () => this.quad(-1), back: () => this.go(this.at - 1), forward: () => this.go(this.at + 1),
      'quad-forward': () => this.quad(1), last: () => this.go(end)};
    const still = act => () => { this.play(false); act(); };
    for (const [id, act] of Object.entries(acts)) this.get(id).addEventListener('click', still(act));
    this.get('play').addEventListener('click', () => this.play(this.timer === null));
    this.get('speed').addEventListener('change', () => { if (this.timer !== null) this.play(true); });
    this.get('slider').addEventListener('input', event => { this.play(false); this.go(Number(event.target.value)); });
    window.addEventListener('hashchange', () => { this.play(false); this.go(Number(location.hash.slice(1)) || 0); });
    const keys = {Home: 'first', PageUp: 'quad-back', ArrowLeft: 'back', ArrowRight: 'forward', PageDown: 'quad-forward', End: 'last'};
    document.addEventListener('keydown', event => {
      if (event.defaultPrevented || event.altKey || event.ctrlKey || event.metaKey || ['INPUT', 'SELECT'].includes(event.target.tagName)) return;
      const act = event.key === ' ' && event.target.tagName !== 'BUTTON' ? () => this.play(this.timer === null) : keys[event.key] && still(acts[keys[event.key]]);
      if (act) {
        event.preventDefault();
        act();
      }
    });
  }
}

if (typeof document !== 'undefined' && typeof DATA !== 'undefined') globalThis.page = new Page(DATA, boards[0]);
