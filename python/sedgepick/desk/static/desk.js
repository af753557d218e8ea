// The desk's page: opens a file, shows it, runs it, shows what came of it. Words from files are set as text and never as markup.
'use strict';
{

const POLL = 150;          // milliseconds between two questions on a task
const REACH = 9;           // pixels within which an edge or a node is meant
const UNDONE = 100;        // changes of the locked edges that can be undone
const TITLE = document.title;
const $ = id => document.getElementById(id);

const state = {
  about: null, file: null, given: null, done: null, front: null, story: null, growth: null,
  view: 'given', run: null, reading: null, looking: null, joints: new Map(), before: [], pending: [], walker: null, hovered: null, picked: null, locking: false, step: 0, timer: null,
};

// ---- the server

class Refusal extends Error {
  constructor(facts) {
    super(facts.words || 'the desk does not say why');
    this.fields = facts.fields || {};
  }
}

async function ask(path, options = {}) {
  let answer;
  try {
    answer = await fetch(path, {cache: 'no-store', ...options});
  } catch (fault) {
    $('gone').textContent = 'The desk does not answer: it was ended, or this machine sleeps. Start sedgepick-desk again and open the address that it prints.';
    $('gone').hidden = false;
    throw new Refusal({words: 'The desk does not answer'});
  }
  $('gone').hidden = true;
  if (!answer.ok) throw new Refusal(await answer.json().catch(() => ({words: 'the desk answers with ' + answer.status})));
  return answer;
}

const facts = async (path, options) => (await ask(path, options)).json();
const post = (path, body) => facts(path, {method: 'POST', body: JSON.stringify(body), headers: {'Content-Type': 'application/json'}});
const sleep = time => new Promise(done => setTimeout(done, time));

// Follows a task to its end; `told` is called with what it says.
async function follow(task, told) {
  for (;;) {
    const found = await facts('task/' + task);
    told(found);
    if (found.state !== 'running') return found;
    await sleep(POLL);
  }
}

// Facts and arrays of a finished task.
async function data(task) {
  const content = await (await ask('task/' + task + '/data')).arrayBuffer(), view = new DataView(content);
  const head = view.getUint32(4, true), found = JSON.parse(new TextDecoder().decode(new Uint8Array(content, 8, head)));
  const kinds = {Float64Array, Float32Array, Uint32Array, Int32Array, Uint8Array};
  for (const [name, [kind, at, length]] of Object.entries(found.arrays)) found[name] = new kinds[kind](content, 8 + head + at, length);
  return found;
}

// ---- small parts of the page

function element(name, words, attributes = {}) {
  const made = document.createElement(name);
  if (words !== undefined && words !== null) made.textContent = words;
  for (const [attribute, value] of Object.entries(attributes)) made.setAttribute(attribute, value);
  return made;
}

function list(id, rows) {
  $(id).replaceChildren(...rows.flatMap(([name, words]) => [element('dt', name), element('dd', words)]));
}

const number = (value, digits = 4) => value === null || value === undefined ? 'none' : Number(value.toPrecision(digits)).toLocaleString('en', {maximumFractionDigits: 8, useGrouping: false});
const upper = words => words.charAt(0).toUpperCase() + words.slice(1);
const whole = value => value.toLocaleString('en');
const many = (count, word) => whole(count) + ' ' + word + (count === 1 ? '' : 's');

function tell(words) {
  $('says').textContent = words || '';
  $('says').hidden = !words;
}

function busy(words) {
  $('busy-says').textContent = words || '';
  $('busy').hidden = !words;
}

// ---- the canvas

function style() {
  const found = getComputedStyle(document.documentElement), of = name => found.getPropertyValue('--' + name).trim();
  return {line: of('mesh-line'), paper: of('board'), kept: of('kept'), halo: of('halo'), edge: of('edge'), lock: of('lock'), ink: of('ink'), accent: of('accent')};
}

const view = new View($('canvas'), {style: style(), over: overlay, moved: showScale});

// A length with one digit that is about a hundred pixels long.
function showScale() {
  if (!view.picture) return;
  const about = 110 / view.camera.scale, power = 10 ** Math.floor(Math.log10(about)), step = [5, 2, 1].find(n => n * power <= about) * power;
  $('scale-bar').style.width = step * view.camera.scale + 'px';
  $('scale-says').textContent = number(step);
}

const classOf = (classes, value) => { let place = 0; classes.forEach(([least], i) => { if (value >= least) place = i; }); return place; };
const classesOf = (classes, values) => Uint8Array.from(values, value => classOf(classes, value));
const fills = classes => classes.map(([, fill]) => fill);

const VIRIDIS = ['#440154', '#482878', '#3e4a89', '#31688e', '#26828e', '#1f9e89', '#35b779', '#6ece58', '#b5de2b', '#fde725'];
const PASS = '#c3cad1';

// The colour of each round, from the first to the last.
function roundColours(count) {
  const mix = (a, b, t) => '#' + [1, 3, 5].map(i => Math.round(parseInt(a.slice(i, i + 2), 16) * (1 - t) + parseInt(b.slice(i, i + 2), 16) * t).toString(16).padStart(2, '0')).join('');
  return Array.from({length: count}, (_, i) => {
    const at = count > 1 ? i / (count - 1) * (VIRIDIS.length - 1) : VIRIDIS.length - 1, low = Math.min(VIRIDIS.length - 2, Math.floor(at));
    return mix(VIRIDIS[low], VIRIDIS[low + 1], at - low);
  });
}

const OWN = '#f2f2f2';
const fileQuads = found => found.file_quads.length ? [{nodes: found.file_quads, width: 4, palette: [OWN]}] : [];  // of the file, which stay as they are
const keptLines = found => [{pairs: found.kept, colour: 'kept', width: 3, halo: true}];
const keptDots = found => [{nodes: found.kept_nodes, colour: 'kept', radius: 4.5}];

function givenPicture() {
  const {given, about} = state, classes = classesOf(about.triangles, given.angles);
  const picture = new Picture({points: given.points, groups: [{nodes: given.triangles, width: 3, classes, palette: fills(about.triangles)}, ...fileQuads(given)],
    lines: [{pairs: given.front, colour: 'edge', width: 1.6}, ...keptLines(given)], dots: keptDots(given)});
  picture.legend = [['Triangles by least angle', angleRows(classes)], ...keptLegend(given)];
  return picture;
}

function angleRows(classes) {
  const ends = [...state.about.triangles.slice(1).map(([least]) => least), 60], counts = countsOf(classes, ends.length);
  return state.about.triangles.map(([least, fill], i) => [fill, least + ' to ' + ends[i] + '°', counts[i]]).reverse();
}

function jacobianRows(classes) {
  const {quads} = state.about, counts = countsOf(classes, quads.length);
  return quads.map(([least, fill], i) => [fill, least.toFixed(1) + ' to ' + (least + 0.1).toFixed(1), counts[i]]).filter(([, , count], i) => quads[i][0] >= 0.3 || count).reverse();
}

function countsOf(classes, count) {
  const counts = new Array(count).fill(0);
  for (const one of classes) counts[one]++;
  return counts;
}

function keptLegend(found) {
  const rows = [...(found.kept.length || found.kept_nodes.length ? [['kept', 'line, border, point of the file', '']] : []), ...(found.file_quads.length ? [[OWN, 'quad of the file', found.file_quads.length / 4]] : [])];
  return rows.length ? [['', rows]] : [];
}

function quadsPicture() {
  const {done, about} = state, byRound = $('colour').value === 'round', left = classesOf(about.triangles, done.angles);
  let classes, palette, rows, title;
  if (byRound) {
    const steps = Math.min(done.rounds, 200), of = round => round ? Math.min(steps, Math.ceil(round * steps / done.rounds)) : 0;
    palette = [PASS, ...roundColours(steps)];
    classes = Uint8Array.from(done.rounds ? [...done.rounds_of].map(of) : done.rounds_of);
    const shown = [...new Set([1, Math.ceil(done.rounds / 4), Math.ceil(done.rounds / 2), Math.ceil(3 * done.rounds / 4), done.rounds])].filter(n => n > 0);
    rows = [...shown.map(round => [palette[of(round)], 'round ' + round, '']), [PASS, 'made by the finishing pass', countsOf(classes, palette.length)[0]]];
    title = 'Quads by round';
  } else {
    classes = classesOf(about.quads, done.jacobians);
    palette = fills(about.quads);
    rows = jacobianRows(classes);
    title = 'Quads by scaled Jacobian';
  }
  const picture = new Picture({points: done.points, groups: [{nodes: done.quads_of, width: 4, classes, palette}, {nodes: done.left_of, width: 3, classes: left, palette: fills(about.triangles)}, ...fileQuads(done)],
    lines: keptLines(done), dots: keptDots(done)});
  picture.legend = [[title, rows], ...(done.left ? [['Triangles by least angle', angleRows(left)]] : []), ...keptLegend(done)];
  return picture;
}

function frontPicture() {
  const {given, front, about} = state;
  const picture = new Picture({points: given.points, groups: [{nodes: given.triangles, width: 3, palette: [blank()]}, ...fileQuads(given)], lines: keptLines(given), dots: keptDots(given)});
  if (!front) {
    picture.legend = [];
    return picture;
  }
  const sort = classesOf(about.quads, front.jacobians), good = Array.from(front.refused, (kind, i) => kind ? -1 : sort[i]), counts = countsOf(good.filter(n => n >= 0), about.quads.length);
  const refused = countsOf(Array.from(front.refused), front.kinds.length + 1);
  picture.legend = [['A quad, by scaled Jacobian', about.quads.map(([least, fill], i) => [fill, least.toFixed(1) + ' to ' + (least + 0.1).toFixed(1), counts[i]]).filter((row, i) => about.quads[i][0] >= 0.3 || row[2]).reverse()],
    ['Refused', front.kinds.map((kind, i) => [about.refused[kind][1], about.refused[kind][0], refused[i + 1]]).filter(([, , count]) => count)], ...keptLegend(given)];
  return picture;
}

const blank = () => document.documentElement.dataset.theme === 'dark' ? '#525e69' : '#e9edf0';

function showLegend() {
  const rows = view.picture && view.picture.legend || [], made = [];
  for (const [title, own] of rows) {
    if (!own.length) continue;
    if (title) made.push(element('h3', title));
    for (const [fill, label, count] of own) {
      const row = element('div', null, {class: 'row'});
      row.append(swatch(fill), element('span', label), element('b', count === '' ? '' : whole(count)));
      made.push(row);
    }
  }
  $('legend').replaceChildren(...made);
  $('legend-card').hidden = !made.length;
}

function swatch(fill) {
  const made = document.createElementNS('http://www.w3.org/2000/svg', 'svg'), kept = fill === 'kept';
  made.setAttribute('viewBox', '0 0 22 13');
  const line = (stroke, width) => ({d: 'M3 6.5h16', stroke, 'stroke-width': width, 'stroke-linecap': 'round'});
  for (const set of kept ? [line(view.style.halo, 6), line(view.style.kept, 3.5)] : [{x: 0.5, y: 0.5, width: 21, height: 12, fill, stroke: view.style.edge, rx: 2}]) {
    const shape = document.createElementNS('http://www.w3.org/2000/svg', kept ? 'path' : 'rect');
    for (const [name, value] of Object.entries(set)) shape.setAttribute(name, value);
    made.append(shape);
  }
  return made;
}

// ---- what lies over the mesh: locked edges, the front, the cell that is picked

function trace(context, places) {
  context.beginPath();
  places.forEach(([x, y], i) => { const at = view.spot(x, y); i ? context.lineTo(...at) : context.moveTo(...at); });
}

const placeOf = (points, node) => [points[2 * node], points[2 * node + 1]];

function overlay(context) {
  const {given, picked, hovered} = state, colours = view.style;
  context.lineCap = context.lineJoin = 'round';
  if (state.view === 'front') overFront(context);
  if (given && (state.view === 'given' || state.view === 'front')) {
    for (const [pairs, width, alpha] of [[[...state.joints.values()], 5, 1], [state.pending, 5, 0.55]]) {
      context.globalAlpha = alpha;
      context.beginPath();
      for (const [u, v] of pairs) {
        context.moveTo(...view.spot(...placeOf(given.points, u)));
        context.lineTo(...view.spot(...placeOf(given.points, v)));
      }
      context.strokeStyle = colours.lock;
      context.lineWidth = width;
      context.stroke();
    }
    context.globalAlpha = 1;
    const meant = state.locking && (hovered && hovered.edge || state.walker && state.walker.edge);
    if (meant) {
      trace(context, meant.map(node => placeOf(given.points, node)));
      context.strokeStyle = colours.lock;
      context.lineWidth = 3;
      context.setLineDash([6, 5]);
      context.stroke();
      context.setLineDash([]);
    }
    if (state.locking && state.walker) overWalker(context, placeOf(given.points, state.walker.node));
  }
  if (state.view === 'steps' && state.growth) drawMarks(context, view, state.growth);
  for (const cell of [hovered && hovered.cell, picked]) if (cell && cell.picture === view.picture) overCell(context, cell, cell === picked);
}

// Where the arrow keys are.
function overWalker(context, place) {
  const at = view.spot(...place);
  for (const [colour, radius] of [[view.style.halo, 9], [view.style.lock, 7], [view.style.halo, 3]]) {
    context.beginPath();
    context.arc(...at, radius, 0, 7);
    context.fillStyle = colour;
    context.fill();
  }
}

function overCell(context, {places}, strong) {
  trace(context, places);
  context.closePath();
  for (const [stroke, width] of [[view.style.paper, strong ? 6 : 4], [view.style.ink, strong ? 3 : 2]]) {
    context.strokeStyle = stroke;
    context.lineWidth = width;
    context.stroke();
  }
}

function overFront(context) {
  const {front, about, hovered} = state;
  if (!front) return;
  const [ax, ay] = view.place(0, view.height), [bx, by] = view.place(view.width, 0);
  for (let i = 0; i < front.refused.length; i++) {
    const p = front.places.subarray(6 * i, 6 * i + 6);
    if (Math.max(p[0], p[2], p[4]) < ax || Math.min(p[0], p[2], p[4]) > bx || Math.max(p[1], p[3], p[5]) < ay || Math.min(p[1], p[3], p[5]) > by) continue;
    const kind = front.refused[i];
    trace(context, [[p[0], p[1]], [p[2], p[3]], [p[4], p[5]]]);
    context.closePath();
    context.fillStyle = kind ? about.refused[front.kinds[kind - 1]][1] : about.quads[classOf(about.quads, front.jacobians[i])][1];
    context.fill();
    context.strokeStyle = view.style.line;
    context.lineWidth = 0.8;
    context.stroke();
    if (kind) {  // dashed, another way for each kind, so that it can be told without its colour
      trace(context, [[p[0], p[1]], [p[2], p[3]]]);
      context.setLineDash(about.refused[front.kinds[kind - 1]][2]);
      context.strokeStyle = view.style.ink;
      context.lineWidth = 2.5;
      context.stroke();
      context.setLineDash([]);
    }
  }
  if (hovered && hovered.front !== undefined && !state.locking) overPreview(context, hovered.front);
}

// The quad that an edge would give, where it would lie.
function overPreview(context, which) {
  const {front} = state, p = front.places.subarray(6 * which, 6 * which + 4), c = front.corners.subarray(8 * which, 8 * which + 8);
  would(context, view, front.refused[which] ? null : [0, 2, 4, 6].map(i => [c[i], c[i + 1]]), [[p[0], p[1]], [p[2], p[3]]]);
}

// ---- views

function go(name) {
  if (state.timer) play(false);
  state.view = name;
  state.hovered = null;
  tell('');
  for (const own of ['given', 'front', 'quads', 'steps']) $('tab-' + own).setAttribute('aria-selected', own === name);
  $('colour-label').hidden = name !== 'quads';
  $('locking').hidden = name !== 'given' && name !== 'front';
  $('steps').hidden = name !== 'steps';
  if (name !== 'given' && name !== 'front') lockMode(false);
  if (name === 'front') look();
  if (name === 'steps') return startSteps();
  draw();
}

function draw(stay = true) {
  if (!state.given) return;
  const made = {given: givenPicture, front: frontPicture, quads: quadsPicture}[state.view];
  if (!made) return;
  view.show(made(), stay && Boolean(view.picture));
  showLegend();
  showScale();
  $('canvas').setAttribute('aria-label', {given: 'The given mesh, ' + many(state.given.triangles_count, 'triangle'), front: 'The front of the mesh', quads: 'The mesh of quads'}[state.view]
    + '. Arrow keys move it, plus and minus zoom, 0 fits it.');
}

// ---- pointing

function reach() {
  return REACH / view.camera.scale;
}

view.hover = (px, py) => {
  if (!view.picture) return;
  const [x, y] = view.place(px, py), found = {};
  if (state.locking) {
    found.edge = nearestEdge(view.picture.index, x, y, reach());
    tell(found.edge ? (state.joints.has(found.edge.join()) ? 'Click to free this edge' : 'Click to lock this edge; drag from a node to lock along a line') : '');
  } else if (state.view === 'front' && state.front) {
    const edge = nearestFront(state.front.places, x, y, 1.4 * reach());
    if (edge >= 0) found.front = edge;
    tell(edge >= 0 ? state.front.words[edge] : '');
  } else {
    found.cell = cellAt(x, y);
    tell(found.cell ? found.cell.words : '');
  }
  const before = state.hovered || {};
  state.hovered = found;
  if (before.front !== found.front || String(before.edge) !== String(found.edge) || (before.cell || {}).number !== (found.cell || {}).number) view.request();
};

view.left = () => {
  state.hovered = null;
  tell('');
  view.request();
};

function cellAt(x, y) {
  const {picture} = view, cell = picture.index.at(x, y);
  return cell < 0 ? null : describe(cell);
}

// A cell of the picture that is shown: its places and its numbers.
function describe(cell) {
  const {picture} = view, nodes = [...picture.index.nodes(cell)], places = nodes.map(node => placeOf(picture.points, node)), quad = nodes.length === 4;
  const own = {cell, number: cell, nodes, places, picture, quad}, names = node => state.view === 'quads' && state.done ? state.done.number[node] : state.view === 'steps' ? state.growth.number(node) : node + 1;
  const spread = [...(state.view === 'quads' && state.given.clockwise ? nodes.slice().reverse() : nodes)].map(names);
  own.rows = [['nodes', spread.join(', ')], ['middle', '(' + mean(places, 0) + ', ' + mean(places, 1) + ')']];
  if (quad) own.rows.unshift(['scaled Jacobian', number(jacobian(places))]);
  own.rows.splice(quad ? 1 : 0, 0, ['least angle', number(leastAngle(places)) + '°']);
  own.rows.push(['area', number(area(places), 5)]);
  own.title = (quad ? 'Quad ' : 'Triangle ');
  if (state.view === 'quads') {
    const {done} = state, ours = cell < done.quads + done.left, place = !ours ? cell - done.quads - done.left : quad ? cell : cell - done.quads;
    own.title += ours ? place + 1 : 'of the file';
    if (quad && ours) own.rows.push(['made by', done.rounds_of[place] ? 'the front, round ' + done.rounds_of[place] : 'the finishing pass']);
  } else own.title += quad ? 'of the file' : state.view === 'given' ? cell + 1 : '';
  own.words = own.title + ': ' + own.rows.slice(0, quad ? 3 : 2).map(([name, words]) => name + ' ' + words).join('; ');
  return own;
}

const mean = (places, k) => number(places.reduce((sum, place) => sum + place[k], 0) / places.length, 6);

function leastAngle(corners) {
  const count = corners.length;
  return Math.min(...corners.map((here, i) => {
    const next = corners[(i + 1) % count], last = corners[(i + count - 1) % count], u = [next[0] - here[0], next[1] - here[1]], v = [last[0] - here[0], last[1] - here[1]];
    return Math.abs(Math.atan2(u[0] * v[1] - u[1] * v[0], u[0] * v[0] + u[1] * v[1])) * 180 / Math.PI;
  }));
}

const area = places => Math.abs(places.reduce((sum, [x, y], i) => { const [u, v] = places[(i + 1) % places.length]; return sum + x * v - u * y; }, 0)) / 2;

view.click = (px, py) => {
  if (!view.picture || state.view === 'front') return;
  pick(cellAt(...view.place(px, py)));
};

function pick(cell) {
  state.picked = cell;
  $('cell-card').hidden = !cell;
  if (cell) {
    $('cell-title').textContent = cell.title;
    list('cell-facts', cell.rows);
  }
  for (const row of document.querySelectorAll('#worst button')) row.classList.toggle('here', Boolean(cell) && state.view === 'quads' && Number(row.dataset.cell) === cell.number);
  view.request();
}

// ---- locked edges

function lockMode(on) {
  state.locking = on;
  $('lock').setAttribute('aria-pressed', on);
  $('canvas').classList.toggle('locking', on);
  state.hovered = state.walker = null;
  view.release();
  tell(on ? 'Click an edge, or drag from a node along a line. By keys: arrows walk from node to node, Shift and an arrow lock the way, Space locks or frees the last edge, Esc ends it.' : '');
  if (on) $('canvas').focus({preventScroll: true});
  view.request();
}

function showLocked(changed = true) {
  const count = state.joints.size;
  $('locked').textContent = count ? many(count, 'edge') + ' locked' : '';
  $('unlock').hidden = !count;
  $('undo').hidden = !state.before.length;
  view.request();
  if (changed) stale();
}

// Changes the locked edges, by a function of their map; the change can be undone.
function relock(change) {
  state.before = [...state.before.slice(1 - UNDONE), new Map(state.joints)];
  change(state.joints);
  showLocked();
}

function undoLock() {
  if (!state.before.length) return;
  state.joints = state.before.pop();
  showLocked();
  tell(state.joints.size ? many(state.joints.size, 'edge') + ' locked' : 'No edge is locked');
  if ($('undo').hidden) $('canvas').focus({preventScroll: true});
}

const turn = edge => joints => { joints.has(edge.join()) ? joints.delete(edge.join()) : joints.set(edge.join(), edge); };
const lockAll = edges => joints => { for (const edge of edges) joints.set(edge.join(), edge); };

// The nodes around a node, of the given mesh.
function around(node) {
  if (!state.rings) {
    const {triangles, points} = state.given, rings = Array.from({length: points.length / 2}, () => null);
    for (let i = 0; i < triangles.length; i += 3) {
      for (let k = 0; k < 3; k++) {
        const here = triangles[i + k];
        (rings[here] = rings[here] || new Set()).add(triangles[i + (k + 1) % 3]).add(triangles[i + (k + 2) % 3]);
      }
    }
    state.rings = rings;
  }
  return state.rings[node] || [];
}

view.grab = (px, py) => {
  if (!state.locking) return false;
  state.from = nearestNode(view.picture.index, ...view.place(px, py), 2.5 * reach());
  state.to = -1;
  state.walker = state.hovered = null;
  return true;
};

view.drag = (px, py) => {
  if (state.from < 0 || view.still) return;
  const end = closestNode(view.picture.index, ...view.place(px, py));
  if (end === state.to) return;
  state.to = end;
  state.pending = along(view.picture.index, around, state.from, end);
  tell(state.pending.length ? many(state.pending.length, 'edge') + ' along the line' : '');
  view.request();
};

view.drop = (px, py, clicked) => {
  const edge = clicked ? nearestEdge(view.picture.index, ...view.place(px, py), reach()) : null, {pending} = state;
  view.let();
  if (edge) relock(turn(edge));
  else if (!clicked && pending.length) relock(lockAll(pending));
};

view.let = () => {
  state.pending = [];
  state.to = -1;
  tell('');
  view.request();
};

const WAYS = {ArrowLeft: [-1, 0], ArrowRight: [1, 0], ArrowUp: [0, 1], ArrowDown: [0, -1]};

// Keys on the canvas: while edges are locked the arrows walk along them; on the front Page Up and Page Down go from edge to edge. True where the key was meant for it.
view.key = event => {
  if (state.locking && (WAYS[event.key] || event.key === ' ' || event.key === 'Enter')) return walk(event.key, event.shiftKey);
  if (state.view === 'front' && state.front && !state.locking && (event.key === 'PageDown' || event.key === 'PageUp')) return nextFront(event.key === 'PageDown' ? 1 : -1);
  return false;
};

function walk(key, locks) {
  const {index} = view.picture, {walker, given} = state;
  state.hovered = null;
  if (!walker) state.walker = {node: closestNode(index, ...view.place(view.width / 2, view.height / 2)), edge: null};
  else if (WAYS[key]) {
    const through = walker.key === key ? walker.through : walker.node, next = beside(index, around, walker.node, WAYS[key], through);  // the same key again keeps to its line
    if (next >= 0) state.walker = {node: next, edge: [walker.node, next].sort((a, b) => a - b), key, through};
    if (next >= 0 && locks && !state.joints.has(state.walker.edge.join())) relock(turn(state.walker.edge));
  } else if (walker.edge) relock(turn(walker.edge));
  if (state.walker.node < 0) state.walker = null;
  if (!state.walker) return true;
  const {node, edge} = state.walker, place = placeOf(given.points, node);
  keepInView(place);
  tell('Node ' + (node + 1) + ' at (' + place.map(x => number(x, 6)).join(', ') + ')' + (edge ? '; the edge ' + (edge[0] + 1) + ' to ' + (edge[1] + 1) + ' is ' + (state.joints.has(edge.join()) ? 'locked' : 'free') : ''));
  view.request();
  return true;
}

// Moves the view where a place is at its border or beyond it.
function keepInView(place) {
  const [px, py] = view.spot(...place), room = 50;
  if (px < room || py < room || px > view.width - room || py > view.height - room) view.pan(view.width / 2 - px, view.height / 2 - py);
}

function nextFront(by) {
  const {front, hovered} = state, count = front.refused.length, now = hovered && hovered.front !== undefined ? hovered.front : by > 0 ? -1 : 0;
  if (!count) return true;
  const which = (now + by + count) % count, p = front.places.subarray(6 * which, 6 * which + 4);
  state.hovered = {front: which};
  keepInView([(p[0] + p[2]) / 2, (p[1] + p[3]) / 2]);
  tell(front.words[which]);
  view.request();
  return true;
}

// ---- the settings

function makeFields() {
  for (const field of state.about.fields) {
    const box = element('div', null, {class: 'field' + (field.kind === 'yes' ? ' yes' : ''), id: 'box-' + field.name}), id = 'field-' + field.name;
    const label = element('label', null, {for: id}), help = element('p', field.help, {class: 'help', id: id + '-help'});
    let input;
    if (field.kind === 'choice') {
      input = element('select', null, {id});
      for (const [value, words] of field.choices) input.append(element('option', words, {value}));
    } else input = element('input', null, {id, type: field.kind === 'yes' ? 'checkbox' : 'text', ...(field.kind === 'yes' ? {} : {inputmode: 'decimal', autocomplete: 'off', spellcheck: 'false'})});
    input.setAttribute('aria-describedby', id + '-help ' + id + '-fault');
    if (field.kind === 'yes') input.checked = field.usual === 'yes';
    else input.value = field.usual;
    if (field.kind === 'yes') label.append(input);
    label.append(element('span', field.label));
    if (field.kind === 'number' || field.kind === 'whole') label.append(element('span', field.low + ' to ' + field.high, {class: 'range'}));
    box.append(label);
    if (field.kind !== 'yes') box.append(input);
    box.append(help, element('p', '', {class: 'fault', id: id + '-fault', role: 'alert', hidden: ''}));
    $(field.group === 'quality' ? 'quality-fields' : 'fields').append(box);
    input.addEventListener('input', () => { wrong(field.name, faultOf(field, valueOf(field))); qualitySays(); stale(); });
  }
  $('field-finish').addEventListener('change', () => {
    const thin = $('field-thin');
    if (['0', '10'].includes(thin.value)) thin.value = $('field-finish').value === 'raw' ? '0' : '10';
  });
}

const valueOf = field => { const input = $('field-' + field.name); return field.kind === 'yes' ? (input.checked ? 'yes' : 'no') : input.value.trim(); };
const values = () => Object.fromEntries(state.about.fields.map(field => [field.name, valueOf(field)]));

// Why a value cannot be, in words; '' where it can. The server looks once more.
function faultOf(field, word) {
  if (field.kind === 'choice' || field.kind === 'yes' || field.kind === 'size' && word === 'auto') return '';
  const value = Number(word);
  if (word === '' || !Number.isFinite(value)) return field.kind === 'size' ? 'A length, 0 or auto' : 'A number from ' + field.low + ' to ' + field.high;
  if (field.kind === 'size') return value < 0 ? 'A length is not below 0' : '';
  if (field.kind === 'whole' && !Number.isInteger(value)) return 'A whole number';
  return value < field.low || value > field.high ? 'Out of range: from ' + field.low + ' to ' + field.high : '';
}

function wrong(name, words) {
  const box = $('box-' + name);
  if (!box) return;
  const said = $('field-' + name + '-fault');
  box.classList.toggle('wrong', Boolean(words));
  $('field-' + name).setAttribute('aria-invalid', Boolean(words));
  said.textContent = upper(words);
  said.hidden = !words;
  if (words && box.closest('details')) $('quality').open = true;
}

function qualitySays() {
  const usual = state.about.fields.filter(field => field.group === 'quality').every(field => Number(valueOf(field)) === Number(field.usual));
  $('quality-says').textContent = usual ? 'standard' : 'changed';
}

function checked() {
  const faults = state.about.fields.map(field => [field.name, faultOf(field, valueOf(field))]);
  for (const [name, words] of faults) wrong(name, words);
  const first = faults.find(([, words]) => words);
  if (first) $('field-' + first[0]).focus();
  return !first;
}

// What was asked for differs from what is shown.
function stale() {
  offerClauses('');
  state.front = null;
  if (state.done) $('run').textContent = 'Run again';
  if (state.view === 'front') {
    clearTimeout(state.later);
    state.later = setTimeout(() => { if (state.view === 'front') look(); }, 500);
    draw();
  }
}

// ---- a file

async function open(file) {
  const {about} = state;
  fault('open-fault', '');
  refuse('');
  if (about.geometry.some(suffix => file.name.toLowerCase().endsWith(suffix))) return opened(file.name, 'it is a geometry and no mesh: mesh it first, as in gmsh -2 ' + file.name + ' -o slab.msh');
  if (!about.suffixes.some(suffix => file.name.toLowerCase().endsWith(suffix))) return opened(file.name, 'a file with this suffix is not read; formats that are: ' + about.suffixes.join(' '));
  if (file.size > about.most_upload * 1048576) return opened(file.name, 'it has over ' + about.most_upload + ' MB, and the desk takes no larger one');
  if (file.size === 0) return opened(file.name, 'it is empty');
  const mine = state.reading = {};
  busy('Opening ' + file.name);
  try {
    const found = await facts('file', {method: 'POST', body: file, headers: {'X-Name': encodeURIComponent(file.name), 'Content-Type': 'application/octet-stream'}});
    await settle(mine, found.file, found.task, file.name);
  } catch (refusal) {
    if (mine === state.reading) opened(file.name, refusal.message);
  }
}

function opened(name, words) {
  busy('');
  fault(state.given ? 'refused' : 'open-fault', name + ': ' + words);
  offerClauses('');
}

function fault(id, words) {
  $(id).textContent = words;
  $(id).hidden = !words;
}

function refuse(words) {
  fault('refused', upper(words));
  offerClauses('');
}

// A button to the sheet of a mesh that was made and is not accepted; none where there is no address.
function offerClauses(address) {
  $('show-clauses').hidden = !address;
  $('show-clauses').dataset.src = address;
}

async function settle(mine, file, task, name) {
  busy('Reading ' + name);
  const found = await follow(task, () => {});
  if (mine !== state.reading) return;
  if (found.state !== 'done') return opened(name, found.words || 'it cannot be read');
  const given = await data(task);
  if (mine !== state.reading) return;
  busy('');
  stopRun();
  Object.assign(state, {file, given, done: null, front: null, story: null, growth: null, rings: null, joints: new Map(), before: [], pending: [], walker: null, picked: null, step: 0});
  given.triangles_count = given.triangles.length / 3;
  showGiven(name);
}

function showGiven(name) {
  const {given} = state;
  document.body.classList.add('fresh');
  document.title = given.name + ' – ' + TITLE;
  $('file').replaceChildren(element('b', given.name), document.createTextNode(' · ' + many(given.triangles_count, 'triangle')));
  for (const id of ['tools', 'zoom', 'scale', 'given-card']) $(id).hidden = false;
  for (const id of ['empty', 'verdict', 'worst-card', 'cell-card']) $(id).hidden = true;
  $('tab-quads').disabled = $('tab-steps').disabled = true;
  $('no-steps').textContent = given.triangles_count > state.about.most_steps ? 'No steps: over ' + whole(state.about.most_steps) + ' triangles' : '';
  $('run').disabled = false;
  $('run').textContent = 'Run';
  refuse('');
  for (const field of state.about.fields) wrong(field.name, '');
  const suffix = state.about.fields.find(field => field.name === 'format').choices.map(([value]) => value).find(value => given.name.toLowerCase().endsWith(value));
  $('field-format').value = suffix || '.msh';
  const extent = given.high.map((high, k) => number(high - given.low[k]));
  list('given-facts', [['triangles', whole(given.triangles_count)], ['nodes', whole(given.nodes)], ['extent', extent.join(' × ')], ['mean edge', number(given.mean_edge)],
    ['least angle', number(given.least_angle) + '°'], ...given.groups.map(([group, what, count]) => [group, whole(count) + ' ' + what])]);
  showNotes(given.notes);
  showLocked(false);
  state.view = 'given';
  view.resize();  // what stands above the canvas is shown by now
  go('given');
  view.fit();
}

function showNotes(notes) {
  $('notes').replaceChildren(...notes.map(words => element('li', words)));
  $('notes-card').hidden = !notes.length;
}

// ---- the front

async function look() {
  if (state.front || !checked()) return draw();
  const mine = state.looking = {}, wanted = JSON.stringify([values(), [...state.joints.values()]]);
  busy('Looking at the front');
  try {
    const begun = await post('task', {kind: 'front', file: state.file, values: values(), joints: [...state.joints.values()]});
    if (state.looked) post('task/' + state.looked + '/stop', {}).catch(() => {});
    state.looked = begun.task;
    const found = await follow(begun.task, told => { if (mine === state.looking && told.count > 1) busy('Looking at the front: part ' + told.done + ' of ' + told.count); });
    if (mine !== state.looking) return;
    state.looked = null;
    if (found.state !== 'done') return refused(found);
    const front = await data(begun.task);
    if (mine !== state.looking || wanted !== JSON.stringify([values(), [...state.joints.values()]])) return;
    refuse('');
    state.front = front;
    if (state.view === 'front') {
      draw();
      tell(upper(front.summary) + '. Point at an edge.');
    }
  } catch (refusal) {
    if (mine === state.looking) refused({words: refusal.message, fields: refusal.fields});
  } finally {
    if (mine === state.looking) busy('');
  }
}

// ---- the run

function running(on) {
  $('run').hidden = on;
  $('stop').hidden = $('progress').hidden = !on;
  if (on) $('bar').removeAttribute('value');
}

function showProgress({stage, done, count, seconds}) {
  if (stage) $('stage').textContent = (stage === 'starting' ? 'Starting' : stage) + (count > 1 ? ', part ' + done + ' of ' + count : '') + ' · ' + seconds.toFixed(0) + ' s';
  if (count > 1 && stage.startsWith('Running')) Object.assign($('bar'), {max: count, value: done});
  else $('bar').removeAttribute('value');
}

async function run() {
  if (!state.given || state.run || !checked()) return;
  const mine = state.run = {task: null};
  refuse('');
  running(true);
  showProgress({stage: 'starting', seconds: 0});
  try {
    const begun = await post('task', {kind: 'mesh', file: state.file, values: values(), joints: [...state.joints.values()]});
    mine.task = begun.task;
    if (mine !== state.run) return post('task/' + begun.task + '/stop', {}).catch(() => {});
    const found = await follow(begun.task, told => { if (mine === state.run && told.state === 'running') showProgress(told); });
    if (mine !== state.run) return;
    if (found.state === 'done') finish(begun.task, await data(begun.task));
    else refused({...found, sheet: found.sheet ? 'task/' + begun.task + '/show/sheet' : ''});
  } catch (refusal) {
    if (mine === state.run) refused({words: refusal.message, fields: refusal.fields});
  } finally {
    if (mine === state.run) {
      state.run = null;
      running(false);
    }
  }
}

// A refusal in words, beside the field that caused it where that is known.
function refused({words, field, fields = {}, sheet = '', state: ended}) {
  const own = {...fields, ...(field ? {[field]: words} : {})};
  for (const [name, said] of Object.entries(own)) wrong(name, said);
  const first = Object.keys(own)[0];
  if (first && $('field-' + first)) $('field-' + first).focus();
  else refuse(ended === 'stopped' ? (words === 'stopped' ? 'Stopped; nothing was made.' : words) : words || 'It was refused');
  offerClauses(sheet);
}

function stopRun() {
  const {run: own} = state;
  state.run = null;
  running(false);
  if (own && own.task) return post('task/' + own.task + '/stop', {}).catch(() => {});
}

function finish(task, done) {
  state.done = done;
  state.story = state.growth = null;
  state.step = 0;
  state.picked = null;
  document.body.classList.remove('fresh');
  $('run').textContent = 'Run again';
  $('tab-quads').disabled = false;
  $('tab-steps').disabled = Boolean($('no-steps').textContent);
  showVerdict(task, done);
  showWorst(done);
  showNotes([...done.losses, ...done.notes]);
  $('cell-card').hidden = true;
  go('quads');
}

function showVerdict(task, done) {
  $('verdict').hidden = false;
  $('verdict').classList.toggle('warned', done.warnings.length > 0);
  $('verdict-says').textContent = done.accepted ? 'Accepted' : 'Not accepted';
  const share = 100 * done.quads / Math.max(1, done.quads + done.left);
  list('numbers', [['quads', whole(done.quads) + ' · ' + share.toFixed(1) + ' %'], ['triangles', whole(done.left)], ['least angle', number(done.least_angle) + '°'],
    ['least Jacobian', number(done.least_jacobian, 3)], ['mean Jacobian', number(done.mean_jacobian, 3)], ['nodes added', whole(done.added)], ['nodes dropped', whole(done.dropped)], ['time', done.seconds.toFixed(1) + ' s']]);
  $('warnings').replaceChildren(...done.warnings.map(words => element('p', words, {class: 'warning'})));
  for (const which of ['mesh', 'report', 'sheet', 'table']) $('get-' + which).href = 'task/' + task + '/out/' + which;
  $('get-mesh').textContent = 'Mesh ' + done.output.slice(done.output.lastIndexOf('.'));
  $('get-mesh').title = done.output;
  $('get-sheet').dataset.name = done.output.slice(0, done.output.lastIndexOf('.')) + '-sheet.html';
  $('view-report').href = 'task/' + task + '/show/report';
  $('paper').dataset.src = 'task/' + task + '/show/sheet';
}

function showWorst(done) {
  const rows = [...done.worst_triangles.slice(0, 4).map(place => [done.quads + place, 'triangle ' + (place + 1), number(done.angles[place], 3) + '°', state.about.triangles[classOf(state.about.triangles, done.angles[place])][1]]),
    ...done.worst_quads.slice(0, 8).map(place => [place, 'quad ' + (place + 1), done.jacobians[place].toFixed(3), state.about.quads[classOf(state.about.quads, done.jacobians[place])][1]])];
  $('worst').replaceChildren(...rows.map(([cell, name, value, fill]) => {
    const row = element('li'), button = element('button', null, {type: 'button', 'data-cell': cell}), mark = element('i');
    mark.style.background = fill;
    button.append(mark, element('span', name), element('b', value));
    button.addEventListener('click', () => visit(cell));
    row.append(button);
    return row;
  }));
  $('worst-card').hidden = !rows.length;
}

// Goes to a cell of the finished mesh.
function visit(cell) {
  if (state.view !== 'quads') go('quads');
  const found = describe(cell), xs = found.places.map(p => p[0]), ys = found.places.map(p => p[1]);
  const extent = Math.max(Math.max(...xs) - Math.min(...xs), Math.max(...ys) - Math.min(...ys));
  view.go((Math.max(...xs) + Math.min(...xs)) / 2, (Math.max(...ys) + Math.min(...ys)) / 2, 9 * extent);
  pick(found);
}

// ---- the steps

// The parts of the steps, with their arrays.
const storyOf = done => ({...done.steps, parts: done.steps.parts.map((part, which) => ({...part, ...Object.fromEntries(['points', 'triangles', 'trace', 'numbers'].map(name => [name, done['steps_' + name + '_' + which]]))}))});

async function startSteps() {
  if (!state.story) {
    busy('Replaying the run');
    await sleep(30);
    state.story = new Story(storyOf(state.done));
    state.growth = new Growth(state.story, state.about.quads, state.about.triangles);
    $('step').max = state.story.steps.length;
    busy('');
    if (!state.story.faithful) refuse("The steps do not end in the run's mesh: they are not to be relied on. Please report it.");
    state.step = state.story.steps.length;
  }
  step(state.step);
}

// Shows the mesh after so many steps.
function step(place) {
  const {story, growth} = state;
  place = state.step = growth.go(place);
  $('step').value = place;
  $('step').setAttribute('aria-valuetext', 'Step ' + place);
  $('step-says').textContent = 'Step ' + whole(place) + ' of ' + whole(story.steps.length) + ': ' + story.words(place);
  $('step-back').disabled = place === 0;
  $('step-on').disabled = place === story.steps.length;
  const groups = growth.groups(), picture = new Picture({points: growth.points, groups});
  picture.legend = [['Quads by scaled Jacobian', jacobianRows(groups[0].classes)], ['Triangles by least angle', angleRows(groups[1].classes)]];
  pick(null);
  view.show(picture, true);
  showLegend();
  showScale();
}

function play(on) {
  clearInterval(state.timer);
  state.timer = null;
  if (on && state.step === state.story.steps.length) step(0);
  const pace = on ? Math.max(1, Math.round(state.story.steps.length / 400)) : 1;
  if (on) state.timer = setInterval(() => { step(state.step + pace); if (state.step === state.story.steps.length) play(false); }, 50);
  $('step-play').textContent = on ? 'Pause' : 'Play';
}

// ---- the sheet

function showSheet(address, accepted) {
  $('sheet-says').textContent = accepted ? 'Acceptance sheet' : 'Not accepted';
  $('sheet-hint').textContent = accepted ? 'Type your name on its line, or sign it on paper.' : 'No mesh is written, and there is nothing to sign.';
  if ($('paper').getAttribute('src') !== address) $('paper').src = address;  // otherwise it has the name that was typed
  $('sheet').showModal();
  intoSheet();
}

// The hand goes to the line for a name; Esc closes the sheet from there too.
function intoSheet() {
  const paper = $('paper').contentDocument, name = paper && paper.getElementById('name');
  if (name && $('sheet').open) name.focus({preventScroll: true});  // the sheet is read from its head
  if (paper) paper.onkeydown = event => { if (event.key === 'Escape') $('sheet').close(); };
}

// The sheet with what was typed on its lines, as a file; false where nothing was.
function signedSheet(link) {
  const paper = $('paper').contentDocument, typed = $('paper').getAttribute('src') === $('paper').dataset.src && paper ? [...paper.querySelectorAll('input')].filter(input => input.value) : [];
  if (!typed.length) return false;
  const copy = paper.documentElement.cloneNode(true), made = element('a', null, {download: link.dataset.name});
  for (const input of typed) copy.querySelector('#' + input.id).setAttribute('value', input.value);
  made.href = URL.createObjectURL(new Blob(['<!doctype html>\n', copy.outerHTML, '\n'], {type: 'text/html'}));
  made.click();
  setTimeout(() => URL.revokeObjectURL(made.href), 60000);
  return true;
}

// ---- beginning

function theme(name) {
  document.documentElement.dataset.theme = name;
  view.restyle(style());
  if (view.picture && state.view !== 'steps') draw();
}

function listen() {
  const dark = matchMedia('(prefers-color-scheme: dark)');
  dark.addEventListener('change', () => theme(dark.matches ? 'dark' : 'light'));
  theme(dark.matches ? 'dark' : 'light');
  $('theme').addEventListener('click', () => theme(document.documentElement.dataset.theme === 'dark' ? 'light' : 'dark'));
  for (const id of ['open', 'choose']) $(id).addEventListener('click', () => $('chooser').click());
  $('chooser').addEventListener('change', event => { const [file] = event.target.files; if (file) open(file); event.target.value = ''; });
  let depth = 0;
  const over = by => { depth = Math.max(0, depth + by); document.body.classList.toggle('over', depth > 0); };
  addEventListener('dragenter', event => { event.preventDefault(); over(1); });
  addEventListener('dragleave', () => over(-1));
  addEventListener('dragover', event => event.preventDefault());
  addEventListener('drop', event => { event.preventDefault(); over(-depth); const [file] = event.dataTransfer.files; if (file) open(file); });
  $('settings').addEventListener('submit', event => { event.preventDefault(); run(); });
  $('stop').addEventListener('click', async () => { await stopRun(); refuse('Stopped; nothing was made.'); });
  $('standard').addEventListener('click', () => {
    for (const field of state.about.fields) if (field.group === 'quality') { $('field-' + field.name).value = field.usual; wrong(field.name, ''); }
    qualitySays();
    stale();
  });
  for (const name of ['given', 'front', 'quads', 'steps']) $('tab-' + name).addEventListener('click', () => go(name));
  document.querySelector('.tabs').addEventListener('keydown', event => {
    const tabs = [...document.querySelectorAll('.tabs button:not(:disabled)')], by = {ArrowRight: 1, ArrowLeft: -1}[event.key];
    if (by) tabs[(tabs.indexOf(document.activeElement) + by + tabs.length) % tabs.length].focus();
  });
  $('colour').addEventListener('change', () => draw());
  $('lock').addEventListener('click', () => lockMode(!state.locking));
  $('unlock').addEventListener('click', () => { relock(joints => joints.clear()); $('lock').focus(); });
  $('undo').addEventListener('click', undoLock);
  addEventListener('keydown', event => {
    if (event.defaultPrevented || $('sheet').open) return;
    if (event.key === 'Escape') escape();
    else if ((event.ctrlKey || event.metaKey) && !event.shiftKey && !event.altKey && event.key.toLowerCase() === 'z' && !$('locking').hidden && !event.target.matches('input, textarea, select')) {
      event.preventDefault();
      undoLock();
    }
  });
  $('zoom-in').addEventListener('click', () => view.zoom(view.width / 2, view.height / 2, 1.5));
  $('zoom-out').addEventListener('click', () => view.zoom(view.width / 2, view.height / 2, 1 / 1.5));
  $('fit').addEventListener('click', () => view.fit());
  $('step').addEventListener('input', event => { play(false); step(Number(event.target.value)); });
  $('step-back').addEventListener('click', () => { play(false); step(state.step - 1); });
  $('step-on').addEventListener('click', () => { play(false); step(state.step + 1); });
  $('step-play').addEventListener('click', () => play(state.timer === null));
  $('cell-close').addEventListener('click', () => pick(null));
  $('show-sheet').addEventListener('click', () => showSheet($('paper').dataset.src, true));
  $('show-clauses').addEventListener('click', () => showSheet($('show-clauses').dataset.src, false));
  $('print').addEventListener('click', () => { $('paper').contentWindow.focus(); $('paper').contentWindow.print(); });
  $('close-sheet').addEventListener('click', () => $('sheet').close());
  $('paper').addEventListener('load', intoSheet);
  $('get-sheet').addEventListener('click', event => { if (signedSheet(event.currentTarget)) event.preventDefault(); });
}

// Esc: what is dragged is let go; else what lies over the mesh is closed; else no more edges are locked.
function escape() {
  if (view.held) {
    view.release();
    view.pointers.clear();
    return;
  }
  if (!$('cell-card').hidden) return pick(null);
  if (state.locking) {
    lockMode(false);
    $('lock').focus();
  }
}

async function begin() {
  listen();
  try {
    state.about = await facts('about');
  } catch (refusal) {
    return;
  }
  $('suffixes').textContent = state.about.suffixes.join('  ');
  $('chooser').accept = state.about.suffixes.join(',');
  makeFields();
  const {opened: first} = state.about;
  if (first) {
    const mine = state.reading = {};
    settle(mine, first.file, first.task, first.name).catch(refusal => opened(first.name, refusal.message));
  }
}

globalThis.desk = {state, view};
begin();

}
