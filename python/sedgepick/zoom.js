// The pictures of a page on a canvas, by draw.js: each is read from its own SVG, can be zoomed and moved, and has rulers in the file's units. On paper, and without this
// script, the SVG itself stands.
'use strict';
{

const STEP = 1.5;
const STYLE = {line: '#333333', kept: '#1a1a1a', halo: '#ffffff', paper: '#ffffff', ink: '#1a1a1a', edge: '#666666'};
const HELP = 'Ctrl and the wheel or two fingers zoom it, a drag moves it; arrow keys move it, plus and minus zoom, 0 fits it.';

// ---- an SVG as a picture

// The pieces of a path of M, L, h0 and Z: [places, whether it is closed].
function* piecesOf(d, place) {
  for (const piece of d.split('M')) {
    const numbers = piece.match(/-?[\d.]+/g), places = [];
    if (!numbers) continue;
    for (let i = 0; i + 1 < numbers.length; i += 2) places.push(place(Number(numbers[i]), Number(numbers[i + 1])));
    yield [places, piece.endsWith('Z')];
  }
}

// From the picture's places to the file's, by what a window says of itself.
function placer(box) {
  const [at, low, high] = ['at', 'low', 'high'].map(name => box[name].split(' ').map(Number)), scale = Number(box.scale);
  return (x, y) => [low[0] + (x - at[0]) / scale, high[1] - (y - at[1]) / scale];
}

// Collects what the windows of an SVG show, in the file's units.
class Reader {
  constructor() {
    Object.assign(this, {points: [], groups: new Map(), lines: [], dots: [], labels: []});
  }

  node([x, y]) {
    return this.points.push(x, y) / 2 - 1;
  }

  // A window's shapes. A cell that lies in two windows is there twice, in one place and one colour.
  window(group) {
    this.place = placer(group.dataset);
    this.shapes(group, {});
  }

  shapes(group, given) {
    for (const shape of group.children) {
      const look = {...given};
      for (const name of ['fill', 'stroke', 'stroke-width', 'stroke-dasharray']) if (shape.hasAttribute(name)) look[name] = shape.getAttribute(name);
      if (shape.tagName === 'g') this.shapes(shape, look);
      else if (shape.tagName === 'path') this.path(shape.getAttribute('d'), look);
      else if (shape.tagName === 'line') this.line([['x1', 'y1'], ['x2', 'y2']].map(ends => this.place(...ends.map(name => Number(shape.getAttribute(name))))), look);
      else if (shape.tagName === 'circle') this.circle(shape, look);
      else if (shape.tagName === 'text') this.label(shape);
    }
  }

  path(d, look) {
    const places = [];
    for (const [own, closed] of piecesOf(d, this.place)) {
      if (closed) this.cell(own, look.fill === 'none' ? STYLE.paper : look.fill);
      else if (own.length > 1) places.push(own);
      else this.dots.push({nodes: [this.node(own[0])], colour: look.stroke, radius: 4, share: 1 / 14, rim: 'none'});
    }
    for (const own of places) this.line(own, look);
  }

  cell(places, fill) {
    const key = fill + ' ' + places.length;
    if (!this.groups.has(key)) this.groups.set(key, {nodes: [], width: places.length, palette: [fill]});
    const {nodes} = this.groups.get(key);
    for (const place of places) nodes.push(this.node(place));
  }

  line(places, look) {
    const width = Number(look['stroke-width'] || 1), dash = (look['stroke-dasharray'] || '').split(' ').filter(Boolean).map(Number), last = this.lines[this.lines.length - 1];
    const same = last && last.colour === look.stroke && last.width === width && String(last.dash || []) === String(dash), own = same ? last : {pairs: [], colour: look.stroke, width, dash: dash.length ? dash : null};
    if (!same) this.lines.push(own);
    const nodes = places.map(place => this.node(place));
    nodes.forEach((node, i) => { if (i) own.pairs.push(nodes[i - 1], node); });
  }

  circle(shape, look) {
    const [x, y, radius] = ['cx', 'cy', 'r'].map(name => Number(shape.getAttribute(name)));
    this.last = {node: this.node(this.place(x, y))};
    this.dots.push({nodes: [this.last.node], colour: look.fill || 'none', radius, rim: look.stroke || 'none', thick: Number(look['stroke-width'] || 1)});
  }

  label(shape) {
    if (this.last) this.labels.push({node: this.last.node, words: shape.textContent});
  }

  picture() {
    const {lines, dots, labels} = this, points = Float64Array.from(this.points);
    return new Picture({points, groups: [...this.groups.values()].map(group => ({...group, nodes: Uint32Array.from(group.nodes)})), lines, dots, labels});
  }
}

// ---- the canvas in the SVG's place

class Board {
  constructor(svg) {
    this.svg = svg;
    this.live = svg.dataset.live !== undefined;  // another script draws the cells
    const make = (name, attributes, ...inner) => { const made = document.createElement(name); for (const [key, value] of Object.entries(attributes)) made.setAttribute(key, value); made.append(...inner); return made; };
    this.canvas = make('canvas', {tabindex: 0, role: 'application', 'aria-label': 'The mesh. ' + HELP});
    this.bar = make('div', {class: 'zoom'});
    this.sight = make('div', {class: 'sight'}, this.canvas, this.bar);
    this.frame = make('div', {class: 'board' + (this.live ? ' live' : '')}, this.sight, this.legend());
    svg.before(this.frame);
    if (svg.querySelectorAll('g.window').length < 2) svg.classList.add('paper');  // a long mesh in rows stays in sight below
    for (const [label, words, act] of [['+', 'Zoom in', () => this.by(STEP)], ['−', 'Zoom out', () => this.by(1 / STEP)], ['Fit', 'The whole picture', () => this.view.fit()]]) {
      const button = make('button', {type: 'button', title: words, 'aria-label': words}, label);
      button.addEventListener('click', act);
      this.bar.append(button);
    }
    this.view = new View(this.canvas, {style: STYLE, over: context => this.over(context), still: true, pad: 44});
    if (!this.live) this.read();
  }

  // The legend alone, with as much room as it takes.
  legend() {
    const own = this.svg.querySelector('g.legend'), made = document.createElementNS('http://www.w3.org/2000/svg', 'svg'), [x, y, width, height] = own.dataset.box.split(' ').map(Number);
    for (const [name, value] of [['viewBox', [x, y, width, height].join(' ')], ['width', width], ['height', height], ['font-size', 13], ['font-family', this.svg.getAttribute('font-family')], ['class', 'legend']]) made.setAttribute(name, value);
    made.append(this.live ? own : own.cloneNode(true));
    for (const scale of made.querySelectorAll('.scale')) scale.remove();  // that of the paper
    return made;
  }

  read() {
    const reader = new Reader(), windows = [...this.svg.querySelectorAll('g.window')];
    for (const group of windows) reader.window(group);
    this.show(reader.picture());
    const edges = [...this.svg.querySelectorAll('g.edge')], seen = new Set();  // one that lies in two windows is there twice
    this.edges = edges.map(edge => this.edge(edge, windows)).filter(({words}) => !seen.has(words) && seen.add(words));
    this.places = Float64Array.from(this.edges.flatMap(edge => edge.places.flat()));
    this.meant = -1;
    if (this.edges.length) {
      this.view.restyle({...STYLE, line: '#8a8a8a'});
      this.point();
    }
  }

  show(picture, stay = false) {
    if (!stay) {
      const {low, high} = picture.index;
      this.sight.style.aspectRatio = Math.max(0.5, Math.min(5, (high[0] - low[0]) / (high[1] - low[1]) || 1));
      this.view.resize();
    }
    this.view.show(picture, stay);
  }

  by(factor) {
    this.view.zoom(this.view.width / 2, this.view.height / 2, factor);
  }

  over(context) {
    this.ticks = rulers(context, this.view);
    if (this.extra) this.extra(context, this.view);
    if (this.meant >= 0) would(context, this.view, this.edges[this.meant].quad, this.edges[this.meant].places.slice(0, 2));
  }

  // ---- edges of a front: what each would give

  edge(group, windows) {
    const reader = new Reader(), quad = group.querySelector('g.would path[fill-opacity]'), first = d => piecesOf(d, reader.place).next().value[0], box = windows[Number(group.querySelector('g[clip-path]').getAttribute('clip-path').match(/\d+/)[0])].dataset;
    reader.place = placer(box);
    return {words: group.querySelector('title').textContent, places: first(group.querySelector('path.hot').getAttribute('d')), quad: quad ? first(quad.getAttribute('d')) : null};
  }

  point() {
    const says = document.getElementById('says'), hint = says.textContent;
    const tell = which => {
      if (which === this.meant) return;
      this.meant = which;
      says.textContent = which >= 0 ? this.edges[which].words : hint;
      this.view.request();
    };
    this.view.hover = this.view.click = (px, py) => tell(nearestFront(this.places, ...this.view.place(px, py), 12 / this.view.camera.scale));
    this.view.left = () => tell(-1);
    this.view.key = event => {
      const by = {PageDown: 1, PageUp: -1}[event.key], count = this.edges.length;
      if (by) tell(((this.meant < 0 && by < 0 ? 0 : this.meant) + by + count) % count);
      return Boolean(by);
    };
  }

  // Goes to a mark and the cells around it.
  visit(label) {
    const {picture} = this.view, {node} = picture.labels.find(({words}) => words === label);
    this.view.go(picture.points[2 * node], picture.points[2 * node + 1], 7 * picture.typical);
    this.canvas.scrollIntoView({block: 'nearest'});
  }
}

globalThis.boards = [...document.querySelectorAll('svg.picture')].map(svg => new Board(svg));

// A small picture of a marked cell goes to the cell.
for (const board of boards) {
  const insets = board.svg.nextElementSibling;
  if (insets && insets.matches('.insets')) {
    for (const figure of insets.querySelectorAll('figure')) {
      const label = figure.querySelector('figcaption').textContent, act = () => board.visit(label);
      for (const [name, value] of [['tabindex', 0], ['role', 'button'], ['aria-label', 'Go to ' + label]]) figure.setAttribute(name, value);
      figure.addEventListener('click', act);
      figure.addEventListener('keydown', event => { if (event.key === 'Enter' || event.key === ' ') { event.preventDefault(); act(); } });
    }
  }
}

}
