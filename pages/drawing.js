// The picture of a domain: where its nodes stand, and how nodes and links look.

"use strict";

const SVG = "http://www.w3.org/2000/svg";

// How far apart the nodes of a picture are, at least; many are closer, so that a number is still read where all of them are seen.
const MANY = 100;
const WIDE = 64;
const NARROW = 45;

// How far apart the nodes of a map are pushed, as a share of that, and how much room each has on the whole.
const APART = 0.85;
const ROOM = 5500;

// So many points of the screen a unit of the whole picture has, at most.
const LARGEST = 1.4;

// How often the places of a map are improved, and nodes that overlap pushed apart.
const ROUNDS = 80;
const PUSHES = 40;

// ---- folding

// The node at which each node is drawn: its own place, or that of the node into which it is folded. A node with one link is folded into its
// neighbour, if that one has others; of `branches` all that are left so, too. Nodes that were opened keep theirs.
function foldedInto(domain, fold, opened) {
  const into = [...domain.neighbours.keys()];
  const isShown = (node) => into[node] === node;
  const left = domain.neighbours.map((all) => new Set(all.map((it) => it.node)));
  for (let round = 0; round < (fold === "branches" ? domain.size : fold === "leaves" ? 1 : 0); round++) {
    const leaves = [...into.keys()].filter((node) => isShown(node) && left[node].size === 1);
    const folds = leaves.filter((node) => left[[...left[node]][0]].size > 1);
    for (const node of folds) {
      const [host] = left[node];
      into[node] = host;
      left[host].delete(node);
      left[node].clear();
    }
    if (!folds.length) {
      break;
    }
  }
  const hostOf = (node) => (isShown(node) ? node : hostOf(into[node]));
  return into.map((_, node) => (opened.has(hostOf(node)) ? node : hostOf(node)));
}

// ---- places

// The parts of a domain that no link joins, of the nodes that are shown; the greatest first.
function partsOf(domain, shown) {
  const parts = [];
  const seen = new Set();
  for (const node of shown) {
    if (!seen.has(node)) {
      const hops = domain.hopsFrom(node);
      const part = shown.filter((other) => hops[other] < Infinity);
      part.forEach((other) => seen.add(other));
      parts.push(part);
    }
  }
  return parts.sort((a, b) => b.length - a.length || a[0] - b[0]);
}

// Of a symmetric matrix the direction that it stretches most among those at right angles to others, and by how much.
function stretched(matrix, others) {
  let direction = matrix.map((_, i) => Math.sin(i + 1));
  let length = 0;
  for (let round = 0; round < ROUNDS; round++) {
    let next = matrix.map((row) => row.reduce((sum, value, i) => sum + value * direction[i], 0));
    for (const other of others) {
      const share = next.reduce((sum, value, i) => sum + value * other[i], 0);
      next = next.map((value, i) => value - share * other[i]);
    }
    length = Math.hypot(...next) || 1;
    direction = next.map((value) => value / length);
  }
  return [direction, length];
}

// Places at which nodes are as far apart as the links between them are many, as well as a plane can have it: first by the two directions in which
// they differ most (classical scaling), then by moving each to where the others would have it (stress majorization).
function mapOf(domain, part) {
  const hops = part.map((node) => domain.hopsFrom(node));
  const far = part.map((_, i) => part.map((other) => hops[i][other]));
  const squares = far.map((row) => row.map((value) => value * value));
  const means = squares.map((row) => row.reduce((sum, value) => sum + value, 0) / row.length);
  const mean = means.reduce((sum, value) => sum + value, 0) / means.length;
  const matrix = squares.map((row, i) => row.map((value, j) => (means[i] + means[j] - mean - value) / 2));
  const [across, width] = stretched(matrix, []);
  const [down, height] = stretched(matrix, [across]);
  let places = part.map((_, i) => [across[i] * Math.sqrt(width), down[i] * Math.sqrt(height)]);
  for (let round = 0; round < ROUNDS; round++) {
    places = places.map((place, i) => drawnTo(places, place, far[i], i));
  }
  return turned(part, places);
}

// The same turned over, so that lesser nodes stand to the left and at the top.
function turned(part, places) {
  const middle = part.reduce((sum, node) => sum + node, 0) / part.length;
  const signs = [0, 1].map((axis) => Math.sign(places.reduce((sum, place, i) => sum + place[axis] * (part[i] - middle), 0)) || 1);
  return places.map(([x, y]) => [x * signs[0], y * signs[1]]);
}

// Where the others would have a node: each at its distance in the direction in which the node is, and near ones count more.
function drawnTo(places, [x, y], far, node) {
  let [sumX, sumY, weights] = [0, 0, 0];
  places.forEach(([otherX, otherY], other) => {
    if (other !== node) {
      const weight = 1 / (far[other] * far[other]);
      const apart = Math.hypot(x - otherX, y - otherY) || 0.01;
      sumX += weight * (otherX + (far[other] * (x - otherX)) / apart);
      sumY += weight * (otherY + (far[other] * (y - otherY)) / apart);
      weights += weight;
    }
  });
  return [sumX / weights, sumY / weights];
}

// A map at the scale of a picture: nodes are as far apart as is said for each link, or farther, so that all of them have room.
function roomy(places, spacing) {
  const { width, height } = boxOf(places, 1);
  const scale = Math.max(spacing, Math.sqrt((places.length * ROOM) / (width * height)));
  return pushApart(places.map(([x, y]) => [x * scale, y * scale]), spacing * APART);
}

// Pushes nodes apart that are too close.
function pushApart(places, least) {
  for (let round = 0; round < PUSHES; round++) {
    let isDone = true;
    for (let i = 0; i < places.length; i++) {
      for (let j = 0; j < i; j++) {
        const [dx, dy] = [places[i][0] - places[j][0] || 0.01 * (i - j), places[i][1] - places[j][1]];
        const apart = Math.hypot(dx, dy);
        if (apart < least) {
          const push = (least - apart) / 2 / apart;
          places[i] = [places[i][0] + dx * push, places[i][1] + dy * push];
          places[j] = [places[j][0] - dx * push, places[j][1] - dy * push];
          isDone = false;
        }
      }
    }
    if (isDone) {
      break;
    }
  }
  return places;
}

// The nodes of a part in layers: by how many links they are from the root, below which each stands near those above it that it is linked with.
function layersOf(domain, part, root, spacing) {
  const hops = domain.hopsFrom(root);
  const layers = [];
  for (const node of part) {
    (layers[hops[node]] ??= []).push(node);
  }
  const column = new Map();
  const setColumns = (layer) => layer.forEach((node, i) => column.set(node, i - (layer.length - 1) / 2));
  const wish = (node, rank) => {
    const near = domain.neighbours[node].map((it) => it.node).filter((it) => hops[it] === rank && column.has(it));
    return near.length ? near.reduce((sum, it) => sum + column.get(it), 0) / near.length : column.get(node);
  };
  layers.forEach(setColumns);
  for (let round = 0; round < 8; round++) {
    const ranks = [...layers.keys()];
    for (const rank of round % 2 ? ranks.reverse() : ranks) {
      const wishes = new Map(layers[rank].map((node) => [node, wish(node, round % 2 ? rank + 1 : rank - 1)]));
      layers[rank].sort((a, b) => wishes.get(a) - wishes.get(b) || a - b);
      setColumns(layers[rank]);
    }
  }
  // A long layer is broken into rows that stand close.
  const most = Math.max(12, Math.ceil(Math.sqrt(part.length) * 1.6));
  const places = new Map();
  let y = 0;
  for (const layer of layers) {
    const rows = Math.ceil(layer.length / most);
    layer.forEach((node, i) => places.set(node, [(i - (layer.length - 1) / 2) * (spacing / rows), y + (i % rows) * spacing * 0.95]));
    y += spacing * (1.3 + 0.95 * (rows - 1));
  }
  return part.map((node) => places.get(node));
}

// A node's prefix as a number and a length.
function parsedPrefix(text) {
  const [address, length] = text.split("/");
  return [addressOf(address), Number(length)];
}

function addressOf(text) {
  return text.split(".").reduce((number, group) => number * 256 + Number(group), 0);
}

// The nodes by their prefixes: those with the same first numbers stand together, of as many numbers as there have to be for some to differ.
function byPrefix(domain, shown) {
  const sorted = [...shown].sort((a, b) => {
    const [[first, short], [second, long]] = [a, b].map((node) => parsedPrefix(domain.data.prefixes[node]));
    return first - second || short - long || a - b;
  });
  for (const count of [1, 2, 3, 4]) {
    const groups = new Map();
    for (const node of sorted) {
      const name = domain.data.prefixes[node].split("/")[0].split(".").slice(0, count).join(".");
      groups.set(name, [...(groups.get(name) ?? []), node]);
    }
    if (groups.size > 1 || count === 4) {
      return [...groups].map(([name, nodes]) => ({ name: count < 4 ? `${name}.` : name, nodes }));
    }
  }
}

// Some nodes side by side, in about as many rows as columns.
function blockOf(count, spacing, columns = Math.ceil(Math.sqrt(count * 1.6))) {
  return Array.from({ length: count }, (_, i) => [(i % columns) * spacing, Math.floor(i / columns) * spacing]);
}

// Puts blocks of places side by side, from the left to the right and then below, in about the width that makes a picture of a screen's form.
function packed(blocks, spacing) {
  const boxes = blocks.map((places) => boxOf(places, spacing));
  const area = boxes.reduce((sum, box) => sum + box.width * box.height, 0);
  const limit = Math.max(Math.sqrt(area * 1.8), ...boxes.map((box) => box.width));
  let [x, y, tallest] = [0, 0, 0];
  return blocks.map((places, number) => {
    const box = boxes[number];
    if (x > 0 && x + box.width > limit * 1.01) {
      [x, y, tallest] = [0, y + tallest, 0];
    }
    const moved = places.map((place) => [place[0] - box.x + x, place[1] - box.y + y]);
    [x, tallest] = [x + box.width, Math.max(tallest, box.height)];
    return moved;
  });
}

// The box around some places, with a margin.
function boxOf(places, margin) {
  const [xs, ys] = [places.map(([x]) => x), places.map(([, y]) => y)];
  const [left, top] = [Math.min(...xs) - margin / 2, Math.min(...ys) - margin / 2];
  return { x: left, y: top, width: Math.max(...xs) + margin / 2 - left, height: Math.max(...ys) + margin / 2 - top };
}

// Where each node stands that is shown, and boxes with names around some of them.
function layOut(domain, shown, layout, root) {
  const spacing = shown.length > MANY ? NARROW : WIDE;
  const places = new Map();
  if (layout === "prefix") {
    const groups = byPrefix(domain, shown);
    const blocks = packed(groups.map((group) => blockOf(group.nodes.length, spacing)), spacing * 1.4);
    groups.forEach((group, number) => group.nodes.forEach((node, i) => places.set(node, blocks[number][i])));
    const areAlone = groups.every((group) => group.nodes.length === 1);
    return { places, spacing, boxes: areAlone ? [] : groups.map((group, i) => ({ name: group.name, box: boxOf(blocks[i], spacing * 0.95) })) };
  }
  const parts = partsOf(domain, shown);
  const joined = parts.filter((part) => part.length > 1);
  const alone = parts.filter((part) => part.length === 1).flat();
  const blocks = joined.map((part) => {
    if (layout === "layers") {
      return layersOf(domain, part, part.includes(root) ? root : mostLinked(domain, part), spacing);
    }
    return roomy(mapOf(domain, part), spacing);
  });
  if (alone.length) {
    blocks.push(blockOf(alone.length, spacing * 0.8, Math.max(8, Math.ceil(Math.sqrt(alone.length) * 2))));
  }
  const nodes = [...joined, ...(alone.length ? [alone] : [])];
  packed(blocks, spacing * 1.2).forEach((block, number) => block.forEach((place, i) => places.set(nodes[number][i], place)));
  return { places, spacing, boxes: [] };
}

function mostLinked(domain, part) {
  return part.reduce((best, node) => (domain.neighbours[node].length > domain.neighbours[best].length ? node : best));
}

// ---- elements

// An element of a picture with its attributes and what is in it. Texts are set as texts, so nothing of a file is read as an element.
function svgElement(name, attributes = {}, ...content) {
  const element = document.createElementNS(SVG, name);
  for (const [key, value] of Object.entries(attributes)) {
    element.setAttribute(key, value);
  }
  for (const part of content) {
    if (part instanceof Node) {
      element.append(part);
    } else {
      element.textContent = part;
    }
  }
  return element;
}

// The outlines of nodes. Form tells what colour tells: a node whose failure cuts others off is a diamond, one that has lost a route a square.
function outline(form, radius) {
  const r = form === "diamond" ? radius * 1.3 : form === "square" ? radius * 0.95 : radius;
  switch (form) {
    case "diamond":
      return `M0 ${-r}L${r} 0L0 ${r}L${-r} 0Z`;
    case "square":
      return `M${-r} ${-r}H${r}V${r}H${-r}Z`;
    default:
      return `M${-r} 0A${r} ${r} 0 1 1 ${r} 0A${r} ${r} 0 1 1 ${-r} 0Z`;
  }
}

// An arrow from one place to another, as a line with a head, which ends at the outline of a node.
function arrow([x1, y1], [x2, y2], radius) {
  const length = Math.hypot(x2 - x1, y2 - y1) || 1;
  const [dx, dy] = [(x2 - x1) / length, (y2 - y1) / length];
  const [fromX, fromY, toX, toY] = [x1 + dx * radius, y1 + dy * radius, x2 - dx * (radius + 2), y2 - dy * (radius + 2)];
  const head = Math.min(7, length / 4);
  const side = (sign) => `${toX - dx * head + sign * dy * head * 0.6} ${toY - dy * head - sign * dx * head * 0.6}`;
  return `M${fromX} ${fromY}L${toX} ${toY}M${side(1)}L${toX} ${toY}L${side(-1)}`;
}

function cross([x, y], r) {
  return `M${x - r} ${y - r}L${x + r} ${y + r}M${x - r} ${y + r}L${x + r} ${y - r}`;
}

class Drawing {
  // The hooks are called with the number of a node or a link, and with the event.
  constructor(svg, domain, hooks) {
    Object.assign(this, { svg, domain, hooks, nodes: new Map(), links: new Map(), focused: null });
    this.followPointer();
    svg.addEventListener("keydown", (event) => this.step(event));
  }

  // Draws the domain anew.
  place({ layout, fold, opened, root }) {
    const { domain } = this;
    this.into = foldedInto(domain, fold, opened);
    this.shown = [...domain.neighbours.keys()].filter((node) => this.into[node] === node);
    const { places, spacing, boxes } = layOut(domain, this.shown, layout, root);
    Object.assign(this, { places, radius: spacing === WIDE ? 15 : 12 });
    this.marks = svgElement("g", { "aria-hidden": "true" });
    this.nodes = new Map(this.shown.map((node) => [node, this.nodeElement(node)]));
    this.links = new Map();
    domain.links.forEach(([u, w], link) => {
      if (this.isShown(u) && this.isShown(w)) {
        this.links.set(link, this.linkElement(link));
      }
    });
    const frames = boxes.map(({ name, box }) => this.frameElement(name, box));
    this.svg.replaceChildren(...frames, ...this.links.values(), this.marks, ...this.nodes.values());
    const corners = boxes.flatMap(({ box }) => [[box.x, box.y - 12], [box.x + box.width, box.y + box.height]]);
    this.whole = this.widened(boxOf([...places.values(), ...corners], spacing));
    this.look(this.whole);
    this.setFocus(this.nodes.has(this.focused) ? this.focused : this.shown[0]);
  }

  isShown(node) {
    return this.into[node] === node;
  }

  frameElement(name, { x, y, width, height }) {
    return svgElement("g", { class: "frame" }, svgElement("rect", { x, y, width, height, rx: 6 }), svgElement("text", { x: x + 4, y: y - 4 }, name));
  }

  linkElement(link) {
    const [[x1, y1], [x2, y2]] = this.domain.links[link].map((node) => this.places.get(node));
    const wire = svgElement("line", { x1, y1, x2, y2, class: "wire" });
    const reach = svgElement("line", { x1, y1, x2, y2, class: "reach" });
    const element = svgElement("g", { class: "link", "data-link": link }, wire, reach, svgElement("title"));
    element.addEventListener("click", (event) => this.hooks.link(link, event));
    return element;
  }

  nodeElement(node) {
    const [x, y] = this.places.get(node);
    const folded = this.into.filter((host) => host === node).length - 1;
    const element = svgElement("g", { class: "node", "data-node": node, transform: `translate(${x} ${y})`, role: "button", tabindex: -1 },
      svgElement("title"), svgElement("path", { class: "shape" }), svgElement("text", { class: "number", dy: "0.35em" }, String(node)),
      svgElement("text", { class: "under", x: this.radius * 0.75, y: this.radius + 6 }),
      svgElement("text", { class: "count", x: this.radius - 2, y: -this.radius + 2 }),
      svgElement("text", { class: "prefix", y: -this.radius - 4 }, this.domain.data.prefixes[node]));
    if (folded) {
      const badge = svgElement("g", { class: "folded", transform: `translate(${-this.radius} ${this.radius - 2})`, "aria-hidden": "true" },
        svgElement("title", {}, `${folded} folded nodes: click to show them`), svgElement("rect", { x: -11, y: -7, width: 22, height: 14, rx: 7 }),
        svgElement("text", { dy: "0.35em" }, `+${folded}`));
      badge.addEventListener("click", (event) => {
        event.stopPropagation();
        this.hooks.open(node);
      });
      element.append(badge);
    }
    element.addEventListener("click", (event) => this.hooks.node(node, event));
    return element;
  }

  // How a node looks: the names of its looks, its form, what is said under it and beside it, and in words.
  setNode(node, { looks = [], form = "circle", under = "", count = "", words }) {
    const element = this.nodes.get(node);
    element.setAttribute("class", ["node", ...looks].join(" "));
    element.querySelector(".shape").setAttribute("d", outline(form, this.radius));
    element.querySelector(".under").textContent = under;
    element.querySelector(".count").textContent = count;
    element.querySelector("title").textContent = words;
    element.setAttribute("aria-label", words);
    element.setAttribute("aria-pressed", looks.includes("chosen"));
  }

  setLink(link, { looks = [], width = 1.5, words }) {
    const element = this.links.get(link);
    element.setAttribute("class", ["link", ...looks].join(" "));
    element.querySelector(".wire").setAttribute("stroke-width", width);
    element.querySelector("title").textContent = words;
  }

  // Sets the marks over the links: arrows of next hops, and crosses on what has failed.
  setMarks({ arrows, links, nodes }) {
    const marks = arrows.filter(({ from, to }) => this.isShown(from) && this.isShown(to)).map(({ from, to, looks }) =>
      svgElement("path", { class: `arrow ${looks}`, d: arrow(this.places.get(from), this.places.get(to), this.radius) }));
    for (const link of links.filter((it) => this.links.has(it))) {
      const [[x1, y1], [x2, y2]] = this.domain.links[link].map((node) => this.places.get(node));
      marks.push(svgElement("path", { class: "cross", d: cross([(x1 + x2) / 2, (y1 + y2) / 2], 7) }));
    }
    for (const node of nodes.filter((it) => this.isShown(it))) {
      marks.push(svgElement("path", { class: "cross", d: cross(this.places.get(node), this.radius * 1.4) }));
    }
    this.marks.replaceChildren(...marks);
  }

  // ---- looking: a part of the picture fills the window

  look({ x, y, width, height }) {
    this.window = { x, y, width, height };
    this.svg.setAttribute("viewBox", `${x} ${y} ${width} ${height}`);
    this.svg.classList.toggle("near", this.scale() > 1.25 && this.scale() > this.scaleOf(this.whole) * 1.05);
  }

  // A box with more around it, where a picture of few nodes would be drawn too large.
  widened({ x, y, width, height }) {
    const [more, higher] = [Math.max(0, this.svg.clientWidth / LARGEST - width), Math.max(0, this.svg.clientHeight / LARGEST - height)];
    return { x: x - more / 2, y: y - higher / 2, width: width + more, height: height + higher };
  }

  // How many points of the screen a unit of the picture has.
  scaleOf(box) {
    return Math.min(this.svg.clientWidth / box.width, this.svg.clientHeight / box.height) || 1;
  }

  scale() {
    return this.scaleOf(this.window);
  }

  // Shows more of the picture, or less, about a place of it; its middle, where none is said.
  zoom(factor, place) {
    const { x, y, width, height } = this.window;
    const limited = Math.min(Math.max(factor, 40 / width), (this.whole.width * 2) / width);
    const [atX, atY] = place ?? [x + width / 2, y + height / 2];
    this.look({ x: atX + (x - atX) * limited, y: atY + (y - atY) * limited, width: width * limited, height: height * limited });
  }

  // Moves the window, so that a node is in it.
  bringIn(node) {
    const [x, y] = this.places.get(this.into[node]);
    const { window } = this;
    const isIn = x > window.x && x < window.x + window.width && y > window.y && y < window.y + window.height;
    if (!isIn) {
      this.look({ ...window, x: x - window.width / 2, y: y - window.height / 2 });
    }
  }

  placeOf(event) {
    const box = this.svg.getBoundingClientRect();
    const scale = this.scale();
    const { x, y, width, height } = this.window;
    return [x + width / 2 + (event.clientX - box.left - box.width / 2) / scale, y + height / 2 + (event.clientY - box.top - box.height / 2) / scale];
  }

  // The wheel zooms, and a pointer that is moved while it is down moves the picture.
  followPointer() {
    const { svg } = this;
    let begun = null;
    svg.addEventListener("wheel", (event) => {
      event.preventDefault();
      this.zoom(event.deltaY > 0 ? 1.2 : 1 / 1.2, this.placeOf(event));
    }, { passive: false });
    svg.addEventListener("pointerdown", (event) => {
      begun = { x: event.clientX, y: event.clientY, window: this.window, isMoved: false };
    });
    svg.addEventListener("pointermove", (event) => {
      const [dx, dy] = begun ? [event.clientX - begun.x, event.clientY - begun.y] : [0, 0];
      if (begun && (begun.isMoved || Math.hypot(dx, dy) > 4)) {
        begun.isMoved = true;
        svg.setPointerCapture(event.pointerId);
        this.look({ ...begun.window, x: begun.window.x - dx / this.scale(), y: begun.window.y - dy / this.scale() });
      }
    });
    svg.addEventListener("pointerup", () => {
      begun = null;
    });
  }

  // ---- keys: one node of the picture is in the order of the page, and arrow keys lead from it to others

  setFocus(node) {
    this.nodes.get(this.focused)?.setAttribute("tabindex", -1);
    this.focused = node;
    this.nodes.get(node)?.setAttribute("tabindex", 0);
  }

  step(event) {
    const directions = { ArrowLeft: [-1, 0], ArrowRight: [1, 0], ArrowUp: [0, -1], ArrowDown: [0, 1] };
    if (event.key === "Enter" || event.key === " ") {
      event.preventDefault();
      this.hooks.node(this.focused, event);
    } else if (event.key in directions) {
      event.preventDefault();
      const next = this.nearestTowards(directions[event.key]);
      if (next !== null) {
        this.setFocus(next);
        this.nodes.get(next).focus();
        this.bringIn(next);
      }
    }
  }

  // The nearest node in a direction, where what lies beside it counts more than what lies ahead.
  nearestTowards([dx, dy]) {
    const [x, y] = this.places.get(this.focused);
    let [found, least] = [null, Infinity];
    for (const [node, [toX, toY]] of this.places) {
      const ahead = (toX - x) * dx + (toY - y) * dy;
      const beside = Math.abs((toX - x) * dy - (toY - y) * dx);
      if (ahead > 1 && beside <= ahead * 1.5 && ahead + 2 * beside < least) {
        [found, least] = [node, ahead + 2 * beside];
      }
    }
    return found;
  }
}
