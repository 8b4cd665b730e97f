// The page of a domain: what is chosen in it, and what it shows of that.
//
// All that is chosen stands in the address behind `#`, so that a view can be sent to somebody, and the browser's way back leads to the one before.
// All texts are set as texts: no byte of a script's file is ever read as an element, or run.

"use strict";

// So many things a search finds, or are named in a line, at most.
const FOUND_AT_MOST = 12;

// ---- what is chosen

// What is chosen, as the address says it: `#fail=0-1,7&node=3` is the link between 0 and 1 and the node 7 that fail, and the node 3.
function readAddress(domain, text) {
  const words = new URLSearchParams(text.replace(/^#/, ""));
  const isNode = (node) => Number.isInteger(node) && node >= 0 && node < domain.size;
  const failed = { links: [], nodes: [] };
  for (const word of (words.get("fail") ?? "").split(",")) {
    const numbers = word.split("-").map((it) => (/^\d+$/.test(it) ? Number(it) : -1));
    const link = domain.linkBetween(...numbers);
    if (numbers.length === 2 && link >= 0) {
      failed.links.push(link);
    } else if (numbers.length === 1 && isNode(numbers[0])) {
      failed.nodes.push(numbers[0]);
    }
  }
  const node = /^\d+$/.test(words.get("node") ?? "") ? Number(words.get("node")) : null;
  return { failed, node: isNode(node) ? node : null };
}

function addressOfView(domain, { failed, node }) {
  const fails = [...failed.links.map((link) => domain.links[link].join("-")), ...failed.nodes];
  return [...(fails.length ? [`fail=${fails.join(",")}`] : []), ...(node !== null ? [`node=${node}`] : [])].join("&");
}

// A list with a number in it, or without it where it is there.
function toggled(numbers, number) {
  return numbers.includes(number) ? numbers.filter((it) => it !== number) : [...numbers, number];
}

class Page {
  constructor(domain, file) {
    Object.assign(this, { domain, file, words: new Words(domain), opened: new Set(), kind: "links", found: null });
    this.view = { failed: NOTHING, node: null };
    this.drawing = new Drawing(byId("map"), domain, {
      link: (link, event) => this.fail({ links: [link], nodes: [] }, event.shiftKey),
      node: (node, event) => (event.shiftKey ? this.fail({ links: [], nodes: [node] }, true) : this.choose(this.view.node === node ? null : node)),
      open: (node) => {
        this.opened.add(node);
        this.redraw();
      },
    });
    this.makeTables();
    this.listen();
  }

  // ---- what changes the choice

  // Some links and nodes fail, besides those that do or in their place.
  fail({ links, nodes }, isBesides = false) {
    const { failed } = this.view;
    const besides = { links: links.reduce(toggled, failed.links), nodes: nodes.reduce(toggled, failed.nodes) };
    this.go({ ...this.view, failed: isBesides ? besides : { links, nodes } });
  }

  choose(node) {
    this.go({ ...this.view, node });
  }

  go(view) {
    const address = addressOfView(this.domain, view);
    if (address === addressOfView(this.domain, this.view)) {
      return;
    }
    history.pushState(null, "", `#${address}`);
    this.show(view);
  }

  show(view) {
    this.view = view;
    const { failed, node } = view;
    this.found = failed.links.length + failed.nodes.length ? this.domain.failure(failed) : null;
    // What is chosen is not left folded.
    const shown = [node, ...failed.nodes, ...failed.links.flatMap((link) => this.domain.links[link])];
    const hidden = shown.filter((it) => it !== null && !this.drawing.isShown(it));
    if (hidden.length) {
      hidden.forEach((it) => this.opened.add(this.drawing.into[it]));
      this.redraw();
    }
    if (node !== null) {
      this.drawing.setFocus(node);
      this.drawing.bringIn(node);
    }
    this.paint();
    this.showDetail();
    this.failureTable.show(this.failureRows());
    byId("said").textContent = this.said();
  }

  redraw() {
    this.drawing.place({ layout: byId("layout").value, fold: byId("fold").value, opened: this.opened, root: this.view.node });
    this.paint();
  }

  // ---- the picture

  paint() {
    const { drawing, found, view } = this;
    for (const node of drawing.shown) {
      drawing.setNode(node, this.nodeLook(node));
    }
    for (const link of drawing.links.keys()) {
      drawing.setLink(link, this.linkLook(link));
    }
    drawing.setMarks({ arrows: this.arrows(), links: view.failed.links, nodes: view.failed.nodes });
    byId("map").classList.toggle("routes", view.node !== null);
    byId("map").classList.toggle("failing", found !== null);
    this.showLegend();
  }

  nodeLook(node) {
    const { domain, found, view } = this;
    const name = `node ${node}, ${domain.data.prefixes[node]}`;
    if (view.failed.nodes.includes(node)) {
      return { looks: ["failed"], words: `${name}: has failed` };
    }
    if (view.node !== null) {
      return this.routeLook(node, name);
    }
    if (found) {
      const changes = found.changes.filter((it) => it.from === node);
      const lost = changes.filter((it) => domain.isLost(it)).length;
      const words = `${name}: ${counted(changes.length, "of its routes changes", "of its routes change")}, ${lost} of them lost`;
      return { looks: [lost ? "lost" : changes.length ? "changed" : ""], form: lost ? "square" : "circle", count: changes.length || "", words };
    }
    const { lost, changed } = domain.data.failures.nodes[node];
    const looks = lost ? ["harmful"] : domain.neighbours[node].length ? [] : ["apart"];
    return { looks, form: lost ? "diamond" : "circle", words: `${name}: if it fails, ${this.costs(changed, lost)}` };
  }

  costs(changed, lost) {
    return `${counted(changed, "route changes", "routes change")}, ${lost ? counted(lost, "is lost", "are lost") : "none is lost"}`;
  }

  // A node as one that has a route to the chosen one.
  routeLook(node, name) {
    const { domain, found, view, words } = this;
    const before = domain.tables[node][view.node];
    const after = found ? found.tables[node][view.node] : before;
    const isLost = domain.isLost({ before, after });
    const isNone = after[0] === domain.size;
    const isChanged = !words.isSame(before, after);
    const looks = [node === view.node ? "chosen" : isLost ? "lost" : isChanged ? "changed" : isNone ? "apart" : ""];
    if (found && node !== view.node && this.isStill(node)) {
      looks.push("still");
    }
    const distance = ([number]) => (number === domain.size ? "none" : `${number}`);
    const kept = `${looks.includes("still") ? "=" : ""}${distance(after)}`;
    const under = before[0] !== after[0] ? `${distance(before)}\u2192${distance(after)}` : isNone ? "" : kept;
    const told = node === view.node ? "chosen" : `its route to node ${view.node}: ${words.routes(before, after)}`;
    return { looks, form: isLost ? "square" : "circle", under, words: `${name}: ${told}` };
  }

  // Whether a node keeps its route to the chosen one however often what fails comes and goes. That is said of links that fail alone.
  isStill(node) {
    const { domain, found, view } = this;
    const [before, after] = [domain.tables[node][view.node], found.tables[node][view.node]];
    return !view.failed.nodes.length && before[0] < found.still[view.node] && before[0] < domain.size && before[1] === after[1];
  }

  linkLook(link) {
    const { domain, view, words } = this;
    const { changed, lost } = domain.data.failures.links[link];
    const looks = view.failed.links.includes(link) ? ["failed"] : this.found || view.node !== null ? [] : lost ? ["harmful"] : [];
    const told = view.failed.links.includes(link) ? "has failed" : `if it fails, ${this.costs(changed, lost)}`;
    return { looks, width: view.node === null && !this.found ? this.widthOf(changed) : 1.5, words: `link ${words.link(link)}: ${told}` };
  }

  // A link is drawn the wider, the more routes change where it fails.
  widthOf(changed) {
    const most = Math.max(...this.domain.data.failures.links.map((it) => it.changed), 1);
    return (1 + 4 * Math.sqrt(changed / most)).toFixed(2);
  }

  // The next hops of routes to the chosen node, and where they are others now also those before.
  arrows() {
    const { domain, found, view, words } = this;
    if (view.node === null) {
      return [];
    }
    return domain.tables.flatMap((table, from) => {
      const before = table[view.node];
      const after = found ? found.tables[from][view.node] : before;
      const isChanged = !words.isSame(before, after);
      const drawn = (route, looks) => (route[1] === null ? [] : [{ from, to: route[1], looks }]);
      const isOtherHop = before[1] !== after[1];
      return [...(isOtherHop ? drawn(before, "before") : []), ...drawn(after, isChanged ? "changed" : "")];
    });
  }

  showLegend() {
    const { found, view } = this;
    const sign = (looks, element, attributes) => svgElement("svg", { viewBox: "-11 -11 22 22", class: "symbol", "aria-hidden": "true" },
      svgElement("g", { class: looks }, svgElement(element, attributes)));
    const symbol = (looks, form) => sign(`node ${looks}`, "path", { class: "shape", d: outline(form, 7) });
    const line = (looks) => sign(looks, "line", { x1: -10, x2: 10, y1: 0, y2: 0, class: "wire", "stroke-width": 3 });
    const path = (looks) => sign("", "path", { class: `arrow ${looks}`, d: arrow([-14, 0], [14, 0], 3) });
    const entries = [];
    if (view.node === null && !found) {
      entries.push([line("link"), "link: the wider, the more routes change where it fails"], [line("link harmful"), "its failure cuts nodes off"],
        [symbol("harmful", "diamond"), "the failure of this node cuts others off from one another"], [symbol("apart", "circle"), "has no links"]);
    }
    if (found) {
      entries.push([sign("", "path", { class: "cross", d: cross([0, 0], 6) }), "has failed"]);
    }
    if (view.node !== null) {
      entries.push([symbol("chosen", "circle"), "chosen"], [path(""), "next hop to it; the distance stands under each node"]);
    }
    if (found) {
      const what = view.node === null ? "some of its routes change, so many" : "its route is another";
      entries.push([symbol("changed", "circle"), what], [symbol("lost", "square"), view.node === null ? "some are lost" : "its route is lost"]);
    }
    if (found && view.node !== null) {
      entries.push([path("changed"), "next hop of a route that is another"], [path("before"), "next hop before"]);
      if (!view.failed.nodes.length) {
        entries.push([symbol("still", "circle"), "with =: keeps its route, however often what fails comes and goes"]);
      }
    } else if (view.node !== null) {
      entries.push([symbol("apart", "circle"), "has no route to it"]);
    }
    byId("legend").replaceChildren(...entries.map((entry) => make("li", {}, ...entry)));
  }

  // ---- the tables

  makeTables() {
    const { domain, words } = this;
    const figure = (name, word, title) => ({ name, title, isNumber: true, key: (it) => it[word], show: (it) => it[word].toLocaleString("en") });
    const failing = (it) => (it.link ? { links: [it.place], nodes: [] } : { links: [], nodes: [it.place] });
    const nameOf = (it) => (it.link ? words.link(it.place) : `${it.place}`);
    this.failureTable = new Table("What each failure changes, by itself", [
      { name: "Fails", key: (it) => it.place, show: (it) => this.failButton(nameOf(it), failing(it)) },
      // Of those by which as many are lost the one that changes most comes first.
      {
        ...figure("Lost", "lost", "so many routes are lost"),
        key: (it) => it.lost * domain.size ** 2 + it.changed, look: (it) => (it.lost ? "is-lost" : ""),
      },
      figure("Changed", "changed", "so many routes have another distance or next hop"),
      figure("Moved", "moved", "to so many nodes some distance is another"),
      figure("Rounds", "rounds", "after so many rounds all is told, at most"),
      { ...figure("Still", "still", "below this distance none is another"), show: (it) => (it.still === domain.size ? "all" : `< ${it.still}`) },
    ], { column: 1, isDown: true });
    this.failureTable.limit = Infinity;
    this.failureTable.isChosen = (it) => (it.link ? this.view.failed.links : this.view.failed.nodes).includes(it.place);
    this.changeTable = new Table("Routes that change", [
      { name: "From", key: (it) => it.from, show: (it) => this.nodeButton(it.from) },
      { name: "To", key: (it) => it.to, show: (it) => this.nodeButton(it.to) },
      { name: "Before", key: (it) => it.before[0], show: (it) => words.route(it.before) },
      { name: "After", key: (it) => it.after[0], show: (it) => words.route(it.after), look: (it) => (domain.isLost(it) ? "is-lost" : "is-changed") },
    ], { column: 0, isDown: false });
    const isOther = ({ before, after }) => !words.isSame(before, after);
    const routes = (name, word) => ({
      name, key: (it) => it[word].after[0], show: (it) => words.routes(it[word].before, it[word].after),
      look: ({ [word]: it }) => (!isOther(it) ? "" : domain.isLost(it) ? "is-lost" : "is-changed"),
    });
    this.routeTable = new Table("Its table, and who reaches it through whom", [
      // Nodes with a route that is another come first.
      { name: "Node", key: (it) => (isOther(it.out) || isOther(it.back) ? it.node - domain.size : it.node), show: (it) => this.nodeButton(it.node) },
      { name: "Prefix", key: (it) => addressOf(domain.data.prefixes[it.node].split("/")[0]), show: (it) => domain.data.prefixes[it.node] },
      routes("Route to it", "out"), routes("Its route here", "back"),
    ], { column: 0, isDown: false });
  }

  nodeButton(node) {
    return button(`${node}`, () => this.choose(node), { className: "go", "aria-label": `node ${node}` });
  }

  linkButton(link) {
    return this.failButton(this.words.link(link), { links: [link], nodes: [] });
  }

  failButton(text, failing) {
    return button(text, (event) => this.fail(failing, event.shiftKey), { className: "go", title: "What if it fails?" });
  }

  // A button that mends what has failed.
  mendButton(kind, name, failed) {
    return button(`${name} \u00d7`, () => this.fail(failed, true), { "aria-label": `mend the ${kind} ${name}` });
  }

  failureRows() {
    return this.domain.data.failures[this.kind].map((it, place) => ({ ...it, place }));
  }

  // ---- what is chosen, in words and tables

  showDetail() {
    const { found, view } = this;
    const parts = [];
    if (found) {
      parts.push(...this.failureDetail());
    }
    if (view.node !== null) {
      parts.push(...this.nodeDetail());
    }
    byId("detail").replaceChildren(...(parts.length ? parts : this.overview()));
  }

  overview() {
    const { links, nodes } = this.domain.data.failures;
    const harmfulLinks = links.flatMap((it, link) => (it.lost ? [this.linkButton(link)] : []));
    const harmfulNodes = nodes.filter((it) => it.lost).map((it) => this.nodeButton(it.node));
    const { longest, phases } = this.domain.data.reach;
    return [
      make("h2", {}, "At a glance"),
      make("p", {}, `The longest route has a distance of ${longest}. From nothing, all is told after at most ${counted(phases, "round")}.`),
      this.harmful("link", harmfulLinks), this.harmful("node", harmfulNodes),
      make("p", { className: "hint" }, "Choose a link to see what its failure changes, and a node to see its routes. With Shift one more fails."),
    ];
  }

  // Which single failures cut nodes off. Where there are many, the table beside says which.
  harmful(kind, buttons) {
    const harm = kind === "link" ? "cuts nodes off" : "cuts others off from one another";
    if (!buttons.length) {
      return make("p", {}, `No failure of a single ${kind} ${harm}.`);
    }
    const text = `The failure of ${buttons.length === 1 ? `one ${kind}` : `each of ${buttons.length} ${kind}s`} ${harm}`;
    const isMany = buttons.length > FOUND_AT_MOST;
    return make("p", {}, `${text}${isMany ? "." : ":"}`, ...(isMany ? [] : buttons));
  }

  failureDetail() {
    const { domain, found, view, words } = this;
    const { counts, failed } = found;
    const name = words.ifFails(failed);
    const chips = [
      ...failed.links.map((link) => this.mendButton("link", words.link(link), { links: [link], nodes: [] })),
      ...failed.nodes.map((node) => this.mendButton("node", `${node}`, { links: [], nodes: [node] })),
      button("Mend all", () => this.go({ ...view, failed: NOTHING })),
    ];
    const facts = [
      ["Routes that change", counts.changed], ["Routes that are lost", counts.lost], ["Nodes to which some distance is another", counts.moved],
      ["Rounds until all is told, at most", counts.rounds],
      ["Distance below which nothing moves", counts.still === domain.size ? "none moves" : counts.still],
    ];
    const list = make("dl", {}, ...facts.map(([term, fact]) => make("div", {}, make("dt", {}, term), make("dd", {}, fact.toLocaleString("en")))));
    const parts = [make("h2", {}, name), make("p", { className: "buttons" }, ...chips), list];
    if (domain.differs(found)) {
      const alarm = "The program says other numbers of this failure than this page finds. Do not trust the page.";
      parts.unshift(make("p", { className: "alarm", role: "alert" }, alarm));
    }
    if (failed.links.length === 1 && !failed.nodes.length) {
      parts.push(this.linkFilters(failed.links[0]));
    }
    if (view.node !== null) {
      parts.push(make("p", {}, this.bound()));
    } else if (found.changes.length) {
      this.changeTable.limit = FIRST_ROWS;
      parts.push(this.changeTable.show(found.changes));
    }
    return parts;
  }

  // How near the failure is felt, towards the chosen node.
  bound() {
    const { domain, found, view } = this;
    const bound = found.still[view.node];
    if (bound === domain.size) {
      return `To node ${view.node} no distance is another.`;
    }
    const often = view.failed.nodes.length ? "" : ", however often what fails comes and goes";
    return `To node ${view.node} no distance below ${bound} changes${often}.`;
  }

  // The filters between the two ends of a link, for each direction in the order in which a route passes them.
  linkFilters(link) {
    const { link: [u, w], exports, imports } = this.domain.data.links[link];
    const named = (filter) => (filter === null ? [] : [this.filterButton(filter)]);
    const way = (from, to, told, received) => {
      const passes = [...named(told).flatMap((it) => [" export ", it]), ...named(received).flatMap((it) => [" import ", it])];
      return make("li", {}, `What ${from} tells ${to}:`, ...(passes.length ? passes : [" no filter"]));
    };
    return make("ul", { className: "plain" }, way(u, w, exports[0], imports[1]), way(w, u, exports[1], imports[0]));
  }

  filterButton(filter) {
    return button(this.domain.data.filters[filter].name, () => this.showFilter(filter), { className: "go" });
  }

  nodeDetail() {
    const { domain, found, view } = this;
    const { node } = view;
    const rows = [...domain.tables.keys()].filter((other) => other !== node).map((other) => {
      const pair = (from, to) => ({ before: domain.tables[from][to], after: (found ?? domain).tables[from][to] });
      return { node: other, out: pair(node, other), back: pair(other, node) };
    });
    const links = domain.neighbours[node].flatMap((it) => [this.linkButton(it.link), " "]);
    this.routeTable.limit = FIRST_ROWS;
    return [
      make("h2", {}, `Node ${node}`),
      make("p", {}, `${domain.data.prefixes[node]}, ${counted(links.length / 2, "link")} `, ...links),
      make("p", { className: "buttons" },
        button("What if it fails?", () => this.fail({ links: [], nodes: [node] })), button("Close", () => this.choose(null))),
      this.routeTable.show(rows),
    ];
  }

  // ---- filters

  showFilters() {
    const { filters } = this.domain.data;
    byId("filters").hidden = !filters.length;
    byId("filter-list").replaceChildren(...filters.map((filter, number) => this.filterElement(filter, number)));
  }

  filterElement(filter, number) {
    const { data } = this.domain;
    const use = (it, place, word, end) =>
      make("li", {}, `${it.link[end]} ${word} ${word === "exports" ? "to" : "from"} ${it.link[1 - end]}: `, this.linkButton(place));
    const uses = data.links.flatMap((it, place) => ["exports", "imports"].flatMap((word) =>
      it[word].flatMap((used, end) => (used === number ? [use(it, place, word, end)] : []))));
    const effects = filter.effects.map(({ distances, nodes }) => make("li", {}, `${this.words.nodes(nodes)}: ${this.words.effect(distances)}`));
    const used = uses.length ? `used ${counted(uses.length, "time")}` : "not used";
    return make("details", { id: `filter-${number}` },
      make("summary", {}, make("strong", {}, filter.name), `, line ${filter.line}, ${used}`),
      make("pre", {}, filter.text ?? "(a code file)"),
      make("p", {}, `At most ${counted(filter.budget, "step")}, ${counted(filter.depth, "operand")}. What it makes of distances to`),
      make("ul", { className: "plain" }, ...effects),
      uses.length ? make("details", {}, make("summary", {}, "Where it is used"), make("ul", { className: "plain" }, ...uses)) : null,
      make("details", {}, make("summary", {}, "Its code"), make("pre", {}, filter.listing.join("\n"))));
  }

  showFilter(number) {
    const element = byId(`filter-${number}`);
    element.open = true;
    element.querySelector("summary").focus();
    element.scrollIntoView({ block: "nearest" });
  }

  // ---- search

  // What a text finds: a node by its number, nodes by a part of their prefix or by an address in it, links by both ends, and filters by a part of
  // their name.
  search(text) {
    const { data, links } = this.domain;
    const sought = text.trim().toLowerCase();
    if (!sought) {
      return [];
    }
    const ends = sought.match(/^(\d+)\s*[-\u2013 ]\s*(\d*)$/);
    const ranked = data.prefixes.map((prefix, node) => ({ node, prefix, rank: rankOf(sought, node, prefix) })).filter((it) => it.rank > 0);
    ranked.sort((a, b) => b.rank - a.rank || a.node - b.node);
    const isLink = ([u, w]) => [[u, w], [w, u]].some(([a, b]) => `${a}` === ends[1] && `${b}`.startsWith(ends[2]));
    const pairs = ends ? links.flatMap((pair, link) => (isLink(pair) ? [link] : [])) : [];
    const named = data.filters.flatMap((filter, number) => (filter.name.toLowerCase().includes(sought) ? [number] : []));
    return [
      ...pairs.map((link) => [`link ${this.words.link(link)}`, () => this.fail({ links: [link], nodes: [] })]),
      ...ranked.map(({ node, prefix }) => [`node ${node}, ${prefix}`, () => this.choose(node)]),
      ...named.map((number) => [`filter ${data.filters[number].name}, line ${data.filters[number].line}`, () => this.showFilter(number)]),
    ].slice(0, FOUND_AT_MOST);
  }

  showFound() {
    const found = this.search(byId("search").value);
    const isNothing = byId("search").value.trim() && !found.length;
    const foundButton = (text, action) => button(text, () => {
      byId("search").value = "";
      this.showFound();
      action();
    });
    const entries = isNothing ? ["nothing is found"] : found.map(([text, action]) => foundButton(text, action));
    byId("found").replaceChildren(...entries.map((entry) => make("li", {}, entry)));
  }

  // ---- what happens

  said() {
    const { found, view } = this;
    const parts = [];
    if (found) {
      parts.push(`${this.words.ifFails(found.failed)}, ${this.costs(found.counts.changed, found.counts.lost)}.`);
    }
    if (view.node !== null) {
      parts.push(`Routes to node ${view.node} are shown.`);
    }
    return parts.join(" ") || "Nothing is chosen.";
  }

  listen() {
    for (const [id, factor] of [["closer", 1 / 1.4], ["farther", 1.4]]) {
      byId(id).addEventListener("click", () => this.drawing.zoom(factor));
    }
    byId("whole").addEventListener("click", () => this.drawing.look(this.drawing.whole));
    byId("layout").addEventListener("change", () => this.redraw());
    byId("fold").addEventListener("change", () => {
      this.opened.clear();
      this.redraw();
    });
    for (const kind of ["links", "nodes"]) {
      byId(`kind-${kind}`).addEventListener("click", () => this.showKind(kind));
    }
    byId("search").addEventListener("input", () => this.showFound());
    byId("search").addEventListener("keydown", (event) => {
      if (event.key === "Enter") {
        // What is chosen may take the focus; it is not to be told of the key, too.
        event.preventDefault();
        byId("found").querySelector("button")?.click();
      }
    });
    byId("theme").addEventListener("click", () => setTheme(document.documentElement.dataset.theme === "dark" ? "light" : "dark"));
    document.addEventListener("keydown", (event) => this.key(event));
    // On paper nothing can be opened, so the texts of filters are.
    window.addEventListener("beforeprint", () => byId("filter-list").querySelectorAll(":scope > details").forEach((it) => {
      it.open = true;
    }));
    window.addEventListener("popstate", () => this.show(readAddress(this.domain, location.hash)));
  }

  showKind(kind) {
    this.kind = kind;
    for (const other of ["links", "nodes"]) {
      byId(`kind-${other}`).setAttribute("aria-pressed", other === kind);
    }
    this.failureTable.show(this.failureRows());
  }

  key(event) {
    const isTyping = /^(INPUT|SELECT|TEXTAREA)$/.test(event.target.tagName);
    if (event.key === "Escape") {
      byId("search").value = "";
      this.showFound();
      this.go({ failed: NOTHING, node: null });
    } else if (!isTyping && !event.ctrlKey && !event.metaKey && !event.altKey) {
      const named = { "/": "search", "+": "closer", "-": "farther", 0: "whole" };
      if (Object.hasOwn(named, event.key)) {
        event.preventDefault();
        byId(named[event.key])[event.key === "/" ? "focus" : "click"]();
      }
    }
  }

  // Shows the page for the first time.
  begin() {
    const { data, links, size } = this.domain;
    document.title = `${this.file}: routing domain`;
    byId("name").textContent = this.file;
    byId("size").textContent = `${counted(size, "node")}, ${counted(links.length, "link")}, ${counted(data.filters.length, "filter")}`;
    byId("fold").value = size > MANY ? "leaves" : "none";
    this.redraw();
    byId("failure-table").replaceChildren(this.failureTable.element);
    this.showFilters();
    this.show(readAddress(this.domain, location.hash));
    // The routes without a failure are found here too, as a check; after the page is seen, since that takes a moment.
    setTimeout(() => this.check());
  }

  check() {
    const { tables, size } = this.domain;
    const found = this.domain.tablesWithout(NOTHING);
    const isSame = tables.every((table, from) => table.every((route, to) => this.words.isSame(route, found[from][to])));
    byId("check").textContent = isSame ? `This page finds all ${(size * size).toLocaleString("en")} routes that the program says.`
      : "This page finds other routes than the program says. Do not trust what it shows of failures.";
    byId("check").className = isSame ? "" : "alarm";
  }
}

function rankOf(sought, node, prefix) {
  if (`${node}` === sought) {
    return 3;
  }
  if (/^\d+(\.\d+){3}$/.test(sought)) {
    const [address, length] = parsedPrefix(prefix);
    return Math.floor(addressOf(sought) / 2 ** (32 - length)) === Math.floor(address / 2 ** (32 - length)) ? 2 : 0;
  }
  return prefix.includes(sought) && sought.length > 1 ? 1 : 0;
}

function setTheme(theme) {
  document.documentElement.dataset.theme = theme;
  byId("theme").textContent = theme === "dark" ? "Light" : "Dark";
}

function readJson(id) {
  return JSON.parse(byId(id).textContent);
}

const prefersDark = window.matchMedia("(prefers-color-scheme: dark)");
prefersDark.addEventListener("change", () => setTheme(prefersDark.matches ? "dark" : "light"));
setTheme(prefersDark.matches ? "dark" : "light");
new Page(new Domain(readJson("domain")), readJson("file")).begin();
