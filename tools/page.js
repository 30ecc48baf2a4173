// The page's tables, and what is chosen and pointed at. It reads the two texts that page.py leaves
// in the page: the network, by numbers of nodes and links, and a line for each VPN.

const PAGE_ROWS = 25;
const NEAR = 10; // pixels
const EDGE = 4;
const LISTED = 4; // endpoints that a cell names
const BUSIEST = [300, 100, 30, 10]; // links, of which so many may be shown before the others
const MANY = 400; // links, above which this is so from the beginning, with FIRST of them
const FIRST = 100;
const BELOW = 16;
const AWAY = 14;
const SVG = "http://www.w3.org/2000/svg";

const find = (choice) => document.querySelector(choice);
const network = JSON.parse(find("#network").textContent);
const picture = find("svg");
const drawnOrder = [...document.querySelectorAll(".link")]; // the busiest last
const groups = [...drawnOrder].sort((one, other) => one.dataset.link - other.dataset.link);
const circles = [...document.querySelectorAll(".node")];
const names = [...document.querySelectorAll(".name")];

const nodes = network.nodes.map(([name, x, y], number) => ({ number, name, x, y, links: 0 }));
const links = network.links.map(([a, b, capacity, length, cost, load, out, x, y], number) => {
  nodes[a].links += 1;
  nodes[b].links += 1;
  return { number, a: nodes[a], b: nodes[b], capacity, length, cost, load, out, x, y,
    use: load / capacity };
});
const numberOf = new Map(nodes.map((node) => [node.name, node.number]));

// A VPN keeps its endpoints and reservations as texts until it is shown, and its cost, which may
// have more digits than a number keeps.
const vpns = find("#vpns").textContent.split("\n").filter(Boolean).map((line) => {
  const [id, customer, cost, ends, amounts] = line.split(" ");
  return { id: +id, customer, cost, ends, amounts };
});
const vpnOf = new Map(vpns.map((vpn) => [vpn.id, vpn]));
const count = (text) => text.split(",").length;
const pairs = (text) => text.split(",").map((pair) => pair.split(":"));
const endsOf = (vpn) => pairs(vpn.ends).map(([name, rate]) => [nodes[numberOf.get(name)], rate]);
const amountsOf = (vpn) => pairs(vpn.amounts).map(([link, amount]) => [links[link], amount]);
const vpnsOver = (link) => vpns.filter((vpn) => `,${vpn.amounts}`.includes(`,${link.number}:`));

// What is used in whole percent: 0 and 100 are told of what is empty and what is full alone.
const percent = (link) =>
  `${link.load && Math.max(1, Math.floor(100 * link.load / link.capacity))} %`;
const byUseFirst = [...links].sort((one, other) =>
  other.use - one.use || other.load - one.load || one.number - other.number);
const between = (link) => `${link.a.name} \u2013 ${link.b.name}`;
const outWord = (link) => (link.out ? "out" : "");

// Elements.

function made(name, properties = {}, ...inside) {
  const element = Object.assign(document.createElement(name), properties);
  element.append(...inside);
  return element;
}

function drawn(name, attributes, text = "") {
  const element = document.createElementNS(SVG, name);
  for (const [key, value] of Object.entries(attributes)) element.setAttribute(key, value);
  element.textContent = text;
  return element;
}

const anchor = (kind, number) => made("a", { href: `#${kind}=${number}` }, number);

function bar(link) {
  const filled = made("i", { className: degree(link) });
  filled.style.width = `${100 * link.use}%`;
  return made("span", {}, made("span", { className: "bar" }, filled), percent(link));
}

const degree = (link) =>
  link.load === 0 ? "" : link.use >= 1 ? "full" : `used${Math.floor(4 * link.use) + 1}`;

// A column: its head, the value that it sorts by, what a cell shows, and its class.
const numeric = (head, of, more = "") => ({ head, of, shown: of, kind: `number ${more}` });
const worded = (head, of, more = "") => ({ head, of, shown: of, kind: more });

const LINK_COLUMNS = [
  { head: "Link", of: (link) => link.number, shown: (link) => anchor("link", link.number),
    kind: "number" },
  worded("Between", between),
  ...(links.some((link) => link.out) ? [worded("Service", outWord)] : []),
  ...(network.audit ? [
    { head: "Use", of: (link) => link.use, shown: bar, kind: "" },
    numeric("Load", (link) => link.load),
  ] : []),
  numeric("Capacity", (link) => link.capacity),
  numeric("Cost", (link) => link.cost, "spare"),
  numeric("Length", (link) => link.length, "spare"),
];
const VPN_COLUMNS = [
  { head: "VPN", of: (vpn) => vpn.id, shown: (vpn) => anchor("vpn", vpn.id), kind: "number" },
  worded("Customer", (vpn) => vpn.customer),
  { head: "Cost", of: (vpn) => +vpn.cost, shown: (vpn) => vpn.cost, kind: "number" },
  numeric("Endpoints", (vpn) => count(vpn.ends)),
  numeric("Links", (vpn) => count(vpn.amounts)),
];

// A table of which some rows are on the page at a time.
class Table {
  constructor(title, columns, keyOf, sorted, descending) {
    Object.assign(this, { columns, keyOf, sorted, descending, first: 0, rows: [] });
    this.heads = made("tr", {}, ...columns.map((column, place) => this.headCell(column, place)));
    this.body = made("tbody");
    this.said = made("span", { className: "note" });
    this.said.setAttribute("role", "status");
    this.back = this.turnButton("Previous", -PAGE_ROWS);
    this.on = this.turnButton("Next", PAGE_ROWS);
    this.tools = made("div", { className: "turn" }, this.back, this.on, this.said);
    this.element = made("section", {}, made("h2", {}, title), this.tools,
      made("div", { className: "scroll" },
        made("table", {}, made("thead", {}, this.heads), this.body)));
    this.element.setAttribute("aria-label", title);
  }

  headCell(column, place) {
    const sort = () => this.sortBy(place);
    return made("th", { className: column.kind, scope: "col" },
      made("button", { type: "button", onclick: sort }, column.head));
  }

  turnButton(word, rows) {
    const turn = () => {
      this.first += rows;
      this.write();
    };
    return made("button", { type: "button", onclick: turn }, word);
  }

  sortBy(place) {
    this.descending = this.sorted === place && !this.descending;
    this.sorted = place;
    this.show(this.rows);
  }

  show(rows) {
    const { of } = this.columns[this.sorted];
    const [less, more] = this.descending ? [1, -1] : [-1, 1];
    const keyed = rows.map((row) => [of(row), this.keyOf(row), row]);
    keyed.sort(([one, oneKey], [other, otherKey]) => {
      if (one < other) return less;
      return one > other ? more : oneKey - otherKey;
    });
    this.rows = keyed.map(([, , row]) => row);
    this.first = 0;
    this.write();
  }

  write() {
    const rows = this.rows.slice(this.first, this.first + PAGE_ROWS);
    this.body.replaceChildren(...rows.map((row) => this.row(row)));
    [...this.heads.children].forEach((cell, place) => {
      if (place !== this.sorted) cell.removeAttribute("aria-sort");
      else cell.setAttribute("aria-sort", this.descending ? "descending" : "ascending");
    });
    const last = this.first + rows.length;
    this.said.textContent = rows.length
      ? `${this.first + 1} to ${last} of ${this.rows.length}` : "none";
    this.back.disabled = this.first === 0;
    this.on.disabled = last >= this.rows.length;
  }

  row(row) {
    const element = made("tr", {}, ...this.columns.map((column) =>
      made("td", { className: column.kind }, column.shown(row))));
    element.dataset.key = this.keyOf(row);
    this.markRow(element);
    return element;
  }

  // Marks the row of a key, and turns to it. A row that is there stays, with its focus.
  mark(key) {
    this.current = key;
    const place = this.rows.findIndex((row) => this.keyOf(row) === key);
    const first = place - place % PAGE_ROWS;
    if (place < 0 || first === this.first) {
      for (const row of this.body.children) this.markRow(row);
    } else {
      this.first = first;
      this.write();
    }
  }

  markRow(element) {
    if (+element.dataset.key === this.current) element.setAttribute("aria-current", "true");
    else element.removeAttribute("aria-current");
  }
}

const byUse = LINK_COLUMNS.findIndex((column) => column.head === "Use");
const linkTable = new Table("Links", LINK_COLUMNS, (link) => link.number,
  Math.max(0, byUse), byUse > 0);
const vpnTable = new Table("VPNs", VPN_COLUMNS, (vpn) => vpn.id, 0, false);

function customerFilter() {
  const input = made("input", { type: "search", size: 16, autocomplete: "off", spellcheck: false });
  input.addEventListener("input", () =>
    vpnTable.show(vpns.filter((vpn) => vpn.customer.includes(input.value.trim()))));
  return made("label", {}, "Customer ", input);
}

// What is chosen.

function plainTable(heads, rows) {
  const cells = (name, row) => row.map((cell, place) =>
    made(name, { className: heads[place][1] }, cell));
  return made("div", { className: "many", tabIndex: 0 }, made("table", {},
    made("thead", {}, made("tr", {}, ...cells("th", heads.map((head) => head[0])))),
    made("tbody", {}, ...rows.map((row) => made("tr", {}, ...cells("td", row))))));
}

// What is lost with a link: a way round it leads over links in service, whatever these carry.

const beside = nodes.map(() => []);
for (const link of links) {
  if (link.out) continue;
  beside[link.a.number].push([link.b.number, link.number]);
  beside[link.b.number].push([link.a.number, link.number]);
}

// The nodes that one reaches over some links, by their numbers, up to one that is looked for.
function reached(from, waysFrom, wanted) {
  const found = new Set([from]);
  for (const node of found) {
    if (node === wanted) break;
    for (const other of waysFrom(node)) found.add(other);
  }
  return found;
}

const waysRound = new Map(); // those that were looked for

function hasWayRound(link) {
  if (!waysRound.has(link)) {
    const waysFrom = (node) =>
      beside[node].filter(([, number]) => number !== link.number).map(([other]) => other);
    waysRound.set(link, reached(link.a.number, waysFrom, link.b.number).has(link.b.number));
  }
  return waysRound.get(link);
}

// The endpoints of a VPN on the side of a link of its tree that has fewer of them.
function cutOff(vpn, link) {
  const tree = amountsOf(vpn).map(([one]) => one).filter((one) => one !== link);
  const waysFrom = (node) => tree.filter((one) => one.a.number === node || one.b.number === node)
    .map((one) => (one.a.number === node ? one.b.number : one.a.number));
  const side = reached(link.a.number, waysFrom);
  const ends = endsOf(vpn).map(([node]) => node);
  const here = ends.filter((node) => side.has(node.number));
  const there = ends.filter((node) => !side.has(node.number));
  return here.length <= there.length ? here : there;
}

function listed(those) {
  const more = those.length - LISTED;
  const some = those.slice(0, LISTED).map((node) => node.name).join(", ");
  return more > 0 ? `${some} and ${more} more` : some;
}

function lossWords(vpn, link) {
  return hasWayRound(link) ? "a way round" : `cuts off ${listed(cutOff(vpn, link))}`;
}

function vpnWords(vpn) {
  const ends = plainTable([["Endpoint", ""], ["Rate", "number"]],
    endsOf(vpn).map(([node, rate]) => [node.name, rate]));
  const amounts = plainTable(
    [["Link", "number"], ["Between", ""], ["Reserved", "number"], ["Load", "number"],
      ["Capacity", "number spare"], ["Without it", ""]],
    amountsOf(vpn).map(([link, amount]) => [anchor("link", link.number),
      `${between(link)}${link.out ? " (out)" : ""}`, amount, link.load, link.capacity,
      lossWords(vpn, link)]));
  const cuts = amountsOf(vpn).filter(([link]) => !hasWayRound(link)).length;
  const said = cuts === 0 ? "Round each link of its tree leads a way."
    : `Links of its tree round which no way leads, drawn double: ${cuts}.`;
  return [made("p", {}, said), made("section", {}, made("h3", {}, "Endpoints"), ends),
    made("section", {}, made("h3", {}, "Reservations"), amounts)];
}

function linkWords(link) {
  const round = hasWayRound(link) ? "A way leads round it." : "No way leads round it.";
  const words = [made("p", {}, `${linkNumbers(link)}. ${round}`)];
  if (network.audit) {
    const users = vpnsOver(link);
    const rows = users.map((vpn) => [anchor("vpn", vpn.id), vpn.customer,
      amountsOf(vpn).find(([other]) => other === link)[1]]);
    words.push(made("section", {}, made("h3", {}, `VPNs over it: ${users.length}`),
      plainTable([["VPN", "number"], ["Customer", ""], ["Reserved", "number"]], rows)));
  }
  return words;
}

function linkNumbers(link) {
  const used = network.audit
    ? `load ${link.load} of ${link.capacity} (${percent(link)})` : `capacity ${link.capacity}`;
  const out = link.out ? ["out of service"] : [];
  return [used, `cost ${link.cost}`, `length ${link.length}`, ...out].join(", ");
}

// A label in the place of a node's name.
function label(node, words) {
  const name = names[node.number];
  if (name) name.classList.add("replaced");
  const side = name ? name.dataset.side : "s";
  return drawn("text", { x: node.x, y: node.y, "data-side": side }, words);
}

// Shows links alone, with what `marks` makes over them; all links where there are none.
let drawnOver = [];
function draw(shown, marks) {
  for (const group of groups) group.classList.remove("on", "cuts");
  for (const name of names) name.classList.remove("replaced");
  if (drawnOver.length) drawnOrder[0].parentNode.append(...drawnOrder);
  drawnOver = shown;
  for (const link of shown) {
    const group = groups[link.number];
    group.classList.add("on");
    group.parentNode.append(group); // so that no other link is drawn over it
  }
  picture.classList.toggle("choosing", shown.length > 0);
  find("#over").replaceChildren(...marks());
  keepInside(find("#over").children);
}

// Moves texts that stand out of the picture, to its left or right, into it, and below their nodes.
function keepInside(texts) {
  const frame = picture.getBoundingClientRect();
  const unit = pictureUnit();
  for (const text of texts) text.style.transform = "";
  const moves = [...texts].map((text) => {
    const box = text.getBoundingClientRect();
    return Math.max(0, frame.left + EDGE - box.left) - Math.max(0, box.right - frame.right + EDGE);
  });
  [...texts].forEach((text, place) => {
    if (moves[place] === 0) return;
    const right = new DOMMatrix(getComputedStyle(text).transform).e + moves[place] * unit;
    text.style.transform = `translate(${right}px, ${BELOW * unit}px)`;
  });
}

function drawVpn(vpn) {
  const amounts = amountsOf(vpn);
  draw(amounts.map(([link]) => link), () => [
    ...amounts.map(([link, amount]) => drawn("text", { x: link.x, y: link.y }, amount)),
    ...endsOf(vpn).flatMap(([node, rate]) =>
      [drawn("rect", { x: node.x, y: node.y }), label(node, `${node.name}:${rate}`)])]);
  for (const [link] of amounts) {
    groups[link.number].classList.toggle("cuts", !hasWayRound(link));
  }
}

const drawLink = (link) =>
  draw([link], () => [link.a, link.b].map((node) => label(node, node.name)));
const drawAll = () => draw([], () => []);

function tell(title, words) {
  const all = made("button", { type: "button", onclick: clear }, "Show all");
  const near = made("button", { type: "button", onclick: zoomToChosen }, "Zoom to it");
  find("#title").replaceChildren(
    ...(title ? [title, " ", all, ...(drawnOver.length ? [" ", near] : [])] : []));
  find("#chosen").replaceChildren(...words);
}

function showChoice() {
  const [, kind, number] = /^#(vpn|link)=(\d+)$/.exec(location.hash) || [];
  const vpn = kind === "vpn" ? vpnOf.get(+number) : undefined;
  const link = kind === "link" ? links[+number] : undefined;
  vpnTable.mark(vpn && vpn.id);
  linkTable.mark(link && link.number);
  if (vpn) {
    drawVpn(vpn);
    tell(`VPN ${vpn.id} of ${vpn.customer}, cost ${vpn.cost}`, vpnWords(vpn));
  } else if (link) {
    drawLink(link);
    tell(`Link ${link.number}, ${between(link)}`, linkWords(link));
  } else {
    drawAll();
    tell(kind && `There is no ${kind === "vpn" ? "VPN" : "link"} ${number}`, []);
  }
  if (kind) picture.scrollIntoView({ block: "nearest" });
}

function clear() {
  history.pushState(null, "", location.pathname + location.search);
  showChoice();
}

// What is under the pointer.

function pictureUnit() {
  const matrix = picture.getScreenCTM();
  return matrix ? 1 / matrix.a : 1;
}

function inPicture(event) {
  const onScreen = new DOMPoint(event.clientX, event.clientY);
  return onScreen.matrixTransform(picture.getScreenCTM().inverse());
}

function toSegment(point, from, to) {
  const dx = to.x - from.x, dy = to.y - from.y;
  const share = ((point.x - from.x) * dx + (point.y - from.y) * dy) / (dx * dx + dy * dy || 1);
  const inside = Math.min(1, Math.max(0, share));
  return Math.hypot(point.x - from.x - inside * dx, point.y - from.y - inside * dy);
}

function nearest(things, distance) {
  let best, least = NEAR * pictureUnit();
  for (const thing of things) {
    const apart = distance(thing);
    if (apart < least) [best, least] = [thing, apart];
  }
  return best;
}

const nodeAt = (point) => nearest(nodes, (node) => Math.hypot(point.x - node.x, point.y - node.y));
const linkAt = (point) => nearest(links, (link) =>
  Math.min(toSegment(point, link.a, link), toSegment(point, link, link.b)));

function showPointed(event) {
  hidePointed();
  const at = inPicture(event);
  const node = nodeAt(at);
  const link = node ? undefined : linkAt(at);
  picture.style.cursor = link ? "pointer" : "";
  if (!node && !link) return;
  (node ? circles[node.number] : groups[link.number]).classList.add("near");
  const pointed = find("#pointed");
  pointed.textContent = node ? `node ${node.name}, links: ${node.links}`
    : `link ${link.number}, ${between(link)}\n${linkNumbers(link)}`;
  pointed.hidden = false;
  const { width, height } = pointed.getBoundingClientRect();
  const above = event.clientY + AWAY + height > innerHeight;
  const left = Math.min(event.clientX + AWAY, innerWidth - width - EDGE);
  pointed.style.left = `${Math.max(0, left)}px`;
  pointed.style.top = `${event.clientY + (above ? -AWAY - height : AWAY)}px`;
}

function hidePointed() {
  document.querySelectorAll(".near").forEach((element) => element.classList.remove("near"));
  find("#pointed").hidden = true;
}

function choosePointed(event) {
  if (view.isDragged) return;
  const at = inPicture(event);
  const link = nodeAt(at) ? undefined : linkAt(at);
  if (link) location.hash = `#link=${link.number}`;
}

// What is seen of the picture, and which links.

function resize() {
  picture.style.setProperty("--unit", pictureUnit());
  const { x, y, width, height } = view.part;
  const seen = nodes.filter((node) =>
    node.x >= x && node.x <= x + width && node.y >= y && node.y <= y + height);
  picture.classList.toggle("named", seen.length <= NAMED);
  if (view.isWhole()) {
    if (nodes.length <= NAMED) keepInside(names);
    keepInside(find("#over").children);
  }
}

function zoomToChosen() {
  view.showAll(drawnOver.flatMap((link) => [link.a, link.b, link]));
}

function showBusiest(count) {
  const busiest = new Set(byUseFirst.slice(0, count));
  for (const link of links) groups[link.number].classList.toggle("idle", !busiest.has(link));
}

function viewTools() {
  const button = (word, title, onclick) => made("button", { type: "button", title, onclick }, word);
  const element = made("div", { className: "turn" },
    button("+", "Zoom in", () => view.zoomMiddle(STEP)),
    button("\u2212", "Zoom out", () => view.zoomMiddle(1 / STEP)),
    button("Whole", "Show the whole picture", () => view.showWhole()));
  const counts = BUSIEST.filter((count) => network.audit && count < links.length);
  if (counts.length) {
    const choice = made("select", { onchange: () => showBusiest(+choice.value) },
      ...[links.length, ...counts].map((count, place) =>
        made("option", { value: count }, place ? `the ${count} busiest` : `all ${count}`)));
    if (links.length > MANY) choice.value = FIRST;
    choice.onchange();
    element.append(made("label", {}, "Links ", choice));
  }
  return element;
}

// A page that is loaded again, as one that renews itself, shows what it showed.

const KEPT = "view";

function keepView() {
  const choice = find("select");
  sessionStorage.setItem(KEPT, JSON.stringify({ ...view.part, links: choice && choice.value }));
}

function takeViewUp() {
  const kept = JSON.parse(sessionStorage.getItem(KEPT));
  if (performance.getEntriesByType("navigation")[0].type !== "reload" || !kept) return;
  view.show(kept.x, kept.y, kept.width);
  const choice = find("select");
  if (choice && kept.links) {
    choice.value = kept.links;
    choice.onchange();
  }
}

const KEYS = { "+": () => view.zoomMiddle(STEP), "-": () => view.zoomMiddle(1 / STEP),
  0: () => view.showWhole() };

// The beginning.

const view = new View(picture, resize);
picture.after(viewTools());

if (network.audit) {
  vpnTable.tools.prepend(customerFilter());
  find("#tables").append(vpnTable.element);
  vpnTable.show(vpns);
}
find("#tables").append(linkTable.element);
linkTable.show(links);
picture.addEventListener("pointermove", showPointed);
picture.addEventListener("pointerleave", hidePointed);
picture.addEventListener("click", choosePointed);
addEventListener("keydown", (event) => {
  if (/INPUT|SELECT/.test(event.target.tagName) || event.ctrlKey || event.metaKey) return;
  if (event.key === "Escape" && location.hash) clear();
  else if (KEYS[event.key]) KEYS[event.key]();
});
addEventListener("hashchange", showChoice);
addEventListener("pagehide", keepView);
new ResizeObserver(resize).observe(picture);
takeViewUp();
showChoice();
