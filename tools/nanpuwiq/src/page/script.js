// Plays the game of this page. Who wins, what each table does, what is won and why was worked out when the page was made; here the answers are looked up,
// the moves are made, rounds are judged, and the sentences of `nanpuwiq play` are filled in.
"use strict";
(() => {
const data = JSON.parse(document.getElementById("data").textContent);
const by = id => document.getElementById(id);

// ---- what the page holds ----

function bytes(text) {
  const letters = atob(text), found = new Uint8Array(letters.length);
  for (let n = 0; n < letters.length; n++) found[n] = letters.charCodeAt(n);
  return found;
}
function numbers(text) {
  const letters = atob(text), found = new Uint16Array(letters.length / 2);
  for (let n = 0; n < found.length; n++) found[n] = letters.charCodeAt(2 * n) | letters.charCodeAt(2 * n + 1) << 8;
  return found;
}
function states(text) {
  const set = bytes(text), found = [];
  for (let s = 0; s < 128; s++) if (set[s >> 3] >> (s & 7) & 1) found.push(s);
  return found;
}

const sides = {};
for (const id of ["old", "new"]) {
  const side = data[id];
  sides[id] = { called: side.called, initial: states(side.initial), moves: side.moves.map(states), component: side.component,
    tags: side.tags, whole: side.whole, names: data.names[id] };
}
const { old, new: fresh } = { old: sides.old, new: sides.new };
const outputs = fresh.called.length;
const requirements = data.requirements.map(q => ({
  old: q.old.map(set => ({ has: new Set(states(set.states)), words: set.words })),
  new: q.new.map(set => ({ has: new Set(states(set.states)), words: set.words })),
}));
const won = data.won.map(row => new Set(states(row)));
const reasons = numbers(data.reasons), aimOf = numbers(data.aims.of);
const table = { starts: numbers(data.table.starts), blockOf: numbers(data.table.blockOf), blocks: null,
  counters: data.table.counters, width: data.table.width };
const panelIsPerson = data.person === "old";
const person = sides[data.person];

// ---- the match: what may be picked, and what the table does ----

const split = entry => ({ state: entry % 128, counter: entry >> 7 });
function row(own, counter, column) {
  // a long table is unpacked when it is needed first, so that the page opens at once
  if (!table.blocks) table.blocks = numbers(data.table.blocks);
  return split(table.blocks[table.blockOf[own * table.counters + counter] * table.width + column]);
}

// A configuration is { input, output, counter }; null before the first pick.
function allowed(at) {
  if (!at) return person.initial;
  return person.moves[panelIsPerson ? at.input : at.output];
}
// The panel's move by its table: the next input and counter.
function announced(at) {
  if (panelIsPerson) return null;
  return at ? row(at.input, at.counter, at.output) : split(table.starts[0]);
}
function after(at, pick) {
  if (panelIsPerson) {
    const reply = at ? row(at.output, at.counter, pick) : split(table.starts[pick]);
    return { input: pick, output: reply.state, counter: reply.counter };
  }
  const move = announced(at);
  return { input: move.state, output: pick, counter: move.counter };
}
const same = (a, b) => a.input === b.input && a.output === b.output && a.counter === b.counter;

// ---- the words ----

const fill = (text, holes) => text.replace(/\{(\w+)\}/g, (hole, name) => name in holes ? holes[name] : hole);
const say = (name, holes = {}) => fill(data.said[name], holes);

function ground(input, output) {
  const reason = reasons[input * outputs + output], first = reason >> 4 & 127, second = reason >> 11;
  const set = (requirements[first] || { new: [] }).new[second];
  return fill(data.grounds[reason & 15], {
    old: old.called[input], new: fresh.called[output], next: old.called[first],
    home: data.around.newStaying[first], old_around: data.around.old[old.component[input]],
    old_staying: data.around.oldStaying[old.component[input]], new_staying: data.around.newStaying[fresh.component[output]],
    number: first, set: set && set.words,
  });
}
const pair = at => ({ old: old.called[at.input], new: fresh.called[at.output], counter: at.counter });

// Lines are { words, kind }: the kind is for the style alone.
function positionLines(at) {
  const lines = [], moves = allowed(at), panel = announced(at);
  if (at) lines.push({ words: say("HERE", pair(at)), kind: "here" });
  if (!moves.length) return lines.concat({ words: say(data.hints.stuck), kind: "end" });
  if (at) {
    const aim = data.aims.sentences[data.aims.rows[aimOf[at.input * outputs + at.output]][at.counter]];
    if (aim) lines.push({ words: aim, kind: "aim" });
  }
  if (panel) lines.push({ words: say(at ? "PANEL_GOES" : "PANEL_BEGINS", { next: old.called[panel.state] }), kind: "next" });
  lines.push({ words: say(at ? data.hints.may : data.hints.mayBegin, { moves: moves.map(s => person.called[s]).join(", ") }), kind: "may" });
  return lines;
}
// A round meets a requirement when it misses some input set or visits every output set, else breaks it.
function judged(requirement, round) {
  const notDue = requirement.old.find(set => !round.some(at => set.has.has(at.input)));
  const missed = requirement.new.find(set => !round.some(at => set.has.has(at.output)));
  if (notDue) return { met: true, words: say("NOT_DUE", notDue.words && { set: notDue.words }) };
  return missed ? { met: false, words: say("MISSED", { set: missed.words }) } : { met: true, words: say("SERVED") };
}
function roundLines(round) {
  const count = round.length - 1;
  const lines = [{ words: say("ROUND_CLOSED", { turns: count === 1 ? say("ONE_TURN") : say("MORE_TURNS", { count }) }), kind: "first" }];
  for (const at of round) lines.push({ words: say("STEP", pair(at)), kind: "step" });
  let broken = -1;
  requirements.forEach((requirement, number) => {
    const { met, words } = judged(requirement, round);
    if (!met && broken < 0) broken = number;
    lines.push({ words: say("JUDGED", { number, judgement: say(met ? "MET" : "BROKEN"), words }), kind: met ? "met" : "broken", strong: say(met ? "MET" : "BROKEN") });
  });
  lines.push({ words: say(broken >= 0 ? "ROUND_BROKEN" : requirements.length ? "ROUND_MET" : "ROUND_EMPTY") });
  const end = broken >= 0 ? (panelIsPerson ? "WON_BY_BREAKING" : "LOST_BY_BREAKING") : panelIsPerson ? "LOST_BY_MEETING" : "WON_BY_MEETING";
  return lines.concat({ words: say(end, { number: broken }), kind: "end" }, { words: say("FOR_EVER") });
}
function whyLines(at) {
  if (at) return [{ words: say("WHY", { ground: ground(at.input, at.output) }) }];
  const first = allowed(null).map(pick => after(null, pick));
  if (!first.length) return [{ words: say("NOTHING_TO_BEGIN") }];
  const line = at => ({ words: say("BEGINNING", { ...pair(at), ground: ground(at.input, at.output) }), kind: "step" });
  return [{ words: say("NOTHING_PLAYED") }].concat(first.map(line));
}
function hintLines(at) {
  const picks = allowed(at);
  if (!picks.length) return [{ words: say("NOTHING_TO_PICK") }];
  const side = panelIsPerson ? "old" : "new";
  const lost = pick => data.hints.of[pick].map(([number, set]) => say(data.hints.form, { number, set: requirements[number][side][set].words }));
  const line = pick => ({ words: say("HINT", { pick: person.called[pick], consequence: lost(pick).join("; ") || say("GIVES_UP_NOTHING") }), kind: "step" });
  const certain = picks.every(pick => { const at_ = after(at, pick); return won[at_.input].has(at_.output) === panelIsPerson; });
  return [{ words: say(certain ? data.hints.certain : "LEFT_OPEN") }].concat(picks.map(line));
}

// ---- the walk ----

let walk = [];           // the configurations so far
let picks = [];          // and the picks that made them
let digits = "";         // what is typed of a number
let room = {};           // how wide the figures are
let looked = {};         // the states that a search has found, by side
const tried = new Map(); // the picks that were tried, by the picks before them

const here = () => walk.length ? walk[walk.length - 1] : null;

// Where the round begins that the last pick has closed; -1 where it has closed none.
function roundFrom() {
  for (let n = walk.length - 2; n >= 0; n--) if (same(walk[n], here())) return n;
  return -1;
}
function pick(state) {
  if (!allowed(here()).includes(state)) return;
  const before = picks.join(".");
  tried.set(before, (tried.get(before) || new Set()).add(state));
  walk.push(after(here(), state));
  picks.push(state);
  changed();
}
function backTo(length) {
  walk.length = picks.length = length;
  changed();
}
function undo() {
  if (walk.length) backTo(walk.length - 1);
  else tell([{ words: say("NOTHING_TO_UNDO") }]);
}
// The last turn with a real choice.
function choice() {
  for (let n = walk.length - 1; n >= 0; n--) if (allowed(n ? walk[n - 1] : null).length > 1) return n;
  return -1;
}
function tryOther() {
  if (choice() >= 0) backTo(choice());
}
function replay(text) {
  walk = []; picks = [];
  for (const word of text.split(".").filter(word => /^\d+$/.test(word))) {
    if (!allowed(here()).includes(Number(word))) break;
    walk.push(after(here(), Number(word)));
    picks.push(Number(word));
  }
}
const fragment = () => picks.length ? "#" + picks.join(".") : "";

// ---- showing it ----

function element(name, attributes = {}, ...inside) {
  const made = document.createElement(name);
  for (const [key, value] of Object.entries(attributes)) if (value !== undefined) made.setAttribute(key, value);
  made.append(...inside);
  return made;
}
function show(place, lines) {
  place.replaceChildren();
  for (const { words, kind, strong } of lines) {
    const line = element("p", { class: kind }), [before, ...rest] = strong ? words.split(strong) : [words];
    line.append(before);
    if (strong) line.append(element("strong", {}, strong), rest.join(strong));
    // steps stand together in a box of their own, for a round may be long
    if (kind !== "step") place.append(line);
    else if (place.lastChild && place.lastChild.className === "steps") place.lastChild.append(line);
    else place.append(element("div", { class: "steps" }, line));
  }
}
function tell(lines) {
  by("told").hidden = !lines.length;
  show(by("told"), lines);
}
function changed() {
  digits = "";
  looked = {};
  history.replaceState(null, "", location.pathname + location.search + fragment());
  tell([]);
  by("saved").replaceChildren();
  draw(true);
}
function draw(moved) {
  // asked before anything changes, so that the page is laid out once
  room = { old: by("old").clientWidth, new: by("new").clientWidth };
  const at = here(), from = walk.length ? roundFrom() : -1, round = from >= 0 ? walk.slice(from) : [];
  show(by("said"), positionLines(at));
  const lost = !allowed(at).length || from >= 0 && requirements.some(one => !judged(one, round).met) !== panelIsPerson;
  by("play-head").textContent = lost ? "You have lost" : "Your turn";
  by("play-head").classList.toggle("lost", lost);
  by("round").hidden = from < 0;
  show(by("round"), from < 0 ? [] : roundLines(round));
  drawMoves(at, moved);
  drawWalk(from);
  markGraphs(at, round);
  markMap(at);
  by("typed").textContent = digits && digits + " … Enter picks it";
  by("undo").disabled = !walk.length;
  by("other").disabled = choice() < 0;
  by("other").classList.toggle("wanted", choice() >= 0 && (from >= 0 || !allowed(at).length));
  document.querySelectorAll("[data-requirement]").forEach(line =>
    line.classList.toggle("broken", from >= 0 && !judged(requirements[line.dataset.requirement], round).met));
}
function drawMoves(at, moved) {
  const done = tried.get(picks.join(".")) || new Set(), focused = by("moves").contains(document.activeElement);
  const button = state => {
    const made = element("button", { type: "button", "data-pick": state }, person.called[state]);
    if (done.has(state)) made.append(element("small", {}, " tried"));
    made.addEventListener("click", () => pick(state));
    return made;
  };
  by("moves").replaceChildren(...allowed(at).map(button));
  if (moved && focused && by("moves").firstChild) by("moves").firstChild.focus({ preventScroll: true });
}
function drawWalk(from) {
  const line = (at, n) => element("li", { class: from >= 0 && n >= from ? "round" : undefined }, say("WALKED", pair(at)));
  by("walk").replaceChildren(...walk.map(line));
  if (walk.length > 8) by("walk").scrollTop = by("walk").scrollHeight;
  by("no-walk").hidden = walk.length > 0;
}

// Which states and moves of a side are marked, and how.
function marks(id, at, round) {
  const key = id === "old" ? "input" : "output", marked = { states: new Map(), moves: new Map() };
  const add = (kind, from, to) => {
    marked.states.set(to, (marked.states.get(to) || []).concat(kind));
    if (from !== null) marked.moves.set(from + " " + to, kind);
  };
  const present = at && at[key], panel = announced(at);
  round.forEach((step, n) => add("round", n ? round[n - 1][key] : null, step[key]));
  if (id === data.person) for (const state of allowed(at)) add("may", at ? present : null, state);
  if (id === "old" && panel && allowed(at).length) add("next", at ? present : null, panel.state);
  if (at) add("here", null, present);
  return marked;
}
function markGraphs(at, round) {
  for (const id of ["old", "new"]) {
    const marked = marks(id, at, round);
    if (!sides[id].whole) drawNear(id, at, marked);
    const kinds = ["may", "next", "round", "here"];
    by(id).querySelectorAll(".state").forEach(node => {
      const with_ = marked.states.get(Number(node.dataset.state)) || [];
      kinds.forEach(kind => node.classList.toggle(kind, with_.includes(kind)));
    });
    by(id).querySelectorAll(".move").forEach(edge => {
      const with_ = marked.moves.get(edge.dataset.from + " " + edge.dataset.to);
      kinds.forEach(kind => edge.classList.toggle(kind, with_ === kind));
    });
    if (innerWidth < 640) bringIntoView(by(id));
  }
}
// In a narrow window a wide picture is moved so that the present state can be seen.
function bringIntoView(figure) {
  const node = figure.querySelector(".state.here") || figure.querySelector(".state.may, .state.next"), picture = figure.querySelector(".picture");
  if (!node || !picture.contains(node)) return;
  const middle = box => (box.left + box.right) / 2;
  picture.scrollLeft += middle(node.getBoundingClientRect()) - middle(picture.getBoundingClientRect());
}

// The neighbours of a state of a large graph: who leads here, the state, where it leads.
function svg(name, attributes, ...inside) {
  const made = document.createElementNS("http://www.w3.org/2000/svg", name);
  for (const [key, value] of Object.entries(attributes)) made.setAttribute(key, value);
  made.append(...inside);
  return made;
}
function drawNear(id, at, marked) {
  const side = sides[id], place = document.querySelector('.near[data-side="' + id + '"]');
  const middle = id in looked ? looked[id] : at ? at[id === "old" ? "input" : "output"] : null;
  if (middle === null) {
    const first = id === data.person ? side.initial : id === "old" ? [announced(null).state] : side.initial;
    place.replaceChildren(nearPicture(side, room[id], [], null, first));
    return;
  }
  const before = side.moves.flatMap((to, s) => to.includes(middle) ? [s] : []);
  const fellows = side.component.filter(c => c === side.component[middle]).length;
  const words = fellows === 1 ? side.called[middle] + " is a component by itself." :
    side.called[middle] + " is one of " + fellows + " states that reach one another.";
  place.replaceChildren(element("p", {}, words), nearPicture(side, room[id], before, middle, side.moves[middle]));
}
// Neighbours of each kind that are drawn at most; all of a person's moves are there as buttons.
const NEAR = 40;
// Rows from top to bottom: those that lead here, the state, and where it leads. Lines are drawn from and to the nearest rows.
function nearPicture(side, wideAs, allBefore, middle, allNext) {
  const before = allBefore.slice(0, NEAR), next = allNext.slice(0, NEAR);
  const counted = list => "(" + list.length + (list.length > NEAR ? ", the first " + NEAR + " are shown" : "") + ")";
  const shown = [...before, ...next].concat(middle === null ? [] : middle), height = 42, gap = 10, arrow = 46;
  const width = Math.max(60, ...shown.map(s => wide(side.called[s]) * 8 + 22), ...shown.map(s => tagsWidth(side, s) + 12));
  const perRow = Math.max(1, Math.floor((wideAs - 4 + gap) / (width + gap)));
  const total = Math.min(perRow, Math.max(before.length, next.length, 1)) * (width + gap) - gap + 4;
  const nodes = [], edges = [], labels = [];
  let top = 0;
  const label = words => { labels.push(svg("text", { x: 2, y: top + 13, class: "tag" }, words)); top += 22; };
  const rows = list => {
    const places = [];
    for (let n = 0; n < list.length; n += perRow) {
      const part = list.slice(n, n + perRow), left = (total - part.length * (width + gap) + gap) / 2;
      part.forEach((s, k) => { places.push({ s, x: left + k * (width + gap), y: top, row: n / perRow }); nodes.push(nearNode(side, s, left + k * (width + gap), top, width, height)); });
      top += height + gap;
    }
    return places;
  };
  label(middle === null ? "where it may begin " + counted(allNext) : before.length ? "who leads here " + counted(allBefore) : "no state leads here");
  if (middle === null) rows(next);
  else {
    const above = rows(before), last = Math.max(...above.map(one => one.row)), centre = total / 2;
    top += arrow - gap;
    const y = top;
    nodes.push(nearNode(side, middle, centre - width / 2, top, width, height));
    for (const one of above) if (one.row === last) edges.push(nearEdge(one.s, middle, one.x + width / 2, one.y + height, centre, y));
    top += height;
    label(next.length ? "where it leads " + counted(allNext) : "no move leads on");
    top += next.length ? arrow - 10 : 0;
    const below = rows(next);
    for (const one of below) if (one.row === 0) edges.push(nearEdge(middle, one.s, centre, y + height, one.x + width / 2, one.y));
  }
  return svg("svg", { width: total, height: top, viewBox: "0 0 " + total + " " + top, role: "img" }, ...labels, ...edges, ...nodes);
}
// How wide a text is, in letters.
const wide = text => [...text].reduce((sum, letter) => sum + (letter.codePointAt(0) < 0x80 ? 1 : letter.codePointAt(0) < 0x1100 ? 1.15 : 1.75), 0);
const tagsWidth = (side, s) => side.tags[s].slice(0, 3).reduce((sum, [words]) => sum + 22 + 6.6 * words.length, 0) + (side.tags[s].length > 3 ? 22 : 0);
function nearNode(side, s, x, y, width, height) {
  const node = svg("g", { class: "state", "data-state": s }, svg("title", {}, [side.called[s], ...side.tags[s].map(tag => tag[0])].join(", ")),
    svg("rect", { x, y: y + 1, width, height: height - 2, rx: 9 }), svg("text", { x: x + width / 2, y: y + (side.tags[s].length ? 17 : height / 2 + 5) }, side.called[s]));
  let at = x + (width - tagsWidth(side, s) + 6) / 2;
  side.tags[s].slice(0, 3).forEach(([words, pattern]) => {
    node.append(svg("rect", { class: "swatch", x: at, y: y + 24, width: 12, height: 12, fill: "url(#pattern" + pattern + ")" }), svg("text", { class: "tag", x: at + 16, y: y + 34 }, words));
    at += 22 + 6.6 * words.length;
  });
  if (side.tags[s].length > 3) node.append(svg("text", { class: "tag", x: at, y: y + 34 }, "+" + (side.tags[s].length - 3)));
  return node;
}
function nearEdge(from, to, x1, y1, x2, y2) {
  const half = (y1 + y2) / 2;
  return svg("g", { class: "move", "data-from": from, "data-to": to },
    svg("path", { d: `M${x1} ${y1}C${x1} ${half} ${x2} ${half} ${x2} ${y2 - 7}` }), svg("path", { class: "head", d: `M${x2} ${y2}l-4 -8h8z` }));
}

// ---- the won map ----

const grid = by("grid"), cell = Number(grid.dataset.cell), gridLeft = Number(grid.dataset.left), gridTop = Number(grid.dataset.top);
function frame(selector, input, output) {
  const box = grid.querySelector(selector), places = { x: gridLeft + cell * output, y: gridTop + cell * input, width: cell, height: cell };
  for (const [key, value] of Object.entries(places)) box.setAttribute(key, value);
}
function markMap(at) {
  grid.querySelector(".present").setAttribute("visibility", at ? "visible" : "hidden");
  if (at) frame(".present", at.input, at.output);
}
function ask(input, output) {
  by("pair-old").value = input;
  by("pair-new").value = output;
  grid.querySelector(".cursor").setAttribute("visibility", "visible");
  frame(".cursor", input, output);
  by("because").textContent = say("BEGINNING", { ...pair({ input, output }), ground: ground(input, output) });
}
function pointed(event) {
  const box = grid.getBoundingClientRect(), scale = grid.viewBox.baseVal.width / box.width;
  const output = Math.floor(((event.clientX - box.left) * scale - gridLeft) / cell);
  const input = Math.floor(((event.clientY - box.top) * scale - gridTop) / cell);
  if (input >= 0 && input < old.called.length && output >= 0 && output < outputs) ask(input, output);
}

// ---- what a person does ----

// A state that is clicked is picked where it may be; else it is asked about, with the other drive as it stands.
function clicked(event) {
  const node = event.target.closest(".state"), figure = event.target.closest("figure");
  if (!node || !figure) return;
  const state = Number(node.dataset.state), at = here() || { input: (announced(null) || { state: old.initial[0] }).state, output: fresh.initial[0] };
  if (figure.id === data.person && allowed(here()).includes(state)) pick(state);
  else if (figure.id === "old") ask(state, at.output);
  else ask(at.input, state);
}
// Two files, each also as a link: a browser may ask before it saves a second one.
function save() {
  const lines = (head, names) => "# " + head + "\n" + names.map(name => name + "\n").join("");
  const link = (end, words) => {
    const name = data.title.replace(/[^\p{L}\p{N}._-]+/gu, "_") + end;
    return element("a", { download: name, href: URL.createObjectURL(new Blob([words], { type: "text/plain" })) }, name);
  };
  const inputs = link(".inputs", lines("the old drive's modes, as the panel picked them", walk.map(at => old.names[at.input])));
  const outputs = link(".outputs", lines("the new drive's modes", walk.map(at => fresh.names[at.output])));
  by("saved").replaceChildren(say("SAVED"), inputs, " ", outputs);
  inputs.click();
  outputs.click();
}
function toggleMap() {
  document.body.classList.toggle("hidden-map", !by("show").checked);
}
// A digit picks at once where no other move's number goes on with it; else the number waits for more digits or Enter.
function typedDigit(digit) {
  const begun = text => allowed(here()).filter(state => String(state).startsWith(text));
  digits = begun(digits + digit).length ? digits + digit : begun(digit).length ? digit : "";
  const meant = begun(digits);
  if (digits && meant.length === 1 && String(meant[0]) === digits) pick(meant[0]);
  else draw(false);
}
function typedEnter() {
  const meant = Number(digits);
  if (digits && allowed(here()).includes(meant)) pick(meant);
}
function focusMove(step) {
  const buttons = [...by("moves").children], at = buttons.indexOf(document.activeElement);
  if (buttons.length) buttons[at < 0 ? (step > 0 ? 0 : buttons.length - 1) : (at + step + buttons.length) % buttons.length].focus();
}
const keys = {
  u: undo, o: tryOther, s: save, w: () => tell(whyLines(here())), h: () => tell(hintLines(here())), "?": () => by("keys").showModal(),
  m: () => { by("show").checked = !by("show").checked; toggleMap(); },
  ArrowRight: () => focusMove(1), ArrowDown: () => focusMove(1), ArrowLeft: () => focusMove(-1), ArrowUp: () => focusMove(-1),
};
document.addEventListener("keydown", event => {
  if (event.ctrlKey || event.metaKey || event.altKey || by("keys").open || event.target.matches("input[type=search], select")) return;
  if (/^[0-9]$/.test(event.key)) typedDigit(event.key);
  else if (event.key === "Enter" && digits) typedEnter();
  else if (keys[event.key]) keys[event.key]();
  else return;
  event.preventDefault();
});
by("undo").addEventListener("click", undo);
by("other").addEventListener("click", tryOther);
by("why").addEventListener("click", keys.w);
by("hint").addEventListener("click", keys.h);
by("help").addEventListener("click", keys["?"]);
by("save").addEventListener("click", save);
by("again").addEventListener("click", () => backTo(0));
by("show").addEventListener("change", toggleMap);
by("graphs").addEventListener("click", clicked);
grid.addEventListener("click", pointed);
for (const id of ["old", "new"]) {
  const options = sides[id].called.map((name, state) => element("option", { value: state }, name));
  by("pair-" + id).replaceChildren(...options);
  by("pair-" + id).addEventListener("change", () => ask(Number(by("pair-old").value), Number(by("pair-new").value)));
}
document.querySelectorAll(".search input").forEach(input => input.addEventListener("input", () => {
  const word = input.value.trim().toLowerCase(), side = sides[input.dataset.side];
  const found = side.called.findIndex((name, s) => [name, String(s), side.names[s]].some(one => one.toLowerCase() === word));
  if (found >= 0) looked[input.dataset.side] = found;
  else delete looked[input.dataset.side];
  draw(false);
}));
addEventListener("hashchange", () => { replay(location.hash.slice(1)); changed(); });

document.body.classList.remove("no-script");
addEventListener("beforeprint", () => document.querySelectorAll("details").forEach(one => { one.open = true; }));
addEventListener("resize", () => draw(false));
grid.querySelector(".cursor").setAttribute("visibility", "hidden");
toggleMap();
replay(location.hash.slice(1));
draw(false);
})();
