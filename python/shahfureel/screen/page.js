"use strict";
/* The station screen: asks the server, shows what it says.

   What is looked at (demand, view, budget, step, outputs by hand, previous outputs, day) is the state, and the state is in the address:
   a reload or a sent link shows the same. follow() makes the screen show what the state says. Amounts are exact decimals, strings from
   the server, and are shown as they come; they become numbers only to be drawn. All text goes in as text. */

const VIEWS = ["dispatch", "refine", "plan", "run", "hand", "floors", "day"];
const BUDGETS = [1, 10, 100, 1000, 10000, 100000];
const SHAPES = { none: "\u25cb", small: "\u25aa", middle: "\u25b2", great: "\u25c6" }; // a shape for each size of gap, beside its word
const BEAT = 5000; // milliseconds between two looks at whether server and site file are as they were
const SHADES = 6; // of sets upon each other in a day

// ---- elements

const $ = (id) => document.getElementById(id);

function filled(node, attributes, children) {
  for (const [name, value] of Object.entries(attributes || {})) {
    if (value === true) node.setAttribute(name, "");
    else if (value !== false && value !== null && value !== undefined) node.setAttribute(name, value);
  }
  node.append(...children.filter((child) => child !== null && child !== undefined));
  return node;
}

/** An element of the page; a child that is a string becomes text. */
const make = (tag, attributes, ...children) => filled(document.createElement(tag), attributes, children);

/** An element of a drawing. */
const draw = (tag, attributes, ...children) => filled(document.createElementNS("http://www.w3.org/2000/svg", tag), attributes, children);

const words = (list) => list.map((text) => make("li", {}, text));

/** A name in whatever script, kept apart from the text around it. */
const named = (name) => make("bdi", {}, name);

/** An amount with its decimals smaller; its text is the amount as it came. */
function money(node, text) {
  const [whole, part] = text.split(".");
  node.replaceChildren(make("span", { class: "whole" }, whole), make("span", { class: "part" }, part === undefined ? "" : `.${part}`));
}

/** Disables a button; if a person is on it, goes to another, so that the keyboard keeps its place. */
function disable(id, yes, instead) {
  const here = document.activeElement === $(id);
  $(id).disabled = yes;
  if (yes && here && instead && !$(instead).disabled) $(instead).focus();
}

function clock(time) {
  const two = (number) => String(number).padStart(2, "0");
  const day = `${time.getFullYear()}-${two(time.getMonth() + 1)}-${two(time.getDate())} `;
  const hour = `${two(time.getHours())}:${two(time.getMinutes())}:${two(time.getSeconds())}`;
  return (time.toDateString() === new Date().toDateString() ? "" : day) + hour;
}

const gives = (mw) => (Number(mw) ? `${mw} MW` : "stands");

// ---- the state, in the address

let state = { view: "dispatch" };

const packed = (list) => list.map((text) => text.replaceAll("%", "%25").replaceAll("_", "%5F")).join("_");

function unpacked(text) {
  try {
    return text === null ? null : text.split("_").map(decodeURIComponent);
  } catch {
    return null;
  }
}

function stateOf(hash) {
  const found = new URLSearchParams(hash.slice(1));
  const view = found.get("view"), slots = found.get("slots"), budget = Number(found.get("budget")), step = found.get("step");
  return {
    demand: found.get("demand"),
    view: VIEWS.includes(view) ? view : "dispatch",
    budget: BUDGETS.includes(budget) ? budget : 0,
    plan: found.get("plan") === "1",
    step: /^[0-9]{1,4}$/.test(step || "") ? Number(step) : null,
    outputs: unpacked(found.get("outputs")),
    previous: unpacked(found.get("previous")),
    day: found.get("day"),
    slots: ["dispatched", "planned"].includes(slots) ? slots : null,
  };
}

/** The address of a state; what is as at the beginning is left out. */
function hashOf(of) {
  const said = new URLSearchParams();
  if (of.demand !== null) said.set("demand", of.demand);
  if (of.view !== "dispatch") said.set("view", of.view);
  if (of.budget) said.set("budget", of.budget);
  if (of.plan) said.set("plan", "1");
  if (of.step !== null) said.set("step", of.step);
  if (of.outputs) said.set("outputs", packed(of.outputs));
  if (of.previous) said.set("previous", packed(of.previous));
  if (of.day !== null) said.set("day", of.day);
  if (of.slots) said.set("slots", of.slots);
  return `#${said}`;
}

/** Changes the state and the address: as a new place to come back to, or in place. */
function go(changes, push = true) {
  state = { ...state, ...changes };
  const to = hashOf(state);
  if (to !== location.hash) history[push ? "pushState" : "replaceState"](null, "", to);
  drawPaper();
}

/** What another question asks for is not that of this one: where demand or previous outputs change, so much is forgotten. */
const ANEW = { budget: 0, plan: false, step: null };

// ---- the server

/** What was said instead of an answer: refused (by the rules), fault (of the request), unreachable. */
class Told extends Error {
  constructor(kind, lines) {
    super(lines.join(" "));
    this.kind = kind;
    this.lines = lines;
  }
}

async function ask(name, body, signal) {
  let response, told;
  try {
    response = await fetch(`/api/${name}`, {
      method: "POST", headers: { "Content-Type": "application/json" }, body: JSON.stringify(body), signal,
    });
    told = await response.json();
  } catch (error) {
    if (error.name === "AbortError") throw error;
    drawLink("lost");
    throw new Told("unreachable",
      ["The server cannot be reached: start it again, by the command shahfureel screen. This page asks again by itself."]);
  }
  drawLink("there");
  if (response.status === 422) throw new Told("refused", told.words);
  if (!response.ok) throw new Told("fault", [told.fault || `The server answered ${response.status}.`]);
  return told;
}

/** A request about the demand, from the previous outputs that are taken. */
const asked = (more) => ({ demand: state.demand, ...from(), ...more });
const from = () => (state.previous ? { previous: state.previous } : {});

function drawLink(kind) {
  $("link").dataset.link = kind;
  $("link").textContent = kind === "there" ? "server answers" : "server cannot be reached";
}

// ---- what is held

let site = null; // what /api/site said
let siteFrom = ""; // the previous outputs that it was asked with
let dispatched = null; // the last good dispatch: { answer, names, time, question, stale }
let shown = null; // what summary and bars show: { answer, names, time, title, kind, old }
let other = null; // the last answer to this question that another view showed, to fill the fields from
let results = {}; // of this question: refine, plan, run, floors, hand
let day = null; // the day shown: { told, key }
let turn = 0; // counts changes of what is looked at; what belongs to an earlier one is dropped
let task = new AbortController(); // of what is under way

const question = () => JSON.stringify([state.demand, state.previous, site && site.site]);

/** Makes the screen show what the state says. */
async function follow() {
  const mine = ++turn;
  task.abort();
  task = new AbortController();
  const signal = task.signal;
  $("main").setAttribute("aria-busy", "true");
  drawView();
  try {
    await showSite(mine, signal);
    const covered = mine === turn && (await dispatchNow(mine, signal));
    if (mine !== turn) return;
    drawView();
    if (covered && state.view !== "day") await views[state.view](mine, signal);
  } catch (error) {
    if (mine === turn) unlessAborted(error, !dispatched || dispatched.stale || dispatched.question !== question());
  }
  try {
    if (mine === turn && site && state.view === "day") await views.day(mine, signal); // which is of other demands
  } catch (error) {
    if (mine === turn) unlessAborted(error);
  }
  if (mine === turn) $("main").setAttribute("aria-busy", "false");
}

async function showSite(mine, signal) {
  if (!site || JSON.stringify(state.previous) !== siteFrom) await loadSite(signal);
  if (mine !== turn) return;
  if (state.demand === null && site.demand !== null) go({ demand: site.demand }, false);
  if (document.activeElement !== $("demand") || $("demand").value === "") $("demand").value = state.demand || "";
}

/** Dispatches the demand, unless that was done; says whether it is covered. */
async function dispatchNow(mine, signal) {
  if (state.demand === null) {
    say("Key in a demand in MW and press Enter.");
    $("shown-when").textContent = "Key in a demand in MW and press Enter.";
    return false;
  }
  if (!dispatched || dispatched.stale || dispatched.question !== question()) {
    results = {};
    const typed = state.demand;
    let answer = await ask("dispatch", asked(), signal);
    if (mine !== turn) return false;
    for (let tries = 0; answer.site !== site.site && tries < 3; tries++) { // the file changed under way
      await loadSite(signal);
      answer = await ask("dispatch", asked(), signal);
      if (mine !== turn) return false;
    }
    go({ demand: answer.demand }, false);
    if ($("demand").value === typed) $("demand").value = answer.demand;
    dispatched = { answer, names: site.sets.map((one) => one.name), time: new Date(), question: question(), stale: false };
    other = null;
    presentDispatch();
  }
  hush();
  return true;
}

function presentDispatch() {
  present({ ...dispatched, title: `Dispatch of ${dispatched.answer.demand} MW`, kind: "dispatch" });
}

async function loadSite(signal) {
  const previous = state.previous;
  let told;
  try {
    told = await ask("site", from(), signal);
  } catch (error) {
    if (error.kind !== "refused" || !previous) throw error;
    go({ previous: null, ...ANEW }, false);
    told = await ask("site", {}, signal);
    told.notes = [...told.notes, "The previous outputs of the address were refused, and the file\u2019s are taken.", ...error.lines];
  }
  takeSite(told);
}

function takeSite(told) {
  if (site && told.site !== site.site) {
    results = {};
    day = null;
    if (dispatched) dispatched.stale = true;
  }
  site = told;
  siteFrom = JSON.stringify(state.previous);
  drawSite();
}

/** An answer by another site file than the one that is held: reads the site again and marks what is shown as old. */
async function sameSite(answer, mine, signal) {
  if (answer.site === site.site) return true;
  await loadSite(signal);
  if (mine === turn) siteChanged();
  return false;
}

function siteChanged() {
  if (shown) markOld("The site file has changed since.");
  refuse(["The site file has changed, and was read again.", "Dispatch again: press Enter in the demand\u2019s field."], "changed");
  drawView();
}

/** Looks from time to time whether the server answers and the file is the same. */
async function beat() {
  if (document.hidden || !site) return;
  const lost = $("link").dataset.link === "lost";
  const mine = turn;
  try {
    const told = await ask("site", from());
    if (mine !== turn) return;
    if (told.site !== site.site) {
      task.abort();
      task = new AbortController();
      takeSite(told);
      siteChanged();
    } else if (told.fault !== site.fault) {
      site = told;
      drawNotes();
    }
    if (lost) follow();
  } catch (error) {
    if (mine !== turn) return;
    if (error.kind === "unreachable") trouble(error);
    else if (error.kind === "refused" && state.previous) { // the file has other sets now
      site = null;
      follow();
    }
  }
}

// ---- what is said

const say = (text) => { if ($("said").textContent !== text) $("said").textContent = text; };

/** Something was refused, or failed: said in words. If that was the dispatch, or nobody answers, what is still shown is old. */
function trouble(error, ofDispatch = false) {
  if (!(error instanceof Told)) throw error;
  if (ofDispatch || error.kind === "unreachable") {
    const why = { refused: `${state.demand} MW was refused.`, unreachable: "The server cannot be reached." }[error.kind];
    if (shown) markOld(why);
    if (dispatched) dispatched.stale = true;
  }
  refuse(error.lines, error.kind);
  drawView();
}

function unlessAborted(error, ofDispatch = false) {
  if (error.name !== "AbortError") trouble(error, ofDispatch);
}

function refuse(lines, kind) {
  const title = { refused: "Refused", unreachable: "No answer", fault: "Not answered", changed: "Changed" }[kind];
  const still = shown && shown.old ? [`What is shown below is old: ${shown.title}, of ${clock(shown.time)}.`] : [];
  const text = JSON.stringify([title, lines, still]);
  if ($("refusal").dataset.text === text) return;
  $("refusal").dataset.text = text;
  $("refusal").dataset.kind = kind;
  $("refusal").replaceChildren(make("strong", {}, title), make("ul", {}, ...words([...lines.map(sentence), ...still])));
  $("refusal").hidden = false;
}

function hush() {
  $("refusal").hidden = true;
  $("refusal").dataset.text = "";
  $("refusal").replaceChildren();
}

function markOld(why) {
  shown.old = why || "It was not answered anew.";
  drawSummary();
  drawBars();
}

// ---- the site

function drawSite() {
  const count = site.sets.length;
  $("site-name").textContent = site.name;
  const most = site.most === null ? "" : `, ${site.most} MW can be covered at most now`;
  $("site-words").textContent = `${count} set${count > 1 ? "s" : ""}${most}`;
  document.title = `${site.name} \u2013 Shahfureel`;
  drawNotes();
  const field = [...document.querySelectorAll(".field input")].indexOf(document.activeElement);
  $("bars").replaceChildren(...site.sets.map(row));
  $("sets").classList.toggle("many", count > 10);
  $("work").classList.toggle("long", count > 10);
  setFields();
  const again = document.querySelectorAll(".field input")[field];
  if (again) again.focus();
  $("previous-words").textContent = state.previous
    ? "The ramps count from outputs that were taken as previous, not from the file\u2019s."
    : "The ramps count from the file\u2019s previous outputs.";
  $("untake").hidden = !state.previous;
  drawBars();
}

function drawNotes() {
  const lines = [...(site.fault ? [`The site file cannot be taken as it is now; the last good one is kept. Mend it: it is read again by itself. ${sentence(site.fault)}`] : []),
    ...site.notes];
  $("notes").hidden = !lines.length;
  $("notes").classList.toggle("quiet", !site.fault);
  $("notes").replaceChildren(make("ul", {}, ...words(lines)));
}

const span = ([low, high]) => (low === high ? low : `${low}\u2013${high}`);

/** What a set may do now, in words. */
function may(one) {
  const ranges = one.permitted.map(span).join(" or ");
  if (!ranges) return one.may_stand ? "may only stand now" : "must run, and nothing is permitted now";
  return one.may_stand ? `may give ${ranges}, or stand` : `must run: ${ranges}`;
}

const part = (one, mw) => `${Math.min(100, Math.max(0, (100 * Number(mw)) / Number(one.greatest)))}%`;

/** A set's row: name, bar, output, what it may do, and the field for an output by hand. */
function row(one, index) {
  const bar = draw("svg", { class: "bar", width: "100%", height: 34, "aria-hidden": "true" });
  bar.append(draw("rect", { class: "track", x: 0, y: 10, width: "100%", height: 14 }), draw("g", { class: "now" }));
  for (const [low, high] of one.zones) {
    const place = { x: part(one, low), y: 10, width: `${(100 * (Number(high) - Number(low))) / Number(one.greatest)}%`, height: 14 };
    bar.append(draw("rect", { class: "zone", ...place }), draw("rect", { class: "hatched", ...place, fill: "url(#hatch)" }));
  }
  bar.append(draw("line", { class: "least", x1: part(one, one.least), x2: part(one, one.least), y1: 7, y2: 27 }));
  if (one.window) {
    const [low, high] = one.window.map((mw) => part(one, mw));
    bar.append(draw("line", { class: "window", x1: low, x2: high, y1: 4, y2: 4 }));
    for (const x of [low, high]) bar.append(draw("line", { class: "window", x1: x, x2: x, y1: 3, y2: 9 }));
  }
  bar.append(draw("svg", { x: part(one, one.previous), y: 0, overflow: "visible" }, draw("path", { class: "previous",
    d: "M0 25l5 7h-10z" })));
  bar.append(draw("g", { class: "own-mark" }));
  const id = `output-${index}`;
  const input = make("input", { id, inputmode: "decimal", maxlength: 40, spellcheck: "false", autocomplete: "off" });
  input.addEventListener("input", keyed);
  input.addEventListener("keydown", (event) => stepped(event, keyed));
  return make("li", { class: "set" },
    make("p", { class: "name", title: one.name }, named(one.name)),
    make("div", { class: "bar-box" }, bar),
    make("p", { class: "value" }),
    make("div", { class: "field" }, make("label", { for: id, class: "unseen" }, `Output of ${one.name}, MW`), input),
    make("p", { class: "may" }, make("span", {}, `${may(one)}; ${Number(one.previous) ? `gave ${one.previous}` : "stood"}`),
      make("span", { class: "greatest" }, make("span", { class: "unseen" }, "greatest "), one.greatest)));
}

/** Arrow keys step by 0.1 and page keys by 1, never below 0. */
function stepped(event, then) {
  const tenths = { ArrowUp: 1, ArrowDown: -1, PageUp: 10, PageDown: -10 }[event.key];
  if (!tenths || event.altKey || event.ctrlKey || event.metaKey) return;
  event.preventDefault();
  const value = Number(event.target.value.trim() || "0");
  if (!Number.isFinite(value)) return;
  event.target.value = (Math.max(0, Math.round(10 * value) + tenths) / 10).toFixed(1);
  then();
}

// ---- summary and bars

/** Shows an answer in summary and bars. */
function present(what) {
  shown = { names: site.sets.map((one) => one.name), time: new Date(), old: "", ...what };
  if (state.view !== "hand") other = shown;
  drawSummary();
  drawBars();
  drawPaper();
  const a = shown.answer;
  say(`${shown.title}: ${a.cost} an hour; nobody for less than ${a.bound}; gap ${a.gap}, ${a.gap_percent} %, ${a.gap_words}`);
}

function drawSummary() {
  const answer = shown.answer, size = answer.size;
  $("shown-title").textContent = shown.title;
  $("shown-when").textContent = `at ${clock(shown.time)}`;
  $("shown-old").hidden = !shown.old;
  $("shown-old").replaceChildren(make("strong", {}, "Old"), ` ${shown.title}, of ${clock(shown.time)}. ${shown.old}`);
  for (const id of ["summary", "sets"]) $(id).classList.toggle("old", Boolean(shown.old));
  $("shown-demand").textContent = answer.demand;
  $("covers").textContent = answer.covers;
  $("surplus").textContent = answer.surplus;
  money($("cost"), answer.cost);
  money($("bound"), answer.bound);
  money($("gap"), answer.gap);
  $("figures").classList.toggle("long", answer.cost.indexOf(".") > 4);
  $("gap-percent").replaceChildren(make("span", { class: "whole" }, answer.gap_percent), make("span", { class: "part" }, " %"));
  $("gap-figure").dataset.size = size;
  $("gap-words").dataset.size = size;
  const [first, ...rest] = answer.gap_words.split(":"), shape = make("span", { class: "shape", "aria-hidden": "true" }, SHAPES[size]);
  $("gap-words").replaceChildren(shape, make("strong", {}, ` ${first}`), rest.length ? `:${rest.join(":")}` : "");
  $("warnings").replaceChildren(...words(answer.warnings));
  chart($("scale"), (width) => scale(width, answer));
}

/** The cost at the right, the bound so far below it, and the gap between them filled; as wide as 10 % of the cost, or more if needed. */
function scale(width, answer) {
  const cost = Number(answer.cost), gap = Number(answer.gap), percent = cost ? (100 * gap) / cost : 0;
  const whole = [10, 25, 50].find((most) => percent <= 0.9 * most) || 100;
  const left = 8, right = width - 46, at = (below) => right - ((right - left) * Math.min(below, whole)) / whole;
  const bound = at(percent), picture = draw("svg", { viewBox: `0 0 ${width} 62`, width, height: 62 });
  const text = (x, y, anchor, content, kind = "") => draw("text", { x, y, "text-anchor": anchor, class: kind }, content);
  picture.append(draw("rect", { class: "sure", x: left, y: 20, width: Math.max(0, bound - left), height: 20 }));
  if (percent > 0) {
    const place = { x: bound, y: 20, width: Math.max(right - bound, 2), height: 20 };
    picture.append(draw("rect", { class: `size-${answer.size}`, ...place }));
    if (answer.size === "great") picture.append(draw("rect", { class: "over", ...place, fill: "url(#stripes)" }));
  }
  picture.append(draw("line", { class: "mark", x1: bound, x2: bound, y1: 14, y2: 44 }));
  picture.append(draw("line", { class: "mark strong", x1: right, x2: right, y1: 10, y2: 48 }));
  const label = "proved: nobody covers it for less";
  if (bound - left > 230) picture.append(text(left + 8, 34.5, "start", label, "inside"));
  picture.append(bound - left > 60 ? text(bound + (right - bound > 8 ? 3 : -5), 11, "end", "bound") : text(Math.max(bound - 3, left), 11,
    "start", "bound"));
  picture.append(text(right + 5, 34.5, "start", "cost", "strong"));
  if (right - bound > 46 && bound - left > 60) picture.append(text((right + bound) / 2 + 18, 11, "middle", "gap"));
  for (const below of whole === 10 ? [1, 5, 10] : whole === 25 ? [5, 10, 25] : whole === 50 ? [5, 25, 50] : [5, 25, 50, 100]) {
    picture.append(draw("line", { class: "tick", x1: at(below), x2: at(below), y1: 40, y2: 46 }));
    picture.append(text(at(below), 58, below === whole ? "start" : "middle", below === whole && width > 420
      ? `${below} % below the cost` : `${below} %`, "soft"));
  }
  return picture;
}

/** Outputs upon the bars: those shown, or by hand those keyed in. */
function drawBars() {
  if (!site) return;
  const hand = state.view === "hand" && state.outputs && state.outputs.length === site.sets.length;
  const rows = [...$("bars").children];
  const byName = new Map(shown ? shown.names.map((name, index) => [name, shown.answer.outputs[index]]) : []);
  const own = new Map(dispatched && !dispatched.stale ? dispatched.names.map((name, index) => [name,
    dispatched.answer.outputs[index]]) : []);
  let differs = false;
  site.sets.forEach((one, index) => {
    const mw = hand ? state.outputs[index].trim() : byName.get(one.name);
    const now = rows[index].querySelector(".now"), mark = rows[index].querySelector(".own-mark"),
      value = rows[index].querySelector(".value");
    const number = mw === undefined || mw === "" ? NaN : Number(mw);
    const fits = !hand || (number === 0 ? one.may_stand : one.permitted.some(([low, high]) => number >= Number(low)
      && number <= Number(high)));
    rows[index].classList.toggle("bad", !fits);
    now.replaceChildren();
    if (number > 0) {
      now.append(draw("rect", { class: "output", x: 0, y: 10, width: part(one, number), height: 14 }));
      now.append(draw("line", { class: "output-end", x1: part(one, number), x2: part(one, number), y1: 7, y2: 27 }));
    }
    if (Number.isNaN(number)) value.replaceChildren("\u2013");
    else if (number === 0) value.replaceChildren(make("span", { class: "stands" }, "stands"));
    else value.replaceChildren(make("span", { class: "mw" }, String(mw)), " ", make("span", { class: "unit" }, "MW"));
    if (!fits) value.append(make("span", { class: "wrong" }, "not permitted"));
    mark.replaceChildren();
    const beside = own.get(one.name);
    if (beside !== undefined && shown && (shown.kind !== "dispatch" || hand) && !shown.old && Number(beside) !== number) {
      differs = true;
      mark.append(draw("circle", { class: "own", cx: part(one, beside), cy: 17, r: 4.5 }));
    }
  });
  $("legend-own").hidden = !differs;
  const refusedByHand = hand && results.hand && results.hand.accepted === false;
  $("sets-title").textContent = !shown ? "Sets" : hand ? `Outputs by hand${refusedByHand ? ", not accepted" : ""}` : "Outputs";
  $("sets-words").textContent = !shown ? "" : shown.old ? `old: ${shown.title}, of ${clock(shown.time)}` : hand
    ? `for ${shown.answer.demand} MW` : shown.title;
  $("take").disabled = $("try").disabled = !shown || Boolean(shown.old) || (state.view === "hand" && shown.kind !== "hand");
  $("try").hidden = state.view === "hand";
}

function drawPaper() {
  const what = shown ? `${shown.title}, answered at ${clock(shown.time)}${shown.old ? ` (old: ${shown.old})` : ""}` : "no dispatch";
  const now = new Date(), date = now.toLocaleDateString("en-GB", { day: "numeric", month: "long", year: "numeric" });
  $("paper-what").textContent = `${site ? site.name : ""}: ${what}. Printed ${date}, ${clock(now)}. Shahfureel ${site ? site.version : ""}`;
  const to = location.href;
  $("paper-address").textContent = to.length > 360 ? `${to.slice(0, 360)}\u2026 (the address goes on)` : to;
}

// ---- views

function drawView() {
  for (const tab of $("tabs").children) {
    const chosen = tab.dataset.view === state.view;
    tab.setAttribute("aria-selected", String(chosen));
    tab.tabIndex = chosen ? 0 : -1;
    if (chosen) $("work").setAttribute("aria-labelledby", tab.id);
  }
  for (const view of document.querySelectorAll(".view")) view.hidden = view.dataset.view !== state.view;
  $("work").dataset.view = state.view;
  $("sets").classList.toggle("by-hand", state.view === "hand");
  if (state.view === "day" && $("work").firstElementChild === $("sets")) $("marks").before($("sets"));
  if (state.view !== "day" && $("work").firstElementChild !== $("sets")) $("work").prepend($("sets"));
  for (const [id, view] of [["to-refine", "refine"], ["to-plan", "plan"], ["to-hand", "hand"]]) $(id).setAttribute("href",
    hashOf({ ...state, view }));
  $("dispatch-next").hidden = !dispatched || dispatched.stale;
  if (!dispatched || dispatched.stale) $("dispatch-words").replaceChildren();
  drawRefine();
  drawPlan();
  drawRun();
  drawHand();
  drawFloors();
  drawDay();
}

/** What each view does when it is opened, or when what it is about has changed. */
const views = {
  async dispatch() {
    presentDispatch();
    const a = dispatched.answer;
    $("dispatch-words").replaceChildren(...words([
      `The cost is ${a.cost} an hour. Nobody covers ${a.demand} MW for less than ${a.bound}.`,
      Number(a.gap) ? `So at most ${a.gap} an hour could still be saved, by whomever: ${a.gap_percent} % of the cost.`
        : "So nothing is cheaper.",
      `After losses these outputs cover ${a.covers} MW, with ${a.surplus} MW to spare.`,
      `${a.evaluations} price${a.evaluations === 1 ? "" : "s"} of energy ${a.evaluations === 1 ? "was" : "were"} tried.`,
    ]));
  },

  async refine(mine, signal) {
    const held = results.refine;
    if (held && held.rows.length) presentRefined();
    else presentDispatch();
    if (state.budget && (!held || !held.rows.length)) await refine(mine, signal, state.budget);
  },

  async plan(mine, signal) {
    if (results.plan) presentPlan();
    else presentDispatch();
    if (!results.plan && state.plan) await plan(mine, signal);
  },

  async run(mine, signal) {
    if (!results.run) {
      const told = await ask("run", asked(), signal);
      if (mine !== turn || !(await sameSite(told, mine, signal))) return;
      results.run = told.steps;
    }
    showStep(state.step === null ? 0 : state.step, false);
  },

  async hand(mine) {
    if (!state.outputs || state.outputs.length !== site.sets.length) go({ outputs: [...source().answer.outputs] }, false);
    setFields();
    await judge(mine);
  },

  async floors(mine, signal) {
    presentDispatch();
    if (!results.floors) {
      const told = await ask("floors", asked(), signal);
      if (mine !== turn || !(await sameSite(told, mine, signal))) return;
      results.floors = told;
    }
    drawFloors();
  },

  async day(mine, signal) {
    if (dispatched && !dispatched.stale && shown.kind !== "dispatch") presentDispatch();
    if (document.activeElement !== $("day-text")) $("day-text").value = dayText();
    if (!state.slots && state.day === null && site.day) go({ slots: "dispatched" }, false);
    if (state.slots && (!day || day.key !== dayKey())) await dayNow(mine, signal);
  },
};

// ---- refine

/** Refines by the budgets that are still to come, each shown as it comes, until one, an end, or a stop between two. */
async function refine(mine, signal, last) {
  const held = results.refine && results.refine.rows.length && !results.refine.ended ? results.refine : { rows: [], ended: "" };
  results.refine = held;
  Object.assign(held, { stop: false, under: 0, words: "" });
  const done = held.rows.length ? held.rows[held.rows.length - 1].budget : 0;
  try {
    for (const budget of BUDGETS.filter((one) => one > done && one <= last)) {
      held.under = budget;
      drawRefine();
      const answer = await ask("refine", asked({ budget }), signal);
      if (mine !== turn || !(await sameSite(answer, mine, signal))) return;
      held.rows.push({ ...answer, time: new Date() });
      go({ budget }, false);
      held.ended = answer.ended;
      presentRefined();
      if (held.ended || held.stop) break;
    }
    const budget = held.rows[held.rows.length - 1].budget;
    if (!held.ended && budget < BUDGETS[BUDGETS.length - 1]) held.words = `Stopped behind budget ${budget}.`;
  } finally {
    held.under = 0;
    drawRefine();
  }
}

function presentRefined() {
  const best = results.refine.rows[results.refine.rows.length - 1];
  present({ answer: best, title: `Refined with budget ${best.budget}: ${best.demand} MW`, kind: "refine", time: best.time });
}

function drawRefine() {
  const held = results.refine || { rows: [], ended: "", words: "", under: 0 };
  $("refine-start").textContent = held.rows.length && !held.ended ? "Go on" : "Refine";
  if (held.under && !held.stop) $("refine-stop").disabled = false;
  disable("refine-start", Boolean(held.under || held.ended || !dispatched || dispatched.stale), "refine-stop");
  disable("refine-stop", !held.under || held.stop, held.ended ? "tab-refine" : "refine-start");
  $("refine-words").textContent = held.under
    ? held.stop ? `Stops behind budget ${held.under}, which is under way.` : `Budget ${held.under} is under way.`
    : held.ended ? `${sentence(held.ended)}` : held.words || (held.rows.length ? "" : "Not refined yet.");
  $("refine-table").hidden = !held.rows.length;
  const cell = (title, text) => make("td", { "data-title": title }, text);
  $("refine-table").tBodies[0].replaceChildren(...held.rows.map((one) => make("tr", {},
    make("th", { scope: "row", "data-title": "budget" }, String(one.budget)), cell("nodes", String(one.nodes)), cell("cost an hour",
      one.cost),
    cell("gap", one.gap), cell("gap, %", one.gap_percent), sized(one.size))));
}

const sentence = (text) => (text ? text[0].toUpperCase() + text.slice(1) + (/[.!?]$/.test(text) ? "" : ".") : "");
const sized = (size) => make("td", { class: "sized", "data-size": size, "data-title": "size" }, make("span", { class: "shape",
  "aria-hidden": "true" }, SHAPES[size] || ""), ` ${size}`);

// ---- plan

let planning = null; // since when a plan is under way

async function plan(mine, signal) {
  planning = Date.now();
  go({ plan: true }, false);
  drawPlan();
  const ticking = setInterval(drawPlan, 500);
  try {
    const answer = await ask("plan", asked(), signal);
    if (mine !== turn || !(await sameSite(answer, mine, signal))) return;
    results.plan = { ...answer, time: new Date() };
    presentPlan();
  } finally {
    clearInterval(ticking);
    planning = null;
    drawPlan();
  }
}

function presentPlan() {
  present({ answer: results.plan, title: `Plan of ${results.plan.demand} MW`, kind: "plan", time: results.plan.time });
}

function drawPlan() {
  const made = results.plan;
  if (planning !== null) $("plan-stop").disabled = false;
  disable("plan-start", planning !== null || Boolean(made) || !dispatched || dispatched.stale, "plan-stop");
  disable("plan-stop", planning === null, made ? "tab-plan" : "plan-start");
  $("plan-words").textContent = planning !== null
    ? `Planning, for ${Math.round((Date.now() - planning) / 1000)} s.`
    : made ? sentence(made.end) : results.aborted ? "Aborted. Nothing has changed." : "Not planned yet. It may take some seconds.";
  $("plan-words").setAttribute("aria-live", planning !== null ? "off" : "polite");
  $("plan-table").hidden = !made;
  $("plan-bounds").textContent = "";
  if (!made || !dispatched) return;
  const own = dispatched.answer;
  const line = (title, a, b, kind = "") => make("tr", { class: kind }, make("th", { scope: "row" }, title), make("td", {}, a), make("td",
    {}, b));
  $("plan-table").tBodies[0].replaceChildren(
    line("Cost an hour", made.cost, own.cost, "main"),
    line("Nobody for less than", made.bound, own.bound),
    line("Gap", made.gap, own.gap),
    line("Gap, % of the cost", made.gap_percent, own.gap_percent),
    line("Surplus, MW", made.surplus, own.surplus),
    ...site.sets.map((one, index) => line(named(one.name), gives(made.outputs[index]), gives(own.outputs[index]), "of-set")));
  $("plan-bounds").textContent = `The bound is ${made.bounds.judged} by judging, ${made.bounds.refined} by refining`
    + (made.parts > 1 ? `, ${made.bound} by refining ${made.parts} parts.` : ".")
    + (made.above_percent === null ? "" : ` At most ${made.above_percent} % above the bound.`);
}

// ---- run

function showStep(step, push = false) {
  if (!results.run) return;
  const at = Math.max(0, Math.min(step, results.run.length - 1)), one = results.run[at];
  go({ step: at }, push);
  const title = `Run of ${state.demand} MW, ${one.evaluations} evaluation${one.evaluations === 1 ? "" : "s"}`;
  present({ answer: one, title, kind: "run" });
  drawRun();
}

function drawRun() {
  const steps = results.run, at = steps ? Math.max(0, Math.min(state.step || 0, steps.length - 1)) : 0;
  const start = !steps || at === 0, end = !steps || at === steps.length - 1;
  for (const id of ["run-first", "run-back"]) if (!start) $(id).disabled = false;
  for (const id of ["run-next", "run-all"]) disable(id, end, "run-back");
  for (const id of ["run-first", "run-back"]) disable(id, start, "run-next");
  for (const id of ["run-chart", "run-table"]) $(id).hidden = !steps;
  if (!steps) {
    $("run-words").textContent = "";
    return;
  }
  const now = steps[at], last = steps[steps.length - 1];
  $("run-words").textContent = `${now.evaluations} of ${last.evaluations} evaluations: `
    + `cost ${now.cost}, floor ${now.bound}, gap ${now.gap}. `
    + (now.finished ? "The run has finished: this is the dispatch." : "The run goes on.");
  $("run-table").tBodies[0].replaceChildren(...steps.slice(0, at + 1).reverse().map((one) => make("tr", {},
    make("th", { scope: "row" }, String(one.evaluations)), make("td", {}, one.cost), make("td", {}, one.bound), make("td", {}, one.gap))));
  chart($("run-chart"), (width) => runPicture(width, steps, at));
}

function runPicture(width, steps, at) {
  const most = Math.max(1, ...steps.map((one) => Number(one.cost)));
  const first = steps[0].evaluations, last = steps[steps.length - 1].evaluations;
  const p = plot(width, 240, [first, Math.max(last, first + 1)], [0, most * 1.04], { x: "evaluations", y: "money an hour" });
  p.across([first, ...ticks(first, last, Math.min(last, 6) || 1).filter((one) => Number.isInteger(one) && one > first)], String);
  const gone = steps.slice(0, at + 1);
  const line = (read) => gone.map((one, index) => (index ? `H${p.x(one.evaluations)}V${p.y(read(one))}`
    : `M${p.x(one.evaluations)} ${p.y(read(one))}`)).join("");
  const cost = (one) => Number(one.cost), floor = (one) => Number(one.bound);
  const now = steps[at];
  p.svg.append(draw("line", { class: "here", x1: p.x(now.evaluations), x2: p.x(now.evaluations), y1: p.top, y2: p.bottom }));
  p.svg.append(draw("path", { class: "line cost", d: line(cost) }), draw("path", { class: "line floor", d: line(floor) }));
  const late = p.x(now.evaluations) > width - 90;
  for (const [kind, read, up] of [["cost", cost, -9], ["floor", floor, 18]]) {
    const value = read(now);
    p.svg.append(draw("circle", { class: `dot ${kind}`, cx: p.x(now.evaluations), cy: p.y(value), r: 4.5 }));
    p.svg.append(draw("text", { x: p.x(now.evaluations) + (late ? -8 : 8), y: p.y(value) + up, "text-anchor": late ? "end" : "start",
      class: "strong" }, kind));
  }
  return p.done(`Over ${now.evaluations} evaluations the cost is ${now.cost} and the floor ${now.bound}.`);
}

// ---- by hand

let judging = 0, typing = 0;

/** What the fields are filled from: the answer that another view showed last, or the dispatch. */
const source = () => other || { ...dispatched, kind: "dispatch" };

function setFields(all = false) {
  const given = state.outputs || [];
  [...document.querySelectorAll(".field input")].forEach((input, index) => {
    if (all || document.activeElement !== input || input.value === "") input.value = given[index] === undefined ? "" : given[index];
  });
}

/** Something was keyed in: drawn at once, judged when the typing rests. */
function keyed() {
  go({ outputs: [...document.querySelectorAll(".field input")].map((input) => input.value) }, false);
  results.hand = null;
  $("hand-words").dataset.verdict = "asked";
  drawBars();
  judging++;
  clearTimeout(typing);
  typing = setTimeout(() => judge(turn).catch(unlessAborted), 150);
}

async function judge(mine) {
  const number = ++judging;
  if (!dispatched || dispatched.stale) return;
  let told;
  try {
    told = await ask("judge", asked({ outputs: state.outputs.map((text) => text.trim()) }), task.signal);
  } catch (error) {
    if (error.kind !== "refused") throw error;
    told = { accepted: false, site: site.site, reasons: error.lines };
  }
  if (mine !== turn || number !== judging || !(await sameSite(told, mine, task.signal))) return;
  results.hand = told;
  if (told.accepted) present({ answer: told, title: `By hand: ${told.demand} MW`, kind: "hand" });
  else presentDispatch();
  drawHand();
  drawBars();
}

function compared(told) {
  if (!Number(told.less)) return "as much as dispatch";
  return told.less.startsWith("-") ? `${told.less.slice(1)} more than dispatch` : `${told.less} less than dispatch`;
}

function drawHand() {
  const told = results.hand;
  const there = dispatched && !dispatched.stale;
  const whose = { dispatch: "dispatch\u2019s outputs", refine: "the refined outputs", plan: "the plan\u2019s outputs",
    run: "the run\u2019s outputs" };
  $("fill").textContent = `Fill in ${there ? whose[source().kind] : "the outputs shown"}`;
  $("fill").disabled = !there;
  $("hand-words").dataset.verdict = !told ? "" : told.accepted ? "yes" : "no";
  $("hand-words").replaceChildren(...(!there ? ["Outputs are judged for a demand that can be covered: dispatch one first."] : !told
    ? ["Judging."] : told.accepted
    ? [make("strong", {}, "Accepted."), ` They cost ${told.cost} an hour, ${compared(told)}.`]
    : [make("strong", {}, "Not accepted."), " The figures above are dispatch\u2019s."]));
  $("hand-reasons").replaceChildren(...words(told && !told.accepted ? told.reasons : []));
  $("hand-table").hidden = !(told && told.accepted);
  if (!told || !told.accepted || !dispatched) return;
  const own = dispatched.answer;
  const line = (title, a, b, kind = "") => make("tr", { class: kind }, make("th", { scope: "row" }, title), make("td", {}, a), make("td",
    {}, b));
  $("hand-table").tBodies[0].replaceChildren(
    line("Cost an hour", told.cost, own.cost, "main"), line("Above the bound", told.gap, own.gap),
    line("in % of the cost", told.gap_percent, own.gap_percent), line("Bound", told.bound, own.bound), line("Surplus, MW", told.surplus,
      own.surplus));
}

// ---- demands beside the forecast

function drawFloors() {
  const told = results.floors;
  for (const id of ["floors-chart", "floors-table"]) $(id).hidden = !told;
  $("floors-words").textContent = told ? `From ${told.demand} MW, with the ramps from the same previous outputs.` : "";
  if (!told) return;
  $("floors-table").tBodies[0].replaceChildren(...told.floors.map((one) => {
    const here = one.percent === 100;
    const link = make("a", { href: hashOf({ ...state, ...ANEW, demand: one.demand }), "aria-label": `look at ${one.demand} MW` },
      one.demand);
    return make("tr", { class: here ? "main" : "" },
      make("th", { scope: "row" }, `${one.percent} %`), make("td", {}, one.covered ? link : one.demand), make("td", {}, one.least_cost),
      make("td", {}, one.covered ? one.dispatch_cost || "\u2013" : "these sets cannot cover it"));
  }));
  chart($("floors-chart"), (width) => floorsPicture(width, told));
}

function floorsPicture(width, told) {
  const covered = told.floors.filter((one) => one.covered);
  const amounts = covered.flatMap((one) => [Number(one.least_cost), one.dispatch_cost === null
    ? NaN : Number(one.dispatch_cost)]).filter(Number.isFinite);
  const demands = told.floors.map((one) => Number(one.demand));
  const low = Math.min(...amounts), high = Math.max(...amounts), room = (high - low) * 0.12 || Math.abs(high) * 0.1 || 1;
  const side = (Math.max(...demands) - Math.min(...demands)) * 0.03;
  const p = plot(width, 260, [Math.min(...demands) - side, Math.max(...demands) + side], [Math.max(0, low - room), high + room],
    { x: "demand, MW", y: "money an hour" });
  p.across(ticks(Math.min(...demands), Math.max(...demands), width < 420 ? 4 : 8), plain);
  let path = "";
  covered.forEach((one, index) => {
    const x = p.x(Number(one.demand)), y = p.y(Number(one.least_cost));
    path += index ? `H${x}V${y}` : `M${x} ${y}`;
  });
  if (covered.length) p.svg.append(draw("path", { class: "below", d: `${path}V${p.bottom}H${p.x(Number(covered[0].demand))}Z` }),
    draw("path", { class: "line floor", d: path }));
  const now = p.x(Number(told.demand));
  p.svg.append(draw("line", { class: "here", x1: now, x2: now, y1: p.top, y2: p.bottom }));
  p.svg.append(draw("text", { x: now + 6, y: p.bottom - 8 }, "forecast"));
  for (const one of told.floors) {
    const x = p.x(Number(one.demand));
    if (!one.covered) p.svg.append(draw("path", { class: "cross", d: `M${x - 5} ${p.top + 16}l10 10m0 -10l-10 10` }));
    else if (one.dispatch_cost !== null) p.svg.append(draw("circle", { class: "point", cx: x, cy: p.y(Number(one.dispatch_cost)), r: 5 },
      draw("title", {}, `${one.demand} MW: dispatch costs ${one.dispatch_cost}`)));
  }
  const [first, last] = [told.floors[0], told.floors[told.floors.length - 1]];
  return p.done(`Floors of ${told.floors.length} demands from ${first.demand} to ${last.demand} MW; the table has the numbers.`);
}

// ---- the day

const dayText = () => (state.day !== null ? state.day : (site && site.day) || "");
const dayKey = () => JSON.stringify([dayText(), state.slots, state.previous, site.site]);
let dayUnder = null; // since when a day is under way
let daySaid = ""; // why there is none
let dayDrawn = null; // the day that charts and table show

async function dayNow(mine, signal) {
  dayUnder = Date.now();
  daySaid = "";
  drawDay();
  const ticking = setInterval(drawDay, 500), key = dayKey();
  try {
    const told = await ask("day", { demands: dayText(), plan: state.slots === "planned", ...from() }, signal);
    if (mine !== turn || !(await sameSite(told, mine, signal))) return;
    day = { told, key, time: new Date(), planned: state.slots === "planned", previous: state.previous };
  } catch (error) {
    if (error.kind !== "refused") throw error;
    day = null;
    daySaid = error.lines;
  } finally {
    clearInterval(ticking);
    dayUnder = null;
    drawDay();
  }
}

function askDay(slots) {
  const text = $("day-text").value;
  go({ day: site && text === (site.day || "") ? null : text, slots });
  day = null;
  follow();
}

function drawDay() {
  if (dayUnder !== null) $("day-stop").disabled = false;
  for (const id of ["day-dispatch", "day-plan"]) disable(id, dayUnder !== null, "day-stop");
  disable("day-stop", dayUnder === null, state.slots === "planned" ? "day-plan" : "day-dispatch");
  $("day-reset").hidden = state.day === null || !site || !site.day;
  $("day-charts").hidden = !day;
  $("day-words").setAttribute("aria-live", dayUnder !== null ? "off" : "polite");
  if (dayUnder !== null) $("day-words").textContent = `The day is ${state.slots}, for ${Math.round((Date.now() - dayUnder) / 1000)} s.`;
  else if (!day) $("day-words").replaceChildren(...(daySaid ? [make("strong", {}, "Refused. "),
    daySaid.join(" ")] : ["Key in the demands or pick a file."]));
  if (!day || dayUnder !== null) {
    $("day-notes").replaceChildren();
    dayDrawn = null;
    return;
  }
  const { told, planned } = day;
  if (dayDrawn === day) return;
  dayDrawn = day;
  const refused = told.slots.filter((slot) => !slot.answer), great = told.slots.filter((slot) => slot.answer
    && slot.answer.size === "great");
  const which = refused.length ? "those that are not refused" : "all of them";
  $("day-words").replaceChildren(make("strong", {}, planned ? "Planned" : "Dispatched"),
    ` at ${clock(day.time)}: ${told.slots.length} slots; the costs an hour of ${which} add up to ${told.total}.`);
  $("day-notes").replaceChildren(...words([
    ...told.beside,
    ...refused.slice(0, 3).map((slot) => `${slot.time}, ${slot.demand} MW, refused: ${slot.refused}`),
    ...(refused.length > 3 ? [`And ${refused.length - 3} more are refused: the table has the words.`] : []),
    ...(great.length ? [`Slots with a great gap, above 5 %: ${great.length}.${planned ? "" : " Plan the day."}`] : []),
    ...told.notes,
  ]));
  drawDayTable(told);
  const many = site.sets.length > 12;
  const key = (kind, ...content) => make("li", {}, draw("svg", { class: "key", width: 44, height: 16, "aria-hidden": "true" }, kind),
    make("span", {}, ...content));
  $("day-legend").replaceChildren(
    key(draw("path", { class: "line demand", d: "M2 8H42" }), "demand"),
    ...(many ? [key(draw("rect", { class: "stack-0", x: 2, y: 2, width: 40, height: 12 }),
      "the sets in the order of the list, the first at the bottom")]
      : site.sets.map((one, index) => key(draw("rect", { class: `stack-${index % SHADES}`, x: 2, y: 2, width: 40, height: 12 }),
        named(one.name)))));
  chart($("day-outputs"), (width) => outputsPicture(width, told.slots));
  chart($("day-costs"), (width) => costsPicture(width, told.slots));
}

/** The day's slots as a table; a slot's time leads to it alone, from the outputs before it. */
function drawDayTable(told) {
  const heads = ["Time", "Demand, MW", "Cost an hour", "Bound", "Gap", "Gap, %", "Size"];
  $("day-table").tHead.replaceChildren(make("tr", {}, ...heads.map((text) => make("th", { scope: "col" }, text)),
    ...site.sets.map((one) => make("th", { scope: "col", class: "of-set", title: one.name }, named(one.name)))));
  let before = day.previous;
  const rows = told.slots.map((slot) => {
    const link = make("a", { href: hashOf({ ...state, ...ANEW, demand: slot.demand, previous: before, view: "dispatch" }) }, slot.time);
    const head = [make("th", { scope: "row" }, link), make("td", {}, slot.demand)], a = slot.answer;
    if (!a) return make("tr", { class: "refused" }, ...head, make("td", { class: "why", colspan: 5 + site.sets.length }, make("span", {},
      `refused: ${slot.refused}`)));
    before = a.outputs;
    return make("tr", {}, ...head, make("td", {}, a.cost), make("td", {}, a.bound), make("td", {}, a.gap), make("td", {}, a.gap_percent),
      sized(a.size),
      ...a.outputs.map((mw) => make("td", { class: "of-set" }, Number(mw) ? mw : "stands")));
  });
  $("day-table").tBodies[0].replaceChildren(...rows);
  $("day-table").classList.toggle("lengthy", told.slots.length > 26); // too long for one page of paper
  $("day-table").classList.toggle("broad", site.sets.length > 6);
  $("day-table").tFoot.replaceChildren(make("tr", {}, make("th", { scope: "row" }, "Sum"), make("td", {}), make("td", {}, told.total),
    make("td", { colspan: 4, class: "why" }, "starts"), ...told.starts.map((count) => make("td", { class: "of-set" }, String(count)))));
}

/** Where slots follow each other without a refused one: first and last index of each such stretch. */
function stretches(slots, wanted) {
  const found = [];
  slots.forEach((slot, index) => {
    if (!wanted(slot)) return;
    const last = found[found.length - 1];
    if (last && last[1] === index - 1) last[1] = index;
    else found.push([index, index]);
  });
  return found;
}

function dayPlot(width, height, slots, most, y) {
  const p = plot(width, height, [0, slots.length], [0, most * 1.05 || 1], { x: "", y });
  const room = 7.2 * Math.max(...slots.map((slot) => Math.min(slot.time.length, 16))) + 14;
  const every = Math.max(1, Math.ceil(room / ((p.right - p.left) / slots.length)));
  const anchor = room < 2 * p.left ? "middle" : "start"; // long times stand behind their marks, or they would leave the picture
  slots.forEach((slot, index) => {
    if (index % every || (anchor === "start" && p.x(index) + room > width)) return;
    p.svg.append(draw("line", { class: "tick", x1: p.x(index), x2: p.x(index), y1: p.bottom, y2: p.bottom + 5 }));
    p.svg.append(draw("text", { x: p.x(index), y: p.bottom + 19, class: "soft", "text-anchor": anchor }, slot.time.slice(0, 16)));
  });
  const refused = stretches(slots, (slot) => !slot.answer);
  for (const [first, last] of refused) {
    const place = { x: p.x(first), y: p.top, width: Math.max(p.x(last + 1) - p.x(first), 1.5), height: p.bottom - p.top };
    p.svg.append(draw("rect", { class: "none-there", ...place }));
    p.svg.append(draw("rect", { class: "hatched", ...place, fill: "url(#hatch)" }, draw("title", {}, slots[first].refused)));
    if (refused.length > 8) continue; // too many for a word on each: the legend has it
    const x = place.x + place.width / 2, y = (p.top + p.bottom) / 2, wide = place.width > 58;
    const back = wide ? { x: x - 27, y: y - 13, width: 54, height: 18 } : { x: x - 9, y: y - 28, width: 18, height: 56 };
    const turned = wide ? {} : { transform: `rotate(-90 ${x} ${y}) translate(0 4)` };
    p.late.push(draw("rect", { class: "label-back", rx: 2, ...back }));
    p.late.push(draw("text", { x, y, class: "strong", "text-anchor": "middle", ...turned }, "refused"));
  }
  if ((p.right - p.left) / slots.length < 4) p.svg.classList.add("dense");
  return p;
}

function outputsPicture(width, slots) {
  const sums = slots.map((slot) => (slot.answer ? slot.answer.outputs.reduce((sum, mw) => sum + Number(mw), 0) : 0));
  const p = dayPlot(width, 300, slots, Math.max(...sums, ...slots.map((slot) => Number(slot.demand))), "MW");
  const below = slots.map(() => 0);
  site.sets.forEach((one, set) => {
    let path = "";
    for (const [first, last] of stretches(slots, (slot) => slot.answer && Number(slot.answer.outputs[set]))) {
      let upper = "", lower = "";
      for (let k = first; k <= last; k++) {
        const top = below[k] + Number(slots[k].answer.outputs[set]);
        upper += `${k === first ? `M${p.x(k)} ` : `V`}${p.y(top)}H${p.x(k + 1)}`;
        lower = `V${p.y(below[k])}H${p.x(k)}` + lower;
        below[k] = top;
      }
      path += `${upper}${lower}Z`;
    }
    p.svg.append(draw("path", { class: `stack stack-${set % SHADES}${site.sets.length > 12 ? " fine" : ""}`, d: path }, draw("title", {},
      one.name)));
  });
  let line = "";
  slots.forEach((slot, k) => { line += `${k ? "V" : `M${p.x(0)} `}${p.y(Number(slot.demand))}H${p.x(k + 1)}`; });
  p.svg.append(draw("path", { class: "line demand", d: line }));
  return p.done(`Outputs of ${site.sets.length} sets over ${slots.length} slots, and the demand; the table has the numbers.`);
}

function costsPicture(width, slots) {
  const p = dayPlot(width, 220, slots, Math.max(...slots.map((slot) => (slot.answer ? Number(slot.answer.cost) : 0))), "money an hour");
  const box = (k, low, high) => `M${p.x(k)} ${p.y(low)}V${p.y(high)}H${p.x(k + 1)}V${p.y(low)}Z`;
  const join = (kind, path) => slots.map((slot, k) => (slot.answer && (!kind || slot.answer.size === kind) ? path(slot.answer,
    k) : "")).join("");
  p.svg.append(draw("path", { class: "sure", d: join("", (a, k) => box(k, 0, Number(a.bound))) }));
  for (const size of ["small", "middle", "great"]) {
    const path = join(size, (a, k) => box(k, Number(a.bound), Number(a.cost)));
    if (!path) continue;
    p.svg.append(draw("path", { class: `size-${size}`, d: path }));
    if (size === "great") p.svg.append(draw("path", { class: "over", d: path, fill: "url(#stripes)" }));
  }
  if ((p.right - p.left) / slots.length > 6) {
    const parts = slots.map((slot, k) => (slot.answer && k ? `M${p.x(k)} ${p.bottom}V${p.y(Number(slot.answer.cost))}` : "")).join("");
    p.svg.append(draw("path", { class: "parting", d: parts }));
  }
  p.svg.append(draw("path", { class: "line cost", d: stretches(slots, (slot) => slot.answer).map(([first, last]) => {
    let path = "";
    for (let k = first; k <= last; k++) path += `${k === first ? `M${p.x(k)} ` : "V"}${p.y(Number(slots[k].answer.cost))}H${p.x(k + 1)}`;
    return path;
  }).join("") }));
  return p.done(`Cost an hour and bound of ${slots.length} slots; the table has the numbers.`);
}

// ---- charts

const PAPER = { scale: 530, "run-chart": 400, "floors-chart": 400, "day-outputs": 340,
  "day-costs": 340 }; // widths of pictures that are printed
const pictures = new Map(); // box: how it is drawn, and at which width it was
let printing = false;
const watch = new ResizeObserver((entries) => entries.forEach((entry) => paint(entry.target)));

/** Draws a picture into a box, and again whenever the box gets another width. */
function chart(box, picture) {
  pictures.set(box, { picture, width: 0 });
  paint(box);
  watch.observe(box);
}

function paint(box) {
  const held = pictures.get(box), width = printing ? PAPER[box.id] : Math.floor(box.clientWidth);
  if (!held || !width || held.width === width) return;
  held.width = width;
  box.replaceChildren(held.picture(width));
}

/** Draws all pictures that are seen as wide as they are printed, or as wide as they are on the screen. */
function forPaper(yes) {
  printing = yes;
  drawPaper();
  for (const [box, held] of pictures) {
    held.width = 0;
    if (box.clientWidth) paint(box);
  }
}

const plain = (number) => String(Number(number.toFixed(6)));

/** Round numbers from one to another, about so many. */
function ticks(low, high, count) {
  const raw = (high - low || 1) / count, power = 10 ** Math.floor(Math.log10(raw));
  const step = [1, 2, 5, 10].find((times) => times * power >= raw * 0.999) * power, found = [];
  for (let k = Math.ceil(low / step - 1e-9); k * step <= high + 1e-9 * step; k++) found.push(k * step);
  return found;
}

/** The frame of a chart: scales, the lines of its left axis, and places to draw on. */
function plot(width, tall, [x0, x1], [y0, y1], titles) {
  const height = printing ? Math.min(tall, titles.x ? 190 : 150) : tall;
  const lines = ticks(y0, y1, 5), left = 12 + 7.6 * Math.max(...lines.map((one) => plain(one).length)), right = width - 10;
  const top = titles.y ? 24 : 8, bottom = height - (titles.x ? 42 : 26);
  const x = (value) => Math.round((left + ((right - left) * (value - x0)) / (x1 - x0 || 1)) * 100) / 100;
  const y = (value) => Math.round((bottom - ((bottom - top) * (value - y0)) / (y1 - y0 || 1)) * 100) / 100;
  const svg = draw("svg", { viewBox: `0 0 ${width} ${height}`, width, height, role: "img" });
  for (const one of lines) {
    svg.append(draw("line", { class: "grid", x1: left, x2: right, y1: y(one), y2: y(one) }));
    svg.append(draw("text", { x: left - 6, y: y(one) + 4, class: "soft", "text-anchor": "end" }, plain(one)));
  }
  svg.append(draw("line", { class: "axis", x1: left, x2: right, y1: bottom, y2: bottom }));
  if (titles.y) svg.append(draw("text", { x: 0, y: 12, class: "soft" }, titles.y));
  if (titles.x) svg.append(draw("text", { x: right, y: height - 4, class: "soft", "text-anchor": "end" }, titles.x));
  const across = (values, form) => values.forEach((value) => {
    svg.append(draw("line", { class: "tick", x1: x(value), x2: x(value), y1: bottom, y2: bottom + 5 }));
    svg.append(draw("text", { x: x(value), y: bottom + 19, class: "soft", "text-anchor": "middle" }, form(value)));
  });
  const late = []; // what lies over everything
  const done = (said) => {
    svg.setAttribute("aria-label", said);
    svg.append(...late);
    return svg;
  };
  return { svg, x, y, left, right, top, bottom, across, late, done };
}

// ---- what a person does

let stepping = 0;

/** Asks for the demand in the field; a step in place of the last, Enter as a new place to come back to. */
function askDemand(push) {
  clearTimeout(stepping);
  const demand = $("demand").value.trim();
  if (demand !== state.demand) go({ demand, ...ANEW }, push);
  if (dispatched) dispatched.stale = true;
  follow();
}

function start() {
  $("ask").addEventListener("submit", (event) => {
    event.preventDefault();
    askDemand(true);
  });
  $("demand").addEventListener("keydown", (event) => stepped(event, () => {
    clearTimeout(stepping);
    stepping = setTimeout(() => askDemand(false), 150);
  }));
  $("skip").addEventListener("click", (event) => {
    event.preventDefault();
    $("demand").focus();
  });

  $("tabs").addEventListener("click", (event) => {
    const tab = event.target.closest("[role=tab]");
    if (!tab) return;
    go({ view: tab.dataset.view });
    follow();
  });
  $("tabs").addEventListener("keydown", (event) => {
    const tabs = [...$("tabs").children], at = tabs.indexOf(document.activeElement);
    const to = { ArrowRight: at + 1, ArrowLeft: at - 1, Home: 0, End: tabs.length - 1 }[event.key];
    if (to === undefined || at < 0) return;
    event.preventDefault();
    tabs[(to + tabs.length) % tabs.length].focus();
  });

  $("take").addEventListener("click", () => {
    go({ previous: [...shown.answer.outputs], ...ANEW });
    follow();
  });
  $("untake").addEventListener("click", () => {
    go({ previous: null, ...ANEW });
    $("demand").focus();
    follow();
  });
  $("try").addEventListener("click", () => {
    go({ outputs: [...shown.answer.outputs], view: "hand" });
    follow();
    $("output-0").focus();
  });
  $("fill").addEventListener("click", () => {
    go({ outputs: [...source().answer.outputs] }, false);
    setFields(true);
    keyed();
  });

  $("refine-start").addEventListener("click", () => refine(turn, task.signal, 100000).catch(unlessAborted));
  $("refine-stop").addEventListener("click", () => {
    results.refine.stop = true;
    drawRefine();
  });
  $("plan-start").addEventListener("click", () => {
    results.aborted = false;
    plan(turn, task.signal).catch(unlessAborted);
  });
  $("plan-stop").addEventListener("click", () => {
    task.abort();
    task = new AbortController();
    results.aborted = true;
    go({ plan: false }, false);
  });

  $("run-first").addEventListener("click", () => showStep(0));
  $("run-back").addEventListener("click", () => showStep(state.step - 1));
  $("run-next").addEventListener("click", () => showStep(state.step + 1));
  $("run-all").addEventListener("click", () => showStep(results.run.length - 1));

  $("day-form").addEventListener("submit", (event) => {
    event.preventDefault();
    askDay("dispatched");
  });
  $("day-plan").addEventListener("click", () => askDay("planned"));
  $("day-stop").addEventListener("click", () => {
    task.abort();
    task = new AbortController();
    daySaid = "";
    go({ slots: null }, false);
  });
  $("day-reset").addEventListener("click", () => {
    $("day-text").value = site.day;
    askDay("dispatched");
  });
  $("day-file").addEventListener("change", async () => {
    const file = $("day-file").files[0];
    if (!file) return;
    $("day-text").value = await file.text();
    askDay("dispatched");
  });

  window.addEventListener("hashchange", () => {
    if (location.hash && !location.hash.includes("=")) return;
    state = stateOf(location.hash);
    $("demand").value = state.demand || "";
    setFields();
    follow();
  });
  window.addEventListener("beforeprint", () => forPaper(true));
  window.addEventListener("afterprint", () => forPaper(false));
  setInterval(beat, BEAT);
  state = stateOf(location.hash);
  follow();
}

start();
