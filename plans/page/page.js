// The page: reads the trace and the plan that stand in it, and ties rows, slider, keys, search and links together.
"use strict";

// The lines that fit a search. Each word is an object (by its name in the trace, its path or its gfid), an actor, a
// brick, or the beginning of a word of the line.
class Search {
  constructor(run) {
    this.run = run;
  }
  test(word) {
    const run = this.run;
    if (/^b[0-4]$/.test(word)) return (words) => words[2] === word || (words[1] === "event" && words.slice(3).includes(word[1]));
    if (/^[ch][1-9][0-9]?$/.test(word)) return (words) => words[1] === word || words.slice(3).includes(word);
    const object = run.objects.list.find((it) => it.name === word || run.objects.gfid(it) === word || it.paths.some((path) => path.path === word));
    if (object !== undefined) return (words) => this.isAbout(words, object);
    return (words, text) => text.includes(" " + word) || (word.includes("/") && text.includes(word));
  }
  isAbout(words, object) {
    const name = object.name;
    if (words[3] === "apply" || words[3] === "post") {
      const change = this.run.bricks.changes.get(Number(words[4]));
      return change !== undefined && (change.object === object || change.made === object);
    }
    return words.slice(3).some((it) => it === name || (it.startsWith(name) && /[[/]/.test(it[name.length])));
  }
  find(query) {
    const tests = query.trim().split(/ +/).map((it) => this.test(it)), found = new Ints();
    for (let line = 0; line < this.run.length; line++) {
      const text = this.run.line(line), words = text.split(" ");
      if (tests.every((it) => it(words, text))) found.push(line);
    }
    return Array.from(found.items.subarray(0, found.length));
  }
}

class Page {
  constructor(run) {
    this.run = run;
    this.list = new RowList(run);
    this.search = new Search(run);
    this.matches = [];
    this.query = "";
    this.parts = {};
    for (const id of ["slider", "number", "link", "mode", "find", "found", "only"]) this.parts[id] = document.getElementById(id);
    this.parts.slider.max = this.parts.number.max = String(run.length - 1);
    this.lanes = new Lanes(run, this.list, (row) => this.goRow(row), (work, isFolded) => this.fold(work, isFolded));
    this.side = new Side(run, (line) => this.go(line));
    this.listen();
    this.lanes.layOut();
    this.fromLink();
  }
  on(id, kind, what) {
    document.getElementById(id).addEventListener(kind, what);
  }
  listen() {
    this.on("back", "click", () => this.goRow(this.row - 1));
    this.on("on", "click", () => this.goRow(this.row + 1));
    this.on("slider", "input", () => this.go(Number(this.parts.slider.value)));
    this.on("number", "change", () => this.go(Number(this.parts.number.value)));
    this.on("mode", "change", () => this.anew(() => (this.list.mode = this.parts.mode.value)));
    this.on("fold", "click", () => this.foldAll(true));
    this.on("unfold", "click", () => this.foldAll(false));
    this.on("earlier", "click", () => this.match(-1));
    this.on("only", "change", () => this.showMatches());
    this.on("search", "submit", (event) => {
      event.preventDefault();
      this.match(1);
    });
    this.on("find", "input", () => this.parts.find.value === "" && this.match(0));
    addEventListener("hashchange", () => this.fromLink());
    addEventListener("keydown", (event) => this.key(event));
    addEventListener("beforeprint", () => this.print(true));
    addEventListener("afterprint", () => this.print(false));
  }
  fromLink() {
    const asked = /(?:^#|&)line=([0-9]+)/.exec(location.hash);
    if (/(?:^#|&)rows=requests/.test(location.hash) && this.list.mode !== "requests") {
      this.parts.mode.value = this.list.mode = "requests";
      this.list.build();
      this.lanes.layOut();
    }
    if (asked === null || Number(asked[1]) !== this.line) this.go(asked === null ? 0 : Number(asked[1]));
  }
  go(line) {
    line = Math.max(0, Math.min(this.run.length - 1, Math.floor(line) || 0));
    this.show(line, this.list.rowOf(line));
  }
  goRow(row) {
    row = Math.max(0, Math.min(this.list.length - 1, row));
    this.show(this.list.lineOf(row), row);
  }
  show(line, row) {
    this.line = line;
    this.row = row;
    this.parts.slider.value = this.parts.number.value = String(line);
    this.parts.link.href = "#line=" + line + (this.list.mode === "requests" ? "&rows=requests" : "");
    clearTimeout(this.linking);
    this.linking = setTimeout(() => history.replaceState(null, "", this.parts.link.href), 150);
    this.lanes.choose(row);
    this.side.show(line, this.list.row(row));
  }
  // Builds the rows anew after a change, and stays at the line.
  anew(change) {
    change();
    this.list.build();
    this.lanes.layOut();
    this.go(this.line);
  }
  fold(work, isFolded) {
    this.anew(() => this.list.fold(work, isFolded));
    this.goRow(this.list.headOf(work));
  }
  foldAll(isFolded) {
    this.anew(() => this.list.foldAll(isFolded));
  }
  // Folds the work of the chosen row, or unfolds it.
  foldHere(isFolded) {
    const chosen = this.list.row(this.row), work = chosen.work !== null ? chosen.work : this.list.workOf(chosen.first);
    if (work === null || this.list.only !== null) return;
    if (isFolded && this.list.folded.has(work.id) && work.inside !== null) this.fold(work.inside, true);
    else if (isFolded !== this.list.folded.has(work.id)) this.fold(work, isFolded);
  }
  // Looks for what the search says, and goes so many matches on.
  match(step) {
    const query = this.parts.find.value.trim();
    if (query !== this.query) {
      this.query = query;
      this.matches = query === "" ? [] : this.search.find(query);
      this.showMatches();
    }
    if (query === "" || step === 0) return;
    let at = this.matches.findIndex((line) => line > this.line);
    if (step < 0) at = this.matches.findLastIndex((line) => line < this.line);
    if (at < 0) at = step > 0 ? 0 : this.matches.length - 1;
    if (this.matches.length > 0) this.go(this.matches[at]);
    this.parts.found.textContent = this.matches.length === 0 ? "no match" : `${at + 1} of ${this.matches.length}`;
  }
  showMatches() {
    const only = this.parts.only.checked && this.matches.length > 0 ? this.matches : null;
    this.parts.found.textContent = this.query === "" ? "" : this.matches.length === 0 ? "no match" : `${this.matches.length} lines`;
    if (only === null && this.list.only === null) return;
    this.anew(() => (this.list.only = only));
  }
  key(event) {
    if (event.ctrlKey || event.metaKey || event.altKey) return;
    if (event.key === "Escape" && event.target === this.parts.find) return this.lanes.box.focus();
    if (/^(INPUT|SELECT|TEXTAREA)$/.test(event.target.tagName)) return;
    if (event.target.tagName === "BUTTON" && /^(Enter| )$/.test(event.key)) return;
    const moves = { ArrowUp: -1, ArrowDown: 1, PageUp: -20, PageDown: 20, Home: -Infinity, End: Infinity };
    const keys = {
      ArrowLeft: () => this.foldHere(true), ArrowRight: () => this.foldHere(false), f: () => this.foldAll(true), u: () => this.foldAll(false),
      "/": () => this.parts.find.focus(), n: () => this.match(1), p: () => this.match(-1),
    };
    const isOfRows = event.target === document.body || this.lanes.box.contains(event.target);
    if (isOfRows && event.key in moves) this.goRow(this.row + moves[event.key]);
    else if (event.key in keys) keys[event.key]();
    else return;
    event.preventDefault();
  }
  print(isPrinting) {
    const text = this.lanes.print(isPrinting), about = document.getElementById("about");
    if (isPrinting) this.about = about.textContent;
    about.textContent = isPrinting && text !== "" ? `${this.about}; ${text}` : this.about;
  }
}

function textOf(id) {
  const it = document.getElementById(id);
  return it === null ? null : it.textContent;
}
// What makes a plan another run's: a client or healer that it hasn't got, or more commands than it has.
function strangeTo(run, plan) {
  if (plan === null) return "";
  for (const who of run.names) {
    const said = plan.said.get(who), works = run.works.ofActor.get(who) || [];
    const lacks = said === undefined ? who : works.length > said.length ? `command ${works.length} of ${who}` : "";
    if (lacks !== "") return `The plan isn't that of this trace: it has no ${lacks}.`;
  }
  return "";
}
// Says what kind of a run it is, and what is wrong with it, if anything is.
function introduce(run, plan) {
  document.getElementById("title").textContent = document.title;
  const bare = `${run.count} bricks (without its plan: taken to have no arbiter)`;
  const kind = plan === null ? bare : `${plan.isArbiter ? "arbiter" : "replica"} ${run.count}`;
  document.getElementById("about").textContent = `${kind}, ${run.length} lines`;
  if (plan !== null) {
    document.getElementById("planned").hidden = false;
    document.getElementById("plantext").textContent = plan.text;
  }
  const fault = textOf("fault"), shown = run.length > 0 ? ` Shown are the ${run.length} lines before it.` : "";
  const faults = [textOf("noplan"), fault === null ? "" : fault + "." + shown, strangeTo(run, plan)].filter((it) => it);
  if (faults.length > 0) say(faults.join(" "));
}
function say(text) {
  const sentence = document.getElementById("sentence");
  sentence.textContent = text;
  sentence.hidden = false;
}
function start() {
  const given = textOf("plan"), plan = given === null ? null : readPlan(given);
  const run = new Run(textOf("trace").replace(/^\n/, ""), plan);
  introduce(run, plan);
  if (run.length === 0) document.querySelector("main").hidden = true;
  else window.afrPage = new Page(run);
}
try {
  start();
} catch (error) {
  say(`The page can't be drawn: ${error.message}`);
  throw error;
}
