// How the lines of a trace fold: into requests, as `steps` folds them, and into commands, heals and rounds, as
// `commands` lists them.
"use strict";

// The requests: for each line the first line of its request, and the next one of it. Asking again for a lock that is
// held is the same request, and an event between two lines parts one.
class Requests {
  constructor() {
    this.first = new Ints();
    this.following = new Ints();
    this.again = new Map();
    this.open = new Map();
  }
  add(line, words, key) {
    const who = words[1];
    this.following.push(-1);
    if (who === "event") this.open.clear();
    else if (key === null) this.open.delete(who);
    if (key === null) {
      this.first.push(line);
      return;
    }
    const brick = words[2], answer = answerOf(words);
    let it = this.open.get(who);
    const told = it !== undefined && it.key === key ? it.told.get(brick) : undefined;
    const isAgain = told !== undefined && told.startsWith("held") && /^(held|granted)/.test(answer);
    if (isAgain) this.again.set(it.first, (this.again.get(it.first) || 1) + 1);
    else if (it === undefined || it.key !== key || told !== undefined) {
      it = { first: line, last: -1, key, told: new Map() };
      this.open.set(who, it);
    }
    if (it.last >= 0) this.following.items[it.last] = line;
    it.last = line;
    it.told.set(brick, answer);
    this.first.push(it.first);
  }
  // The lines of a request, from its first line on.
  lines(first) {
    const all = [];
    for (let line = first; line >= 0; line = this.following.items[line]) all.push(line);
    return all;
  }
  lastLine(first) {
    let line = first;
    while (this.following.items[line] >= 0) line = this.following.items[line];
    return line;
  }
}

// A command, a round, or a heal in one: its lines, what it is, its reply, and the requests that it sent to each
// brick, counted as a plan's `fault` counts them. `inside` is the round of a heal.
class Work {
  constructor(id, who, number, first) {
    Object.assign(this, { id, who, number, first, last: first, what: "", reply: "", inside: null, killed: -1 });
    this.low = [];
    this.high = [];
  }
  count(brick, number) {
    if (this.low[brick] === undefined) this.low[brick] = number;
    this.high[brick] = number;
  }
  isHeal() {
    return this.inside !== null;
  }
  isEnded() {
    return this.reply !== "";
  }
  // The requests to a brick, as `b0 1-8`.
  asked(brick) {
    return this.low[brick] === undefined ? "" : `${this.low[brick]}-${this.high[brick]}`;
  }
}

// The commands, heals and rounds, and for each line the innermost that it is of (-1: none).
class Works {
  constructor(plan) {
    this.plan = plan;
    this.list = [];
    this.of = new Ints();
    this.ofActor = new Map();
    this.open = new Map();
    this.asked = [0, 0, 0, 0, 0];
  }
  add(line, words) {
    if (words[1] === "event") {
      if (words[2] === "kill") this.kill(line, words[3]);
      this.of.push(-1);
      return;
    }
    const who = words[1];
    const at = this.at(who, line);
    if (words[2] === "end") {
      this.end(at, line, words);
      return;
    }
    if (who[0] === "h" && words[3] !== "index" && at.heal === null) at.heal = this.work(who, at.work.number, line, at.work);
    const inner = at.heal === null ? at.work : at.heal;
    at.work.last = inner.last = line;
    this.of.push(inner.id);
    if (words[2] === "begin") this.begin(at, line, words);
    else this.ask(at, inner, words);
  }
  kill(line, who) {
    const at = this.open.get(who);
    for (const work of at === undefined ? [] : [at.work, at.heal]) if (work !== null) work.killed = line;
  }
  // What an actor is at: a new work, where its last has ended.
  at(who, line) {
    let at = this.open.get(who);
    if (at === undefined) {
      at = { who, work: null, heal: null, ended: 0, shown: "", isChange: false, renamed: "" };
      this.open.set(who, at);
    }
    if (at.work === null) {
      at.work = this.work(who, at.ended + 1, line, null);
      const said = this.plan === null ? undefined : this.plan.said.get(who);
      at.work.what = said !== undefined && said.length > at.ended ? said[at.ended] : who[0] === "h" ? "round" : "";
      at.isSaid = at.work.what !== "";
    }
    return at;
  }
  work(who, number, line, inside) {
    const work = new Work(this.list.length, who, number, line);
    work.inside = inside;
    this.list.push(work);
    if (!this.ofActor.has(who)) this.ofActor.set(who, []);
    if (inside === null) this.ofActor.get(who).push(work);
    return work;
  }
  ask(at, inner, words) {
    const brick = Number(words[2][1]);
    this.asked[brick]++;
    if (words[3] === "index") return;
    inner.count(brick, this.asked[brick]);
    if (at.shown !== "" && at.isChange) return;
    this.show(at, words.slice(3, answerOf(words).startsWith("held") ? -2 : -1).join(" "));
    at.isChange = false;
  }
  begin(at, line, words) {
    if (words[3] === "create" && words[5] !== "g" + (line + 2)) {
      at.renamed = words[4];
      this.show(at, `rename ${words[5]} ${words[4]}`);
    } else this.show(at, at.renamed !== "" ? `rename ${words[4]} ${at.renamed}` : words.slice(3).join(" "));
    at.isChange = true;
  }
  // Without its plan a command is told by its change, or by its last request.
  show(at, text) {
    at.shown = text;
    if (at.heal !== null) at.heal.what = text;
    else if (!at.isSaid) at.work.what = text;
  }
  end(at, line, words) {
    at.work.last = line;
    if (at.who[0] === "h" && words.length > 5) {
      const heal = at.heal === null ? this.work(at.who, at.work.number, line, at.work) : at.heal;
      heal.last = line;
      heal.what = `heal ${words[3]} ${words[4]}`;
      heal.reply = words.slice(5).join(" ");
      this.of.push(heal.id);
    } else {
      at.work.reply = words.slice(3).join(" ");
      this.of.push(at.work.id);
      at.work = null;
      at.ended++;
    }
    at.heal = null;
    at.shown = "";
    at.renamed = "";
    at.isChange = false;
  }
}
