// A run: the lines of a trace, its bricks and objects, its events, and what needed heal after any line.
"use strict";

// The requests that change what a brick holds, and those whose answer a heal puts on others.
const CHANGING = new Set(["pre", "apply", "post", "cut", "copy", "put-names", "settle", "read", "list"]);

class Run {
  constructor(text, plan) {
    this.text = text;
    this.plan = plan;
    this.objects = new Objects();
    this.bricks = new Bricks(this.objects, plan);
    this.requests = new Requests();
    this.works = new Works(plan);
    this.starts = new Ints();
    this.events = [{ line: -1, stopped: new Set(), killed: new Set(), cut: new Set() }];
    this.actors = new Map();
    let top = 0;
    for (let from = 0; from < text.length; ) {
      let to = text.indexOf("\n", from);
      if (to < 0) to = text.length;
      top = Math.max(top, this.add(this.starts.length, text.slice(from, to)));
      this.starts.push(from);
      from = to + 1;
    }
    this.length = this.starts.length;
    this.starts.push(text.length + (text.endsWith("\n") ? 0 : 1));
    this.count = plan !== null ? plan.bricks : top > 2 ? 5 : 3;
    this.names = [...this.actors.keys()].sort((a, b) => (a[0] < b[0] ? -1 : a[0] > b[0] ? 1 : a.slice(1) - b.slice(1)));
    this.allBricks = Array.from({ length: this.count }, (_, brick) => brick);
  }
  // Takes a line in, and answers the highest brick in it.
  add(line, text) {
    const words = text.split(" ");
    const who = words[1], bricks = this.bricks;
    bricks.next();
    this.works.add(line, words);
    this.requests.add(line, words, this.keyOf(text, words));
    if (who === "event") return this.event(line, words);
    this.actors.set(who, true);
    if (words[2] === "begin") {
      if (words[3] !== "heal") this.begin(who, bricks.begin(line, words));
    } else if (words[2] === "end") this.end(line, who, words);
    else {
      const brick = Number(words[2][1]), last = words[words.length - 1];
      const about = words[4] === "heal" ? words[5] : words[4];
      if (about[0] === "f" && /^f[1-9]/.test(about)) this.objects.of(about.split("[")[0]);
      if (CHANGING.has(words[3]) && (last === "done" || last === "lost" || last === "ok")) bricks.took(line, who, brick, words);
      return brick;
    }
    return 0;
  }
  // What tells one request of an actor from another, or null where a line is none.
  keyOf(text, words) {
    if (words[1] === "event" || words[2] === "begin" || words[2] === "end") return null;
    if (words[3] === "settle") return words.slice(3, 6).join(" ");
    const from = words[0].length + words[1].length + words[2].length + 3;
    return text.slice(from, text.length - answerOf(words).length - 1);
  }
  begin(who, change) {
    const begun = this.actors.get(who);
    this.actors.set(who, begun === true ? [change] : [...begun, change]);
  }
  // Once a removal is acknowledged, the object has lost that name.
  end(line, who, words) {
    if (who[0] === "h") this.bricks.forgetReads(who);
    const begun = this.actors.get(who);
    if (begun === true) return;
    for (const change of begun) {
      change.reply = words[3];
      change.ended = line;
      if (words[3] !== "ok" || !change.gone) continue;
      const path = change.gone.paths.find((it) => it.to === Infinity && it.path.endsWith("/" + change.name));
      if (path !== undefined) path.to = line;
    }
    this.actors.set(who, true);
  }
  event(line, words) {
    const last = this.events[this.events.length - 1];
    const next = { line, stopped: new Set(last.stopped), killed: new Set(last.killed), cut: new Set(last.cut) };
    const [kind, one, other] = words.slice(2);
    if (kind === "stop") next.stopped.add(Number(one));
    else if (kind === "start") next.stopped.delete(Number(one));
    else if (kind === "cut") next.cut.add(one + " " + other);
    else if (kind === "join") next.cut.delete(one + " " + other);
    else next.killed.add(one);
    this.events.push(next);
    const actor = kind === "cut" || kind === "join" || kind === "kill" ? one : "";
    if (actor !== "" && !this.actors.has(actor)) this.actors.set(actor, true);
    return kind === "stop" || kind === "start" ? Number(one) : kind === "kill" ? 0 : Number(other);
  }
  line(at) {
    return this.text.slice(this.starts.items[at], this.starts.items[at + 1] - 1);
  }
  words(at) {
    return this.line(at).split(" ");
  }
  answer(at) {
    return answerOf(this.words(at));
  }
  // Who is stopped, killed and cut off after a line.
  status(line) {
    let low = 0, high = this.events.length - 1;
    while (low < high) {
      const middle = (low + high + 1) >> 1;
      if (this.events[middle].line <= line) low = middle;
      else high = middle - 1;
    }
    return this.events[low];
  }
  reach(line) {
    const stopped = this.status(line).stopped;
    return this.allBricks.filter((brick) => !stopped.has(brick));
  }
  // The copy of a brick after a line: what it is, its length, and for each kind its dirty number and those against
  // each brick.
  copy(object, brick, line) {
    const cells = this.bricks.after(line), at = this.bricks.cell(object, brick, 0);
    const numbers = KINDS.map((_, kind) => cells.subarray(at + 2 + kind * NUMBERS, at + 2 + (kind + 1) * NUMBERS));
    return { what: cells[at], length: cells[at + LENGTH], numbers: numbers.map((it) => Array.from(it.subarray(0, 1 + this.count))) };
  }
  // The numbers that a line has changed at its brick, as `steps` has them: `d1` is a dirty number, `2:1` one held
  // against brick 2.
  numbers(line) {
    let text = "";
    for (let i = this.bricks.changeAt(line); i < this.bricks.changeAt(line + 1); i++) {
      const field = this.bricks.cellOf.items[i] % FIELDS;
      if (field < 2) continue;
      const number = (field - 2) % NUMBERS;
      text += " " + (number === 0 ? "d" : number - 1 + ":") + this.bricks.valueOf.items[i];
    }
    return text;
  }
  // The verdict over the bricks that are started: short, bare, split, or good with the copies that none of them accuses.
  verdict(copies, reach, kind) {
    if (2 * reach.length <= this.count) return { word: "short", good: [] };
    const holders = reach.filter((brick) => copies[brick].what !== ABSENT);
    const held = holders.filter((brick) => kind !== 0 || this.bricks.keepsBytes(brick));
    if (held.length === 0) return { word: "bare", good: [] };
    const good = held.filter((brick) => !holders.some((other) => copies[other].numbers[kind][1 + brick] > 0));
    return { word: good.length > 0 ? "good" : "split", good };
  }
  // An object after a line: its copies, and for each kind the verdict and whether there is a number above 0, on a
  // started brick (what a report tells) or on any.
  object(object, line, reach) {
    const copies = this.allBricks.map((brick) => this.copy(object, brick, line));
    const has = (brick, kind) => copies[brick].what !== ABSENT && copies[brick].numbers[kind].some((it) => it > 0);
    const kinds = KINDS.map((_, kind) => ({
      kind,
      isMarked: reach.some((brick) => has(brick, kind)),
      hasAny: this.allBricks.some((brick) => has(brick, kind)),
      verdict: this.verdict(copies, reach, kind),
    }));
    return { object, copies, kinds, needsHeal: kinds.some((it) => it.isMarked) };
  }
  // What a report says after a line, and besides the objects that have no number, by id alone.
  volume(line) {
    const reach = this.reach(line), cells = this.bricks.after(line), numbered = [], plain = [];
    for (const object of this.objects.list) {
      let isThere = false, hasAny = false;
      for (const brick of this.allBricks) {
        const at = this.bricks.cell(object, brick, 0);
        if (cells[at] === ABSENT) continue;
        isThere = true;
        for (let i = at + 2; i < at + FIELDS && !hasAny; i++) hasAny = cells[i] !== 0;
      }
      if (hasAny) numbered.push(this.object(object, line, reach));
      else if (isThere) plain.push(object);
    }
    numbered.sort((one, other) => this.objects.compare(one.object, other.object));
    plain.sort((one, other) => this.objects.compare(one, other));
    const marked = numbered.filter((it) => it.needsHeal);
    let split = 0;
    for (const it of marked) split += it.kinds.filter((kind) => kind.isMarked && kind.verdict.word === "split").length;
    return { line, reach, isShort: 2 * reach.length <= this.count, numbered, plain, marked, split };
  }
}
