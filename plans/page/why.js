// Why a number is there: which attempt and which line it comes from, its reply, and why the brick that is accused
// missed it. The words are those of `why`.
"use strict";

const UNSETTLED = "not every brick was reached, or the heal did not come so far";

class Why {
  // Reads the lines up to the given one.
  constructor(run, line) {
    Object.assign(this, { run, line, made: new Map(), reply: new Map(), actors: new Map(), things: new Map() });
    Object.assign(this, { stopped: new Map(), cut: new Map(), told: new Map(), missing: new Map(), mended: new Map() });
    for (let at = 0; at <= line; at++) this.read(at, run.words(at));
  }
  read(line, words) {
    const who = words[1];
    if (who === "event") {
      if (words[2] === "stop") this.stopped.set(Number(words[3]), line);
      if (words[2] === "cut") this.cut.set(words[3] + " " + words[4], line);
      return;
    }
    const at = this.actor(who);
    if (words[2] === "begin") {
      if (words[3] !== "heal") this.begin(at, line, words);
    } else if (words[2] === "end") {
      for (const attempt of at.attempts) this.reply.set(attempt, words[3]);
      at.attempts = [];
      this.forget(at);
    } else this.ask(at, line, words);
  }
  actor(who) {
    if (!this.actors.has(who)) {
      const at = { who, attempts: [], lost: new Map() };
      this.forget(at);
      this.actors.set(who, at);
    }
    return this.actors.get(who);
  }
  // A work whose attempt is over goes on with another: what it missed before is no reason of that one.
  forget(at) {
    at.missedFirst = new Map();
    at.missedOperation = new Map();
    at.isUnlocked = false;
  }
  thing(object, kind) {
    const key = object + " " + kind;
    if (!this.things.has(key)) this.things.set(key, { object, kind, raised: [[], [], [], [], []], own: new Map(), blames: new Map() });
    return this.things.get(key);
  }
  begin(at, line, words) {
    const object = words[4].split("/")[0];
    this.made.set(line, { object, kind: KINDS[kindOf(words[3])], who: at.who, change: words.slice(3).join(" ") });
    at.attempts.push(line);
  }
  // Why a request told that: a brick that is not reached has no session since an event or a lost answer.
  cause(at, brick, word) {
    if (word === "failed") return "the request failed";
    if (word === "lost") return "the answer was lost";
    if (word === "absent") return "it has no such object";
    let last = -1, text = "";
    const later = (line, what) => {
      if (line !== undefined && line > last) [last, text] = [line, what];
    };
    later(this.stopped.get(brick), `stop ${brick}`);
    later(this.cut.get(`${at.who} ${brick}`), `cut ${at.who} ${brick}`);
    later(at.lost.get(brick), "an answer was lost");
    return "no session" + (last < 0 ? "" : ` since line ${last}, ${text}`);
  }
  // What a request of a command missed at a brick: its first one there, or the operation itself.
  miss(at, line, brick, words, word) {
    if (!/^(gone|lost|failed|absent)$/.test(word) || !/^(lock|look|pre|apply)$/.test(words[3])) return;
    const which = words[3] === "apply" ? at.missedOperation : at.missedFirst;
    if (words[3] === "apply" || !which.has(brick))
      which.set(brick, `line ${line}, ${words.slice(3, -1).join(" ")}: ${this.cause(at, brick, word)}`);
  }
  reason(at, brick) {
    return at.missedOperation.get(brick) || at.missedFirst.get(brick) || `brick ${brick} was not asked`;
  }
  ask(at, line, words) {
    const brick = Number(words[2][1]), verb = words[3], word = words[words.length - 1];
    if (verb === "unlock") at.isUnlocked = true;
    else if (verb === "lock" && at.isUnlocked) this.forget(at);
    this.miss(at, line, brick, words, word);
    if (word === "lost") at.lost.set(brick, line);
    if (verb === "post") this.told.set(words[4] + " " + brick, word);
    if (word !== "done" && word !== "lost") return;
    if (verb === "pre") this.raise(at, line, brick, this.thing(words[4], words[5]));
    else if (verb === "post") this.post(at, line, brick, words, word);
    else if (verb === "settle") this.settle(at, brick, words, this.thing(words[4], words[5]));
    else if (verb === "copy" || verb === "put-attrs" || verb === "put-names") {
      const kind = verb === "copy" ? "data" : verb === "put-attrs" ? "metadata" : "entry";
      this.mended.set(`${words[4].split("[")[0]} ${kind} ${brick}`, { line, who: at.who });
    }
  }
  raise(at, line, brick, thing) {
    const attempt = at.who[0] === "c" ? at.attempts[at.attempts.length - 1] : null;
    const it = { line, who: at.who, attempt };
    thing.raised[brick].push(it);
    if (attempt === null) thing.own.set(at.who + brick, it);
  }
  post(at, line, brick, words, word) {
    const attempt = Number(words[4]), made = this.made.get(attempt);
    if (made === undefined) return;
    const thing = this.thing(made.object, made.kind);
    const own = thing.raised[brick].findIndex((it) => it.attempt === attempt);
    if (own >= 0) thing.raised[brick].splice(own, 1);
    for (const accused of words[5] === "-" ? [] : words[5].split(",").map(Number)) {
      const key = brick * PLACES + accused;
      if (!thing.blames.has(key)) thing.blames.set(key, []);
      thing.blames.get(key).push({ line, attempt, isLost: word === "lost" });
      if (!this.missing.has(`${attempt} ${accused}`)) this.missing.set(`${attempt} ${accused}`, this.reason(at, accused));
    }
  }
  // A heal takes back: first the number that it raised itself, and then the oldest ones.
  settle(at, brick, words, thing) {
    const raised = thing.raised[brick];
    let count = Number(words[6]);
    const own = raised.indexOf(thing.own.get(at.who + brick));
    if (count > 0 && own >= 0) {
      raised.splice(own, 1);
      count--;
    }
    raised.splice(0, count);
    for (let i = 7; i < words.length - 1; i++) {
      const blames = thing.blames.get(brick * PLACES + i - 7);
      if (blames !== undefined) blames.splice(0, Number(words[i]));
    }
  }
  blames(thing, brick, accused) {
    return thing.blames.get(brick * PLACES + accused) || [];
  }
  attemptText(attempt) {
    const made = this.made.get(attempt);
    return `attempt ${attempt}, ${made.who}: ${made.change}, ` + (this.reply.has(attempt) ? `answered ${this.reply.get(attempt)}` : "not ended");
  }
  // The attempts for which a brick is accused, by the given bricks: each with the lines that say so, and why.
  accusations(thing, accused, among) {
    const by = new Map(), out = [];
    for (const brick of among)
      for (const it of this.blames(thing, brick, accused)) {
        if (!by.has(it.attempt)) by.set(it.attempt, []);
        by.get(it.attempt).push(`brick ${brick} in line ${it.line}${it.isLost ? ", whose answer was lost" : ""}`);
      }
    const mended = this.mended.get(`${thing.object} ${thing.kind} ${accused}`);
    for (const [attempt, lines] of by) {
      out.push(`    ${this.attemptText(attempt)}`, `      accused by ${lines.join(", ")}`);
      out.push(`      missed there: ${this.missing.get(`${attempt} ${accused}`)}`);
      if (mended !== undefined && mended.line > attempt)
        out.push(`      mended there since, in line ${mended.line} by ${mended.who}, and not settled at the bricks that accuse it`);
    }
    return out;
  }
  // Why a brick's dirty number is above 0.
  dirt(thing, brick) {
    return thing.raised[brick].map(({ line, who, attempt }) => {
      if (attempt === null)
        return `    raised in line ${line} by a heal of ${who}, which did not settle it: ${UNSETTLED}`;
      const word = this.told.get(attempt + " " + brick);
      const end = word === undefined ? "no post-op was asked there" : `its post-op there was not carried out (${word})`;
      return `    raised in line ${line} by ${this.attemptText(attempt)}: ${end}`;
    });
  }
  accused(thing, accused) {
    const bricks = this.run.allBricks.filter((brick) => this.blames(thing, brick, accused).length > 0);
    if (bricks.length === 0) return [];
    const few = 2 * bricks.length < this.run.count ? ": no majority of all bricks, so it lacks nothing that was acknowledged" : "";
    const by = bricks.map((brick) => `brick ${brick} (${this.blames(thing, brick, accused).length})`).join(", ");
    return [`  brick ${accused} is accused by ${by}${few}`, ...this.accusations(thing, accused, bricks)];
  }
  // The path that a command gave an object, or that of the root.
  pathOf(name) {
    const object = this.run.objects.known.get(name);
    const given = object === undefined ? [] : object.paths.filter((it) => it.from <= this.line && (it.from >= 0 || name === "g1"));
    return given.length > 0 ? given[given.length - 1].path : "";
  }
  // All that `why` tells of one kind of an object, or nothing where no number is above 0.
  tell(thing) {
    const bricks = this.run.allBricks, dirty = bricks.filter((brick) => thing.raised[brick].length > 0);
    const free = bricks.filter((brick) => bricks.every((other) => this.blames(thing, other, brick).length === 0));
    if (free.length === bricks.length && dirty.length === 0) return [];
    const path = this.pathOf(thing.object);
    const who = free.length === 0 ? "every copy is accused: split-brain" : `nobody accuses brick${free.length > 1 ? "s" : ""} ${free.join(" ")}`;
    return [
      `${thing.object}${path === "" ? "" : ` (${path})`} ${thing.kind}: ${who}`,
      ...bricks.flatMap((brick) => this.accused(thing, brick)),
      ...dirty.flatMap((brick) => [`  brick ${brick} is dirty (${thing.raised[brick].length})`, ...this.dirt(thing, brick)]),
    ];
  }
  text() {
    const all = [...this.things.values()].flatMap((thing) => this.tell(thing));
    return all.length > 0 ? all : ["no number is above 0"];
  }
}
