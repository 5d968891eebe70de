// A line of a trace in words: who asks what, what was told, and why.
"use strict";

// What each answer says.
const ANSWERS = {
  granted: "the lock is granted",
  seen: "it has a copy, and shows it",
  ok: "it gives what was asked for",
  done: "it carried that out",
  absent: "it has no such object",
  gone: "the request didn't reach it",
  lost: "it carried the request out, and the answer didn't come back",
  failed: "the request failed",
};
// What a command's reply says where the word alone doesn't.
const REPLIES = {
  ok: "carried out; a change is acknowledged",
  "no-entry": "the copy that was asked has no such name",
  exists: "the name is there",
  "not-dir": "the path goes through a file",
  "is-dir": "it is a directory",
  "not-empty": "the directory has names",
  "no-quorum": "no majority of the bricks answered the locks or looks",
  "few-copies": "a majority answered, and too few of them have a copy",
  "split-brain": "a majority answered, and every copy on a brick that answered is accused by one of them",
  failed: "not known: the change may be on all copies, on some or on none",
  "too-large": "the write ends past the largest length of a file",
  half: "the new name is stored, and the removal of the old one isn't acknowledged",
};
const HEAL_REPLIES = {
  busy: "that healer has the Heal lock of the object",
  short: "too few bricks granted the locks and answered the first looks, or too few of them have the object",
  nothing: "the looks show no number above 0 of this kind",
  split: "every copy is accused: there is no source",
  settled: "every copy that the first looks reached was healed, and the bricks took back what the looks showed against these",
  moved: "that brick came to accuse the source, or has another length at the end",
  failed: "a brick failed or wasn't reached after the first looks",
};

class Words {
  constructor(run) {
    this.run = run;
  }
  actor(who) {
    return (who[0] === "c" ? "client " : "healer ") + who.slice(1);
  }
  // An object by its path, and by its name in the trace where that is another.
  object(name, line) {
    const object = this.run.objects.known.get(name);
    if (object === undefined) return name;
    return `${this.run.objects.path(object, line)} (${name})`;
  }
  // What a lock covers.
  area(text, line) {
    const [name, rest] = text.split(/(?=[[/])/, 2);
    const object = this.object(name, line);
    if (text.endsWith("[meta]")) return `the attributes of ${object}`;
    if (text.endsWith("/*")) return `all names of ${object}`;
    if (rest[0] === "/") return `the name ${text.slice(name.length + 1)} of ${object}`;
    return `${this.range(text, line)}`;
  }
  range(text, line) {
    const [name, from, to] = text.split(/[[,)]/);
    return `the bytes of ${this.object(name, line)} from ${from} ` + (to === "end" ? "on" : `to before ${to}`);
  }
  change(words, line) {
    const [verb, about, one, two] = words;
    const [directory, name] = about.split("/");
    if (verb === "write") return `write ${two} bytes at ${one} to ${this.object(about, line)}`;
    if (verb === "cut") return `cut ${this.object(about, line)} to ${one} bytes`;
    if (verb === "setattr") return `set the attribute ${one} of ${this.object(about, line)} to ${two}`;
    const where = `the name ${name} in ${this.object(directory, line)}`;
    const what = one === "g" + (line + 2) ? `a new ${verb === "create" ? "file" : "directory"}, ${one}` : `the file ${this.object(one, line)}`;
    if (verb === "create" || verb === "mkdir") return `make ${where}, for ${what}`;
    return `remove ${where}`;
  }
  attempt(number) {
    const change = this.run.bricks.changes.get(Number(number));
    return `attempt ${number}` + (change === undefined ? "" : ` (${change.words.slice(3).join(" ")})`);
  }
  // What a request asks for.
  asked(words, line) {
    const [verb, about, one] = words;
    const lock = about === "heal" ? `the Heal lock of ${this.object(one.split("[")[0], line)}` : "";
    switch (verb) {
      case "look": return `what copy it has of ${this.object(about, line)}: its kind, its length and its changelog attributes`;
      case "name": return `what ${this.area(about, line)} leads to`;
      case "list": return `for all names of ${this.object(about, line)}`;
      case "read": return `for ${this.range(about, line)}`;
      case "attr": return `for the attribute ${one} of ${this.object(about, line)}`;
      case "attrs": return `for all attributes of ${this.object(about, line)}`;
      case "index": return "for what its index lists: the objects with a number above 0";
      case "lock": return lock !== "" ? `for ${lock}, which keeps other healers away` : `for the lock on ${this.area(about, line)}`;
      case "unlock": return `to let ${lock !== "" ? lock : `the lock on ${this.area(about, line)}`} go`;
      default: return this.step(words, line);
    }
  }
  // What a request changes: a step of a transaction, or of a heal.
  step(words, line) {
    const [verb, about, one, two] = words;
    const object = () => this.object(about.split("[")[0], line);
    switch (verb) {
      case "pre": return `to raise the dirty number of ${object()}, ${one}: the pre-op`;
      case "apply": return `to carry out the operation of ${this.attempt(about)}`;
      case "post": {
        const missed = one === "-" ? "no brick missed it" : `accuse brick${one.length > 1 ? "s" : ""} ${one.replaceAll(",", ", ")}, which missed it`;
        return `to take its dirty number back for ${this.attempt(about)}; ${missed}: the post-op`;
      }
      case "cut": return `to cut its copy of ${object()} to ${one} bytes`;
      case "copy": return `to put in ${this.range(about, line)}, as read in line ${two}`;
      case "put-attrs": return `to take the attributes of ${object()} that were read in line ${two}`;
      case "put-names": return `to take the names of ${object()} that were read in lines ${two.replaceAll(",", ", ")}, merged`;
      case "settle": {
        const against = words.slice(4).map((it, brick) => (it === "0" ? "" : `, ${it} against brick ${brick}`)).join("");
        return `to take numbers back after the heal of ${object()}, ${one}` + (two === undefined ? "" : `: ${two} of dirty${against}`);
      }
      default: return verb;
    }
  }
  answer(line, words, answer) {
    const brick = Number(words[2][1]), who = this.actor(words[1]);
    if (answer.startsWith("held")) return `${answer}: ${this.actor(answer.slice(5))} has a lock in the way`;
    if (answer !== "gone") return `${answer}: ${ANSWERS[answer]}`;
    const status = this.run.status(line);
    const isCut = status.cut.has(`${words[1]} ${brick}`), ended = "it has ended, and this work opens no second one";
    const reason = status.stopped.has(brick) ? "it is stopped" : isCut ? "the link is cut" : ended;
    return `gone: ${ANSWERS.gone}; ${who} has no session with it: ${reason}`;
  }
  // The sentences for a line.
  line(line) {
    const run = this.run, words = run.words(line);
    if (words[1] === "event") return [this.event(words)];
    const who = this.actor(words[1]), Who = who[0].toUpperCase() + who.slice(1);
    if (words[2] === "begin" && words[3] === "heal")
      return [`${Who} heals ${this.object(words[5], line)}, ${words[4]}: from here on what it looks at counts.`];
    if (words[2] === "begin") return [`${Who} begins attempt ${line}: to ${this.change(words.slice(3), line)}.`];
    if (words[2] === "end") return [this.end(Who, words, line)];
    return [`${Who} asks brick ${words[2][1]} ${this.asked(this.requestOf(words), line)}.`, this.told(line, words)];
  }
  requestOf(words) {
    return words.slice(3, answerOf(words).startsWith("held") ? -2 : -1);
  }
  // What a brick answers, and which of its numbers have changed.
  told(line, words) {
    const numbers = this.run.numbers(line).trim(), brick = words[2][1];
    const each = (it) => (it[0] === "d" ? `dirty ${it.slice(1)}` : `${it.split(":")[1]} against brick ${it.split(":")[0]}`);
    const now = numbers === "" ? "" : ` Its numbers now: ${numbers.split(" ").map(each).join(", ")}.`;
    return `Brick ${brick} answers ${this.answer(line, words, answerOf(words))}.${now}`;
  }
  // The sentences for a request and the answers of all bricks, of each the last.
  request(lines) {
    const first = this.run.words(lines[0]), last = new Map(), who = this.actor(first[1]);
    for (const line of lines) last.set(Number(this.run.words(line)[2][1]), line);
    const bricks = [...last.keys()].sort();
    const asked = this.asked(first[3] === "settle" ? first.slice(3, 6) : this.requestOf(first), lines[0]);
    const out = [`${who[0].toUpperCase()}${who.slice(1)} asks brick${bricks.length > 1 ? "s" : ""} ${bricks.join(", ")} ${asked}.`];
    const again = this.run.requests.again.get(lines[0]);
    if (again > 1) out.push(`It asks ${again} times until it is granted.`);
    for (const brick of bricks) out.push(`Line ${last.get(brick)}: b${this.told(last.get(brick), this.run.words(last.get(brick))).slice(1)}`);
    return out;
  }
  event(words) {
    const [kind, one, other] = words.slice(2);
    if (kind === "stop") return `Brick ${one} stops: it keeps what it has, and forgets its locks and sessions.`;
    if (kind === "start") return `Brick ${one} starts.`;
    if (kind === "kill") return `${this.actor(one)[0].toUpperCase() + this.actor(one).slice(1)} is killed.`;
    return `The link between ${this.actor(one)} and brick ${other} is ${kind === "cut" ? "cut" : "joined again"}.`;
  }
  end(Who, words, line) {
    if (words.length > 5 && words[1][0] === "h") {
      const reply = words.slice(5).join(" ");
      return `${Who} ends its heal of ${this.object(words[4], line)}, ${words[3]}: ${reply}. That says: ${HEAL_REPLIES[words[5]]}.`;
    }
    const reply = words.slice(3).join(" ");
    if (words[1][0] === "h") return `${Who} ends its round: ${reply}.`;
    return `${Who} ends the command: ${reply}. That says: ${REPLIES[words[3]] || "carried out"}.`;
  }
}
