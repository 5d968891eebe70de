// What a trace tells of the bricks: its lines, its objects, and what each brick holds after any line of it.
"use strict";

const KINDS = ["data", "metadata", "entry"];
// The places for bricks in a state (a volume has three or five), and the numbers of a copy there: what it is, its
// length, and for each kind its dirty number and what it holds against each brick.
const PLACES = 5;
const NUMBERS = 1 + PLACES;
const FIELDS = 2 + 3 * NUMBERS;
const ABSENT = 0, FILE = 1, DIRECTORY = 2;
const LENGTH = 1;

// A list of whole numbers that grows.
class Ints {
  constructor() {
    this.items = new Int32Array(1024);
    this.length = 0;
  }
  push(value) {
    if (this.length === this.items.length) {
      const more = new Int32Array(2 * this.length);
      more.set(this.items);
      this.items = more;
    }
    this.items[this.length++] = value;
  }
}

// What a page takes from a plan: the volume, its files, and the words of each client's commands and healer's rounds.
function readPlan(text) {
  const plan = { bricks: 3, isArbiter: false, files: 0, said: new Map(), text };
  let who = "";
  for (const line of text.split("\n")) {
    const words = line.split(" ");
    if (words[0] === "volume") {
      plan.isArbiter = words[1] === "arbiter";
      plan.bricks = words[2] === "5" ? 5 : 3;
    } else if (words[0] === "files") plan.files = Number(words[1]) || 0;
    else if (words[0] === "client" || words[0] === "healer") {
      who = words[0][0] + words[1];
      plan.said.set(who, []);
    } else if (/^(fault|at|go|end)$/.test(words[0])) break;
    else if (who !== "") plan.said.get(who).push(line);
  }
  return plan;
}

function answerOf(words) {
  const last = words[words.length - 1];
  return words[words.length - 2] === "held" ? "held " + last : last;
}

// The kind of numbers that a change is on record by.
function kindOf(change) {
  return change === "write" || change === "cut" ? 0 : change === "setattr" ? 1 : 2;
}

// The objects of a run: the name in the trace, the gfid, what it is, and the names that it has had.
class Objects {
  constructor() {
    this.list = [];
    this.known = new Map();
    this.at = new Map();
    this.add("g1", DIRECTORY, "/", -1);
  }
  add(name, what, path, from) {
    const object = { id: this.list.length, name, number: Number(name.slice(1)), isOpening: name[0] === "f", what, paths: [] };
    this.list.push(object);
    this.known.set(name, object);
    this.name(object, path, from);
    return object;
  }
  name(object, path, from) {
    object.paths.push({ path, from, to: Infinity });
  }
  // The object of a name of a trace; an opening file is met where it is first mentioned.
  of(name) {
    return this.known.get(name) || this.add(name, FILE, name[0] === "f" ? "/" + name : name, -1);
  }
  gfid(object) {
    const digits = object.number.toString(16).padStart(12, "0");
    return `00000000-0000-000${object.isOpening ? 1 : 0}-0000-${digits}`;
  }
  compare(one, other) {
    return one.isOpening === other.isOpening ? one.number - other.number : one.isOpening ? 1 : -1;
  }
  // A path that an object has after a line, or the last that it had.
  path(object, line) {
    const begun = object.paths.filter((it) => it.from <= line);
    const held = begun.filter((it) => line < it.to);
    if (held.length > 0) return held[held.length - 1].path;
    return (begun.length > 0 ? begun[begun.length - 1] : object.paths[0]).path;
  }
  // All names that it has after a line, or the last one, which is gone.
  names(object, line) {
    const held = object.paths.filter((it) => it.from <= line && line < it.to).map((it) => it.path);
    return held.length > 0 ? held.join(", ") : `${this.path(object, line)} (removed)`;
  }
  child(directory, name, line) {
    const path = this.path(directory, line);
    return (path === "/" ? "" : path) + "/" + name;
  }
}

// The bricks after each line. Every change of a number, a length or a copy is kept as (line, cell, value), and from
// time to time all cells: so the state after any line is the nearest of these and the changes since.
class Bricks {
  constructor(objects, plan) {
    this.objects = objects;
    this.isArbiter = plan !== null && plan.isArbiter;
    this.opening = new Int32Array(0);
    this.cells = new Int32Array(0);
    this.changes = new Map();
    this.names = Array.from({ length: PLACES }, () => new Map());
    this.reads = new Map();
    this.readsOf = new Map();
    this.firstChange = new Ints();
    this.cellOf = new Ints();
    this.valueOf = new Ints();
    this.marks = [];
    this.sinceMark = 0;
    this.placed = 0;
    this.line = -1;
    for (let i = 0; plan !== null && i < plan.files; i++) objects.of("f" + (i + 1));
  }
  cell(object, brick, field) {
    return (object.id * PLACES + brick) * FIELDS + field;
  }
  // Makes room for the objects that are known by now: the root and opening files were there before all lines.
  room() {
    const used = this.objects.list.length * PLACES * FIELDS;
    if (used > this.cells.length) {
      for (const which of ["opening", "cells"]) {
        const more = new Int32Array(Math.max(used, 2 * this.cells.length));
        more.set(this[which]);
        this[which] = more;
      }
    }
    for (; this.placed < this.objects.list.length; this.placed++) this.place(this.objects.list[this.placed]);
  }
  place(object) {
    for (let brick = 0; brick < PLACES; brick++) {
      const isThere = object.isOpening || object.name === "g1";
      const at = this.cell(object, brick, 0);
      this.cells[at] = this.opening[at] = isThere ? object.what : ABSENT;
      if (object.name === "g1") this.names[brick].set(0, new Map());
      if (object.isOpening && !this.root(brick).has(object.name)) this.root(brick).set(object.name, object);
    }
    if (object.isOpening) this.objects.at.set("g1/" + object.name, object);
  }
  root(brick) {
    return this.names[brick].get(0);
  }
  set(at, value) {
    this.cells[at] = value;
    this.cellOf.push(at);
    this.valueOf.push(value);
    this.sinceMark++;
  }
  // Begins the changes of the next line; before them all cells are kept, if there were as many changes since.
  next() {
    this.room();
    if (this.sinceMark > Math.max(4096, this.cells.length)) {
      this.marks.push({ line: this.line, cells: this.cells.slice(0, this.placed * PLACES * FIELDS) });
      this.sinceMark = 0;
    }
    this.line++;
    this.firstChange.push(this.cellOf.length);
  }
  begin(line, words) {
    const objects = this.objects;
    const [about, name] = words[4].split("/");
    const directory = objects.of(about);
    const change = { line, words, object: directory, kind: kindOf(words[3]), name, made: null };
    if (words[3] === "create" || words[3] === "mkdir") {
      if (!objects.known.has(words[5]) && words[5] === "g" + (line + 2))
        objects.add(words[5], words[3] === "create" ? FILE : DIRECTORY, objects.child(directory, name, line), line);
      else objects.name(objects.of(words[5]), objects.child(directory, name, line), line);
      change.made = objects.of(words[5]);
      objects.at.set(words[4], change.made);
    } else if (words[3] === "unlink" || words[3] === "rmdir") {
      if (!objects.at.has(words[4]) && /^g1\/f[1-9][0-9]*$/.test(words[4])) objects.of(name);
      this.room();
      change.gone = objects.at.get(words[4]) || null;
    }
    this.changes.set(line, change);
    this.room();
    return change;
  }
  holds(object, brick) {
    return this.cells[this.cell(object, brick, 0)] !== ABSENT;
  }
  make(object, brick) {
    if (!this.holds(object, brick)) this.set(this.cell(object, brick, 0), object.what);
  }
  keepsBytes(brick) {
    return !(this.isArbiter && brick === 2);
  }
  write(object, brick, from, count) {
    const at = this.cell(object, brick, LENGTH);
    if (count > 0 && this.keepsBytes(brick) && this.cells[at] < from + count) this.set(at, from + count);
  }
  cut(object, brick, length) {
    const at = this.cell(object, brick, LENGTH);
    if (this.keepsBytes(brick) && this.cells[at] > length) this.set(at, length);
  }
  namesOf(directory, brick) {
    const all = this.names[brick];
    if (!all.has(directory.id)) all.set(directory.id, new Map());
    return all.get(directory.id);
  }
  apply(change, brick) {
    const words = change.words;
    if (!this.holds(change.object, brick)) return;
    if (words[3] === "write") this.write(change.object, brick, Number(words[5]), Number(words[6]));
    else if (words[3] === "cut") this.cut(change.object, brick, Number(words[5]));
    else if (change.made !== null) {
      this.namesOf(change.object, brick).set(change.name, change.made);
      this.make(change.made, brick);
    } else if (words[3] !== "setattr") this.namesOf(change.object, brick).delete(change.name);
  }
  // A request that the brick has carried out.
  took(line, who, brick, words) {
    const verb = words[3];
    if (verb === "apply" || verb === "post") {
      const change = this.changes.get(Number(words[4]));
      if (change === undefined) return;
      if (verb === "apply") this.apply(change, brick);
      else this.post(change, brick, words[5]);
      return;
    }
    const name = words[4].split("[")[0];
    const object = this.objects.of(name);
    this.room();
    if (!this.holds(object, brick)) return;
    if (verb === "pre") {
      const at = this.cell(object, brick, 2 + NUMBERS * KINDS.indexOf(words[5]));
      this.set(at, this.cells[at] + 1);
    } else if (verb === "settle") this.settle(object, brick, words);
    else if (verb === "cut") this.cut(object, brick, Number(words[5]));
    else if (verb === "copy") this.copy(object, brick, words);
    else if (verb === "put-names") this.putNames(object, brick, words[6].split(","));
    else if ((verb === "read" || verb === "list") && who[0] === "h") this.read(line, who, object, brick, words);
  }
  post(change, brick, missed) {
    if (!this.holds(change.object, brick)) return;
    const at = this.cell(change.object, brick, 2 + NUMBERS * change.kind);
    this.set(at, this.cells[at] - 1);
    if (missed === "-") return;
    for (const accused of missed.split(",")) this.set(at + 1 + Number(accused), this.cells[at + 1 + Number(accused)] + 1);
  }
  settle(object, brick, words) {
    const at = this.cell(object, brick, 2 + NUMBERS * KINDS.indexOf(words[5]));
    for (let i = 6; i < words.length - 1; i++)
      if (Number(words[i]) > 0) this.set(at + i - 6, this.cells[at + i - 6] - Number(words[i]));
  }
  // What a healer reads is put on the other bricks later on: of bytes their number counts here, of names all.
  read(line, who, object, brick, words) {
    if (!this.readsOf.has(who)) this.readsOf.set(who, []);
    this.readsOf.get(who).push(line);
    if (words[3] === "list") this.reads.set(line, new Map(this.namesOf(object, brick)));
    else {
      const [from, end] = words[4].split("[")[1].split(",").map((it) => parseInt(it, 10));
      this.reads.set(line, Math.max(0, Math.min(end, this.cells[this.cell(object, brick, LENGTH)]) - from));
    }
  }
  forgetReads(who) {
    for (const line of this.readsOf.get(who) || []) this.reads.delete(line);
    this.readsOf.delete(who);
  }
  copy(object, brick, words) {
    this.write(object, brick, parseInt(words[4].split("[")[1], 10), this.reads.get(Number(words[6])) || 0);
  }
  putNames(directory, brick, reads) {
    const merged = new Map();
    for (const line of reads)
      for (const [name, object] of this.reads.get(Number(line)) || [])
        if (!merged.has(name) || this.objects.compare(merged.get(name), object) < 0) merged.set(name, object);
    this.names[brick].set(directory.id, merged);
    for (const object of merged.values()) this.make(object, brick);
  }
  // All cells after a line.
  after(line) {
    if (this.shown === undefined) {
      this.shown = new Int32Array(this.cells.length);
      this.shownLine = Infinity;
    }
    let mark = { line: -1, cells: this.opening };
    for (const it of this.marks) if (it.line <= line) mark = it;
    if (line < this.shownLine || this.shownLine < mark.line) {
      this.shown.set(this.opening);
      this.shown.set(mark.cells);
      this.shownLine = mark.line;
    }
    const to = this.changeAt(line + 1);
    for (let i = this.changeAt(this.shownLine + 1); i < to; i++) this.shown[this.cellOf.items[i]] = this.valueOf.items[i];
    this.shownLine = line;
    return this.shown;
  }
  // The first change of a line among all changes.
  changeAt(line) {
    return line < this.firstChange.length ? this.firstChange.items[line] : this.cellOf.length;
  }
}
