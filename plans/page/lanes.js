// The rows of a run: which there are, and each as lanes for actors and bricks. A row is a line, a request, or the
// head of a command, heal or round. Rows are made as they come into view.
"use strict";

const ROW = 20;
// About the width of a letter in a row.
const LETTER = 7.3;
// Above this height browsers lose count, so a longer list scrolls by a scale.
const TALLEST = 8000000;

function element(kind, className, text) {
  const it = document.createElement(kind);
  if (className) it.className = className;
  if (text !== undefined) it.textContent = text;
  return it;
}

// Words of at most so many letters.
function shorten(text, most) {
  return text.length > most ? text.slice(0, most - 2) + ".." : text;
}

// Which rows there are: lines and requests by their first line, works by -1 and below.
class RowList {
  constructor(run) {
    this.run = run;
    this.mode = "lines";
    this.folded = new Set();
    this.only = null;
    this.heads = new Map();
    for (const work of run.works.list) {
      if (!this.heads.has(work.first)) this.heads.set(work.first, []);
      this.heads.get(work.first).push(work);
    }
    this.build();
  }
  isHidden(work) {
    return work !== null && (this.folded.has(work.id) || this.isHidden(work.inside));
  }
  workOf(line) {
    const id = this.run.works.of.items[line];
    return id < 0 ? null : this.run.works.list[id];
  }
  build() {
    this.rows = new Ints();
    const isRequests = this.mode === "requests";
    if (this.only !== null) {
      const seen = new Set();
      for (const line of this.only) {
        const row = isRequests ? this.run.requests.first.items[line] : line;
        if (!seen.has(row)) this.rows.push(row);
        seen.add(row);
      }
      this.rows.items.subarray(0, this.rows.length).sort();
      return;
    }
    for (let line = 0; line < this.run.length; line++) {
      for (const work of this.heads.get(line) || []) if (!this.isHidden(work.inside)) this.rows.push(-1 - work.id);
      if (isRequests && this.run.requests.first.items[line] !== line) continue;
      if (!this.isHidden(this.workOf(line))) this.rows.push(line);
    }
  }
  get length() {
    return this.rows.length;
  }
  // A row: its work, where it is the head of one, and its first and last line.
  row(at) {
    const code = this.rows.items[at];
    if (code < 0) {
      const work = this.run.works.list[-1 - code];
      return { work, first: work.first, last: work.last, isFolded: this.folded.has(work.id) };
    }
    return { work: null, first: code, last: this.mode === "requests" ? this.run.requests.lastLine(code) : code };
  }
  // The line that a row stands for: what a request or a folded work has done is seen after its last line.
  lineOf(at) {
    const row = this.row(at);
    return row.work !== null && !row.isFolded ? row.first : row.last;
  }
  firstOf(at) {
    const code = this.rows.items[at];
    return code < 0 ? this.run.works.list[-1 - code].first : code;
  }
  // The row of a line, or of the folded work that it is in, or the last row before it.
  rowOf(line) {
    let first = this.mode === "requests" ? this.run.requests.first.items[line] : line;
    if (this.only === null)
      for (let work = this.workOf(first); work !== null; work = work.inside) if (this.folded.has(work.id)) first = work.first;
    let low = 0, high = this.length - 1;
    while (low < high) {
      const middle = (low + high + 1) >> 1;
      if (this.firstOf(middle) <= first) low = middle;
      else high = middle - 1;
    }
    return Math.max(0, low);
  }
  // The row of a work's head.
  headOf(work) {
    let at = this.rowOf(work.first);
    while (at > 0 && this.rows.items[at] !== -1 - work.id && this.firstOf(at - 1) === work.first) at--;
    return at;
  }
  foldAll(isFolded) {
    this.folded = new Set(isFolded ? this.run.works.list.map((it) => it.id) : []);
    this.build();
  }
  fold(work, isFolded) {
    if (isFolded) this.folded.add(work.id);
    else this.folded.delete(work.id);
    this.build();
  }
}

// Where the lanes are. With many actors they are narrow; what doesn't fit then is scrolled.
class Places {
  constructor(run, width, mode) {
    const actors = run.names.length, bricks = run.count;
    const digits = Math.max(3, String(run.length).length);
    this.left = 8 * digits + 16;
    const brickWidth = mode === "requests" ? 104 : 74;
    const least = mode === "requests" ? 92 : 66;
    const fits = (actor, text, brick) => this.left + actors * actor + text + bricks * brick <= width;
    let actor = 58, text = 250, brick = brickWidth;
    while (!fits(actor, text, brick) && actor > 12) actor--;
    while (!fits(actor, text, brick) && brick > least) brick--;
    while (!fits(actor, text, brick) && text > 112) text--;
    while (!fits(actor, text, brick) && actor > 8) actor--;
    this.actorWidth = actor;
    this.brickWidth = brick;
    this.text = this.left + actors * actor;
    this.textWidth = Math.max(text, Math.min(420, width - this.text - bricks * brick));
    this.width = Math.max(width, this.text + this.textWidth + bricks * brick);
    this.end = this.text + this.textWidth + bricks * brick;
    this.indexOf = new Map(run.names.map((it, i) => [it, i]));
  }
  actor(who) {
    return this.left + this.indexOf.get(who) * this.actorWidth + Math.min(10, this.actorWidth / 2);
  }
  brick(brick) {
    return this.text + this.textWidth + brick * this.brickWidth + 10;
  }
}

// Makes the elements of a row.
class Painter {
  constructor(run, list) {
    this.run = run;
    this.list = list;
  }
  isAtWork(who, line) {
    const works = this.run.works.ofActor.get(who) || [];
    let low = 0, high = works.length - 1;
    while (low < high) {
      const middle = (low + high + 1) >> 1;
      if (works[middle].first <= line) low = middle;
      else high = middle - 1;
    }
    return works.length > 0 && works[low].first <= line && line <= works[low].last;
  }
  add(row, className, left, text, width) {
    const it = element("span", className, text);
    it.style.left = left + "px";
    if (width !== undefined) it.style.maxWidth = width + "px";
    row.append(it);
    return it;
  }
  lanes(row, line) {
    const status = this.run.status(line), places = this.places;
    for (const who of this.run.names)
      if (!status.killed.has(who)) this.add(row, this.isAtWork(who, line) ? "lane busy" : "lane", places.actor(who));
    for (const brick of this.run.allBricks) {
      if (status.stopped.has(brick)) continue;
      const cut = [...status.cut].filter((it) => it.endsWith(" " + brick)).map((it) => it.split(" ")[0]);
      this.add(row, cut.length > 0 ? "lane cut" : "lane", places.brick(brick)).title = cut.length > 0 ? `cut: ${cut.join(", ")}` : "";
    }
  }
  row(at) {
    const it = this.list.row(at), row = element("div", "row");
    row.setAttribute("role", "treeitem");
    row.id = "row" + at;
    row.style.width = this.places.width + "px";
    this.lanes(row, it.first);
    const position = this.add(row, "at", 0, String(it.first));
    position.style.width = this.places.left - 4 + "px";
    if (it.work !== null) this.work(row, it);
    else this.line(row, it);
    return row;
  }
  work(row, { work, isFolded }) {
    row.classList.add("work");
    row.setAttribute("aria-expanded", String(!isFolded));
    row.setAttribute("aria-level", work.isHeal() ? "2" : "1");
    const places = this.places, room = (isFolded ? places.brick(0) - 6 : places.end) - places.text;
    const say = this.add(row, "say", places.text, "", room);
    const name = work.isHeal() ? "  " + work.who : `${work.who} ${work.number}`;
    const end = work.isEnded() ? work.reply : work.killed >= 0 ? "(killed)" : "(not ended)", reply = shorten(end, isFolded ? 16 : 80);
    const left = Math.floor((room - 8) / LETTER) - name.length - reply.length - 6;
    say.append(element("span", "fold", isFolded ? "\u25b8 " : "\u25be "), `${name} ${shorten(work.what, Math.max(6, left))} `);
    say.append(element("span", /^(ok|nothing|settled)/.test(reply) ? "reply" : "reply bad", "\u2192 " + reply));
    say.title = `${name} ${work.what} \u2192 ${end}`;
    if (isFolded) for (const brick of this.run.allBricks) {
      const asked = askedOf(this.run, work, brick);
      if (asked !== "") this.add(row, "told", places.brick(brick) + 6, asked, places.brickWidth - 8).title = `requests ${asked} to brick ${brick}`;
    }
  }
  line(row, { first, last }) {
    const words = this.run.words(first), work = this.list.workOf(first);
    row.setAttribute("aria-level", String(work === null ? 1 : work.isHeal() ? 3 : 2));
    if (words[1] === "event") this.event(row, words);
    else if (words[2] === "begin" || words[2] === "end") this.border(row, words);
    else if (this.list.mode === "requests") this.requests(row, first, words);
    else {
      const answer = answerOf(words), text = words.slice(3, answer.startsWith("held") ? -2 : -1).join(" ");
      this.request(row, words[1], text, [[Number(words[2][1]), answer, ""]]);
    }
    row.setAttribute("aria-label", first === last ? this.run.line(first) : row.textContent);
  }
  event(row, words) {
    const [kind, one, other] = words.slice(2), places = this.places;
    if (kind === "kill") this.add(row, "say event", places.text, `kill ${one}`, places.textWidth);
    else if (kind === "stop" || kind === "start") this.add(row, "told event", places.brick(Number(one)) - 4, kind);
    else this.add(row, "told event", places.brick(Number(other)) - 4, `${kind} ${one}`);
  }
  border(row, words) {
    const places = this.places, wide = places.actorWidth >= 46;
    this.add(row, "told event", places.actor(words[1]) - 6, wide ? words[2] : words[2][0]).title = `${words[1]} ${words[2]}`;
    const isBad = words[2] === "end" && !/ end (ok|\S+ \S+ (nothing|settled))\b/.test(" " + words.slice(1).join(" "));
    this.add(row, isBad ? "told bad" : "say", places.text, (wide ? "" : words[2] + " ") + words.slice(3).join(" "), places.end - places.text);
  }
  requests(row, first, words) {
    const told = [], again = this.run.requests.again.get(first);
    for (const line of this.run.requests.lines(first)) {
      const each = this.run.words(line);
      told[Number(each[2][1])] = [Number(each[2][1]), answerOf(each), this.run.numbers(line)];
    }
    this.request(row, words[1], this.run.keyOf(this.run.line(first), words), told.filter((it) => it), again ? ` (x${again})` : "");
  }
  // A request: an arrow from its actor to each brick that was asked, with the answers at the heads.
  request(row, who, text, told, again = "") {
    const places = this.places, from = places.actor(who);
    const arrow = this.add(row, "arrow", from);
    arrow.style.width = places.brick(told[told.length - 1][0]) - 4 - from + "px";
    this.add(row, "dot", from, "").title = who;
    this.add(row, "say", places.text + 4, text + again, places.textWidth - 22).title = text + again;
    for (const [brick, answer, numbers] of told) {
      const isBad = /^(gone|lost|failed|absent)$/.test(answer), at = places.brick(brick);
      this.add(row, "tip", at, answer === "gone" || answer === "failed" ? "\u00d7" : answer === "lost" ? "\u25b7" : "\u25b6");
      this.add(row, isBad ? "told bad" : "told", at + 2, answer + numbers, places.brickWidth - 6).title = answer + numbers;
    }
  }
}

// The requests of a work to a brick; those of a round are those of its heals.
function askedOf(run, work, brick) {
  if (work.who[0] === "c" || work.isHeal()) return work.asked(brick);
  if (work.heals === undefined) work.heals = run.works.list.filter((it) => it.inside === work);
  const low = work.heals.map((it) => it.low[brick]).filter((it) => it !== undefined);
  return low.length === 0 ? "" : `${Math.min(...low)}-${Math.max(...work.heals.map((it) => it.high[brick] || 0))}`;
}

// The rows in view, in a box that scrolls.
class Lanes {
  constructor(run, list, onChoose, onFold) {
    Object.assign(this, { run, list, onChoose, onFold, chosen: 0, made: new Map() });
    this.painter = new Painter(run, list);
    this.box = document.getElementById("scroll");
    this.space = document.getElementById("space");
    this.head = document.getElementById("head");
    this.box.addEventListener("scroll", () => this.soon());
    this.space.addEventListener("click", (event) => this.clicked(event));
    new ResizeObserver(() => this.layOut()).observe(this.box);
  }
  clicked(event) {
    const row = event.target.closest(".row");
    if (row === null) return;
    const at = Number(row.id.slice(3)), work = this.list.row(at).work;
    if (work !== null && event.target.classList.contains("fold")) this.onFold(work, !this.list.folded.has(work.id));
    else this.onChoose(at);
  }
  soon() {
    if (this.isDue) return;
    this.isDue = true;
    requestAnimationFrame(() => {
      this.isDue = false;
      this.draw();
    });
  }
  // Places all lanes anew: the rows, or the room for them, are others.
  layOut() {
    const places = (this.places = this.painter.places = new Places(this.run, this.box.clientWidth, this.list.mode));
    const isNarrow = places.actorWidth < 30;
    this.head.className = isNarrow ? "narrow" : "";
    this.head.style.height = (isNarrow ? 46 : 22) + "px";
    this.head.style.width = places.width + "px";
    this.head.replaceChildren();
    for (const who of this.run.names) this.painter.add(this.head, "actor", places.actor(who), who);
    for (const brick of this.run.allBricks) this.painter.add(this.head, "brick", places.brick(brick), "b" + brick);
    this.tall = this.list.length * ROW;
    this.space.style.height = Math.min(this.tall, TALLEST) + "px";
    this.space.style.width = places.width + "px";
    this.space.replaceChildren();
    this.made.clear();
    this.draw();
  }
  room() {
    return Math.max(ROW, this.box.clientHeight - this.head.offsetHeight);
  }
  // How far the rows have gone up, in a list as tall as all of them.
  gone() {
    const most = Math.min(this.tall, TALLEST) - this.room();
    return this.tall <= TALLEST || most <= 0 ? this.box.scrollTop : (this.box.scrollTop / most) * (this.tall - this.room());
  }
  draw() {
    if (this.isPrinting) return;
    const gone = this.gone(), shift = this.box.scrollTop - gone;
    this.show(Math.floor(gone / ROW) - 5, Math.ceil((gone + this.room()) / ROW) + 5, shift);
  }
  // Has the rows from one to before another, and no others.
  show(from, to, shift) {
    from = Math.max(0, from);
    to = Math.min(this.list.length, to);
    for (const [at, row] of this.made)
      if (at < from || at >= to) {
        row.remove();
        this.made.delete(at);
      }
    for (let at = from; at < to; at++) {
      let row = this.made.get(at);
      if (row === undefined) {
        row = this.painter.row(at);
        this.made.set(at, row);
        this.space.append(row);
      }
      row.style.top = at * ROW + shift + "px";
      row.classList.toggle("chosen", at === this.chosen);
      row.setAttribute("aria-selected", String(at === this.chosen));
    }
  }
  // Marks a row, and brings it into view.
  choose(at) {
    this.chosen = at;
    const gone = this.gone(), top = at * ROW, room = this.room();
    if (top < gone + ROW || top + 2 * ROW > gone + room) {
      const wanted = Math.max(0, Math.min(this.tall - room, top < gone + ROW && top > gone - room ? top - ROW : top - room / 2));
      const most = Math.min(this.tall, TALLEST) - room;
      this.box.scrollTop = this.tall <= TALLEST ? wanted : (wanted / (this.tall - room)) * most;
    }
    this.draw();
    this.box.setAttribute("aria-activedescendant", "row" + at);
  }
  // On paper all rows stand, or those about the chosen one where there are too many.
  print(isPrinting) {
    this.isPrinting = isPrinting;
    if (!isPrinting) {
      this.layOut();
      return "";
    }
    const most = 2000, from = this.list.length <= most ? 0 : Math.max(0, this.chosen - most / 2);
    const to = Math.min(this.list.length, from + most);
    this.space.replaceChildren();
    this.made.clear();
    this.space.style.height = (to - from) * ROW + "px";
    this.show(from, to, -from * ROW);
    return to - from < this.list.length ? `printed: ${to - from} of ${this.list.length} rows, about the chosen line` : "";
  }
}
