// The side of the page: a line in words, and the volume after it with the cause of each number.
"use strict";

const WHAT = ["none", "file", "dir"];
// So many objects without a number are listed at most.
const LISTED = 200;
const VERDICTS = {
  good: "no started brick accuses these copies",
  split: "split-brain: every copy on a started brick is accused",
  short: "too few bricks are started",
  bare: "no started brick has a copy",
};

class Side {
  constructor(run, onLine) {
    this.run = run;
    this.words = new Words(run);
    this.onLine = onLine;
    this.box = document.getElementById("side");
    this.box.addEventListener("click", (event) => {
      const link = event.target.closest("a[data-line]");
      if (link === null) return;
      event.preventDefault();
      onLine(Number(link.dataset.line));
    });
  }
  // A text, with each 'line 12' in it a link.
  linked(kind, className, text) {
    const it = element(kind, className);
    for (const part of text.split(/(lines? [0-9]+(?:, [0-9]+)*|attempt [0-9]+)/)) {
      if (!/^(lines?|attempt) [0-9]/.test(part)) it.append(part);
      else
        for (const piece of part.split(/([0-9]+)/)) {
          const isLine = /^[0-9]+$/.test(piece) && Number(piece) < this.run.length;
          it.append(isLine ? this.link(Number(piece), piece) : piece);
        }
    }
    return it;
  }
  link(line, text) {
    const it = element("a", "", text);
    it.href = "#line=" + line;
    it.dataset.line = String(line);
    return it;
  }
  show(line, row) {
    this.line = line;
    this.showWords(line, row);
    this.showVolume(line);
  }
  // The words for a row, and for the command, heal and round that it is of.
  showWords(line, { work, first, last, isFolded }) {
    const box = document.getElementById("words"), run = this.run;
    const ofRequest = first === last ? "" : `, of a request in lines ${first} to ${last}`;
    const title = work !== null ? `Lines ${first} to ${last}${isFolded ? ", folded" : ""}` : `Line ${line}${ofRequest}`;
    box.replaceChildren(element("h2", "", title));
    let of = work;
    if (work === null) {
      const lines = first === last ? [line] : run.requests.lines(first), most = 10;
      const text = lines.slice(0, most).map((it) => run.line(it)).join("\n") + (lines.length > most ? `\nand ${lines.length - most} more` : "");
      box.append(element("p", "raw", text));
      for (const it of first === last ? this.words.line(line) : this.words.request(lines)) box.append(this.linked("p", "", it));
      const id = run.works.of.items[line];
      of = id < 0 ? null : run.works.list[id];
    }
    for (; of !== null; of = of.inside) box.append(this.work(of, of === work));
  }
  // Which command, heal or round a line is of, with its reply and its requests to each brick.
  work(work, isChosen) {
    const kind = work.who[0] === "c" ? "command" : "round";
    const what = work.isHeal() ? work.what : `${kind} ${work.number} of ${this.words.actor(work.who)} (${work.what})`;
    const end = work.isEnded() ? `its reply ${work.reply}` : work.killed >= 0 ? `not ended: killed in line ${work.killed}` : "not ended";
    const it = element("p", "", isChosen ? "" : "Of: ");
    it.append(`${what}: lines `, this.link(work.first, String(work.first)), " to ", this.link(work.last, String(work.last)), `, ${end}. `);
    const asked = this.run.allBricks.map((brick) => askedOf(this.run, work, brick)).map((text, brick) => (text === "" ? "" : `b${brick} ${text}`));
    it.append(element("small", "", `Requests by brick: ${asked.filter((text) => text !== "").join("  ") || "none"}`));
    return it;
  }
  showVolume(line) {
    const box = document.getElementById("volume"), volume = this.run.volume(line), status = this.run.status(line);
    this.reach = volume.reach;
    box.replaceChildren(element("h2", "", `The volume after line ${line}`));
    const sums = element("p", "sums");
    sums.append(element("span", "reach", "reach" + volume.reach.map((it) => " " + it).join("") + (volume.isShort ? " short" : "")));
    sums.append(element("span", "objects", `objects ${volume.marked.length}`));
    sums.append(element("span", volume.split > 0 ? "split-brain bad" : "split-brain", `split-brain ${volume.split}`));
    box.append(sums);
    const away = [
      ...[...status.stopped].sort().map((it) => `b${it} stopped`),
      ...[...status.cut].map((it) => `${it.replace(" ", "\u2013b")} cut`),
      ...[...status.killed].map((it) => `${it} killed`),
    ];
    if (away.length > 0) box.append(element("p", "", away.join(", ")));
    for (const it of volume.numbered) box.append(this.object(it, status));
    if (volume.numbered.length === 0) box.append(element("p", "faint", "No number is above 0."));
    if (volume.plain.length > 0) box.append(this.others(volume.plain, line));
  }
  title(object) {
    const it = element("h3", "", this.run.objects.names(object, this.line) + " ");
    it.append(element("small", "", `${object.name} \u00b7 `), element("small", "gfid", this.run.objects.gfid(object)));
    return it;
  }
  object(it, status) {
    const box = element("article", "object");
    box.dataset.object = it.object.name;
    box.append(this.title(it.object));
    for (const kind of it.kinds) if (kind.hasAny) box.append(this.kind(it, kind, status));
    return box;
  }
  // A table for a kind: a row for each brick, with what it holds, and its copy.
  kind(it, { kind, isMarked, verdict }, status) {
    const box = element("div", "tables"), table = element("table");
    const isSplit = isMarked && verdict.word === "split";
    const words = [KINDS[kind], verdict.word, ...verdict.good].join(" ");
    const caption = element("caption", isSplit ? "split" : "", isMarked ? words : `${KINDS[kind]} (numbers on stopped bricks alone)`);
    if (isMarked) caption.append(element("small", isSplit ? "bad" : "", VERDICTS[verdict.word]));
    table.append(caption);
    const head = element("tr");
    for (const text of ["holds", "copy", "", "dirty", ...this.run.allBricks.map((brick) => "b" + brick)]) head.append(element("th", "", text));
    table.append(head);
    const cause = element("div", "cause");
    cause.hidden = true;
    cause.setAttribute("role", "status");
    for (const brick of this.run.allBricks) {
      const copy = it.copies[brick], isStopped = status.stopped.has(brick);
      const row = element("tr", isStopped ? "stopped" : ""), name = element("th", "", "b" + brick);
      name.scope = "row";
      row.append(name, this.copy(copy, brick), this.standing(it, kind, brick, verdict, isStopped));
      copy.numbers[kind].forEach((number, i) => row.append(this.number(it.object, kind, brick, i, number, copy.what !== ABSENT, cause)));
      table.append(row);
    }
    box.append(table, cause);
    return box;
  }
  copy(copy, brick) {
    if (copy.what !== FILE) return element("td", "copy", WHAT[copy.what]);
    return element("td", "copy", this.run.bricks.keepsBytes(brick) ? `file ${copy.length}` : "file, no bytes");
  }
  standing(it, kind, brick, verdict, isStopped) {
    const copy = it.copies[brick];
    if (isStopped) return element("td", "is", "stopped");
    if (copy.what === ABSENT) return element("td", "is", "no copy");
    if (kind === 0 && !this.run.bricks.keepsBytes(brick)) return element("td", "is", "arbiter");
    if (verdict.good.includes(brick)) return element("td", "is good", "good");
    const isAccused = this.reach.some((other) => it.copies[other].what !== ABSENT && it.copies[other].numbers[kind][1 + brick] > 0);
    return element("td", isAccused ? "is bad" : "is", isAccused ? "accused" : "");
  }
  number(object, kind, brick, i, number, isThere, cause) {
    const cell = element("td", number === 0 ? "zero" : "", isThere ? (number === 0 ? "0" : undefined) : "\u2013");
    if (i === 1 + brick) cell.classList.add("own");
    if (number === 0) return cell;
    const button = element("button", "", String(number));
    button.setAttribute("aria-expanded", "false");
    button.title = i === 0 ? `why is brick ${brick} dirty?` : `why does brick ${brick} accuse brick ${i - 1}?`;
    button.addEventListener("click", () => this.tell(button, cause, object, kind, brick, i));
    cell.append(button);
    return cell;
  }
  // Shows the cause of a number below its table, or takes it away again.
  tell(button, cause, object, kind, brick, i) {
    const isShown = button.getAttribute("aria-expanded") === "true";
    for (const it of this.box.querySelectorAll("td button")) it.setAttribute("aria-expanded", "false");
    for (const it of this.box.querySelectorAll(".cause")) it.hidden = true;
    if (isShown) return;
    button.setAttribute("aria-expanded", "true");
    if (this.why === undefined || this.why.line !== this.line) this.why = new Why(this.run, this.line);
    const thing = this.why.thing(object.name, KINDS[kind]), what = `${object.name} ${KINDS[kind]}: brick ${brick} `;
    const dirt = () => [what + "is dirty", ...this.why.dirt(thing, brick)];
    const lines = i === 0 ? dirt() : [what + `accuses brick ${i - 1}`, ...this.why.accusations(thing, i - 1, [brick])];
    const few = i === 0 ? "" : (this.why.accused(thing, i - 1)[0] || "").split(": ")[1] || "";
    cause.replaceChildren();
    for (const text of lines) cause.append(this.linked("div", "", text.replace(/^ {4}/, "  ")));
    if (few !== "") cause.append(element("div", "", `  brick ${i - 1} is accused by ${few}`));
    cause.hidden = false;
  }
  // The objects without a number, with the bricks that have them.
  others(plain, line) {
    const box = element("details", "others"), cells = element("table");
    box.open = this.isOthersOpen === true || plain.length <= 3;
    box.addEventListener("toggle", () => (this.isOthersOpen = box.open));
    box.append(element("summary", "", `${plain.length} object${plain.length === 1 ? "" : "s"} without a number`));
    const head = element("tr");
    for (const text of ["path", "name", ...this.run.allBricks.map((brick) => "b" + brick)]) head.append(element("th", "", text));
    cells.append(head);
    for (const object of plain.slice(0, LISTED)) {
      const row = element("tr"), name = element("th", "", this.run.objects.names(object, line)), short = element("td", "copy", object.name);
      name.scope = "row";
      short.title = this.run.objects.gfid(object);
      row.append(name, short);
      for (const brick of this.run.allBricks) row.append(this.copy(this.run.copy(object, brick, line), brick));
      cells.append(row);
    }
    const scroll = element("div", "tables");
    scroll.append(cells);
    box.append(scroll);
    if (plain.length > LISTED) box.append(element("p", "faint", `and ${plain.length - LISTED} more`));
    return box;
  }
}
