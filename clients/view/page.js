"use strict";

// The page's parts, from what nvq-view put into it: the model of what is shown, its rows, its drawing, and what the reader does.
(() => {
  const page = JSON.parse(document.getElementById("data").textContent);
  const isTrace = page.kind !== "record";
  const BLOCK = page.namespace.block;
  const byId = (id) => document.getElementById(id);

  // Of each kind of command: its letter, its name and its color.
  const KINDS = {
    write: ["W", "Write", "--write"],
    zeroes: ["Z", "Write Zeroes", "--zeroes"],
    uncorrectable: ["U", "Write Uncorrectable", "--mark"],
    pair: ["P", "Compare and Write", "--pair"],
    dataset: ["D", "Dataset Management", "--deallocate"],
    read: ["R", "Read", "--read"],
    compare: ["C", "Compare", "--compare"],
    other: ["O", "other command", "--other"],
  };
  const LOOKS = new Set(["read", "compare"]);

  // ---- runs of bytes ----

  /** Runs as a list of counts and bytes. */
  function listOf(text) {
    return text.split(",").map((run) => {
      const [count, byte] = run.split("*");
      return [Number(count), byte];
    });
  }

  /** The runs of the block of this number in these runs, in one spelling. */
  function blockOf(place, number) {
    let skip = number * BLOCK;
    let left = BLOCK;
    const found = [];
    for (const [count, byte] of listOf(page.runs[place])) {
      const passed = Math.min(skip, count);
      skip -= passed;
      const taken = Math.min(left, count - passed);
      if (taken > 0) {
        const last = found[found.length - 1];
        if (last && last[1] === byte) {
          last[0] += taken;
        } else {
          found.push([taken, byte]);
        }
        left -= taken;
      }
      if (left === 0) {
        break;
      }
    }
    return found.map(([count, byte]) => `${count}*${byte}`).join(",");
  }

  const ZEROES = `${BLOCK}*00`;

  /** Text with its runs in place of their numbers. */
  function spelled(text) {
    return text.replace(/#(\d+)/g, (_, place) => page.runs[place]);
  }

  const grouping = (number) => number.toLocaleString("en-US");
  const many = (number, noun) => `${grouping(number)} ${noun}${number === 1 ? "" : "s"}`;

  /** A line with its long runs cut, and said so. */
  function brief(line) {
    return line.replace(/\S{64,}/g, (word) => `${word.slice(0, 40)}… (${word.length} letters)`);
  }

  function shortened(text, most) {
    return text.length > most ? `${text.slice(0, most)}… (${text.length} letters)` : text;
  }

  // ---- commands ----

  function parsed(text) {
    const [name, ...words] = text.split(" ");
    if (name === "dataset") {
      const ranges = words[0].split(",").map((it) => it.split("+").map(Number));
      return { name, ranges, data: null, deallocates: words.includes("deallocate") };
    }
    const data = words[2] && words[2].startsWith("#") ? Number(words[2].slice(1)) : null;
    return { name, ranges: [[Number(words[0]), Number(words[1])]], data };
  }

  /** The number of the unit that has this LBA. */
  function unitOf(lba) {
    const { nabsn, nabo } = page.namespace;
    if (nabsn === 0) {
      return 0;
    }
    if (nabo === 0) {
      return Math.floor(lba / (nabsn + 1));
    }
    return lba < nabo ? 0 : 1 + Math.floor((lba - nabo) / (nabsn + 1));
  }

  function firstOf(unit) {
    const { nabsn, nabo } = page.namespace;
    return unit === 0 || nabsn === 0 ? 0 : nabo === 0 ? unit * (nabsn + 1) : nabo + (unit - 1) * (nabsn + 1);
  }

  class Command {
    constructor(told) {
      Object.assign(this, { worker: null, parts: [], statuses: [], data: null, began: null, ended: null }, told);
      this.bodies = this.sent.map((it) => parsed(it.command));
      const { name } = this.bodies[0];
      this.kind = this.sent.length === 2 ? "pair" : name in KINDS ? name : "other";
      this.ranges = this.bodies[0].ranges;
      this.cids = this.sent.map((it) => it.cid);
      this.isNamed = false;
      this.isRed = false;
    }

    get status() {
      return this.statuses.join(" ") || (isTrace ? "no reply" : "not done");
    }

    get failed() {
      return this.statuses.some((it) => it !== "0/00");
    }

    get short() {
      const ranges = this.ranges.map(([lba, blocks]) => `${lba}+${blocks}`);
      return ranges.length > 3 ? `${ranges.slice(0, 3).join(",")},…` : ranges.join(",");
    }

    get words() {
      return this.sent.map((it) => spelled(it.command)).join(" + ");
    }

    /** Whether it is about the LBA. */
    has(lba) {
      return this.ranges.some(([first, blocks]) => lba >= first && lba < first + blocks);
    }

    isIn(unit) {
      return this.ranges.some(([first, blocks]) => blocks > 0 && unitOf(first) <= unit && unit <= unitOf(first + blocks - 1));
    }

    get title() {
      return `${KINDS[this.kind][1]} ${this.short}`;
    }

    /** Whether it can have changed the block at this LBA: a Compare that failed changes nothing. */
    changes(lba) {
      return !LOOKS.has(this.kind) && this.kind !== "other" && this.bodies[0].deallocates !== false && !this.statuses.includes("2/85") && this.has(lba);
    }

    /** What it found in the block at this LBA, where it says so. */
    finds(lba) {
      const isEqual = (this.kind === "compare" || this.kind === "pair") && this.statuses[0] === "0/00";
      const place = this.kind === "read" ? this.data : isEqual ? this.bodies[0].data : null;
      return place === null || !this.has(lba) ? null : blockOf(place, lba - this.ranges[0][0]);
    }

    /** What it puts in the block at this LBA, if it changes it. */
    puts(lba) {
      const body = this.bodies[this.bodies.length - 1];
      if (this.kind === "uncorrectable") {
        return "a mark";
      }
      return body.data === null ? ZEROES : blockOf(body.data, lba - body.ranges[0][0]);
    }

    /** What it found in the block and put there, in words; nothing where it did neither. */
    deedAt(lba) {
      const found = this.finds(lba);
      const deeds = found === null ? [] : [`found ${brief(found)}`];
      if (this.statuses[0] === "2/85" && this.has(lba)) {
        deeds.push(`failed to compare ${brief(blockOf(this.bodies[0].data, lba - this.ranges[0][0]))}`);
      }
      if (this.changes(lba)) {
        const isSure = this.statuses.length > 0 && !this.failed && this.kind !== "dataset";
        deeds.push(`${isSure ? "put" : "may have put"} ${this.kind === "dataset" ? "what a deallocated block reads as" : brief(this.puts(lba))}`);
      }
      return deeds.length ? `job ${this.job} (${this.title}) ${deeds.join(" and ")}` : "";
    }
  }

  const commands = page.commands.map((it) => new Command(it));
  const entries = new Map(); // by unit, by place
  for (const it of page.entries || []) {
    if (!entries.has(it.unit)) {
      entries.set(it.unit, []);
    }
    entries.get(it.unit)[it.place] = it;
  }
  for (const job of page.named || []) {
    commands[job].isNamed = true;
  }
  if (page.fault && commands[page.fault.job]) {
    commands[page.fault.job].isNamed = true;
  }

  /** To which command of the trace a job of the record belongs: its pieces come one after the other. */
  function ownersOfPieces() {
    const size = (ranges) => ranges.reduce((sum, [, blocks]) => sum + blocks, 0);
    const owners = [];
    for (const command of commands) {
      const all = size(command.ranges);
      let got = 0;
      do {
        const piece = page.pieces[owners.length];
        if (!piece) {
          break;
        }
        got += size(parsed(piece.sent[0].command).ranges);
        owners.push(command);
      } while (got < all);
    }
    return owners;
  }

  const owners = page.kind === "explained" ? ownersOfPieces() : commands;

  const compareTimes = (one, other) => one.length - other.length || (one < other ? -1 : one > other ? 1 : 0);

  // ---- the facts of a contradiction ----

  /** The fewest facts that lead from the point of the conclusion back to itself: at one block, or by times. */
  function circleOf() {
    const start = page.conclusion.from;
    const goesOn = (one, other) => one.to === other.from && (one.lba === other.lba || !("lba" in one && "lba" in other) || !LOOKS.has(commands[other.before].kind));
    const ways = page.facts.filter((it) => start && it.from === start).map((it) => [it]);
    const seen = new Set(ways.map((way) => way[0]));
    for (const way of ways) {
      const last = way[way.length - 1];
      if (last.to === start) {
        return way;
      }
      for (const next of page.facts.filter((it) => it.from && !seen.has(it) && goesOn(last, it))) {
        seen.add(next);
        ways.push([...way, next]);
      }
    }
    return [];
  }

  if (page.kind === "contradiction") {
    const circle = circleOf();
    circle.forEach((fact) => (fact.isRed = true));
    [page.conclusion.reader, ...circle.flatMap((it) => [it.before, it.after])].filter((it) => it in commands).forEach((job) => (commands[job].isRed = true));
  }

  // ---- rows ----
  // A row has items that don't overlap, by where they begin. An item has its command, where it begins and ends, and what it is.

  const LANE = 30;
  let rows = [];
  let arrows = [];
  let width = 1;
  let axis = () => "";

  function rowOf(label, kind, extra) {
    return { label, kind, items: [], y: 0, ...extra };
  }

  /** The steps of a record in one order, in which workers' steps and units' histories keep theirs as far as they agree. */
  function orderedSteps() {
    const looksAt = new Map();
    const queues = [];
    const taken = new Set();
    page.done.forEach((done) => {
      queues[done.worker] = queues[done.worker] || [];
      const queue = queues[done.worker];
      const parts = done.parts.length ? done.parts : [null];
      for (const part of parts) {
        const step = { done, part, job: done.job, entry: null, x: 0 };
        if (part) {
          const entry = (entries.get(part.unit) || [])[part.point];
          if (part.result === "done" && entry && entry.job === done.job && entry.worker === done.worker) {
            step.entry = entry;
            taken.add(entry);
          } else {
            const at = `${part.unit} ${part.point}`;
            looksAt.set(at, (looksAt.get(at) || 0) + 1);
          }
        }
        queue.push(step);
      }
    });
    const heads = queues.map(() => 0);
    const counts = new Map();
    const isReady = (step) => {
      if (!step.part) {
        return true;
      }
      const count = counts.get(step.part.unit) || 0;
      return step.entry ? count === step.entry.place && !looksAt.get(`${step.part.unit} ${count}`) : count >= step.part.point;
    };
    const ordered = [];
    const take = (worker) => {
      const step = queues[worker][heads[worker]++];
      step.x = ordered.length;
      ordered.push(step);
      if (step.entry) {
        counts.set(step.part.unit, step.entry.place + 1);
      } else if (step.part) {
        const at = `${step.part.unit} ${step.part.point}`;
        looksAt.set(at, looksAt.get(at) - 1);
      }
    };
    for (;;) {
      let best = -1;
      let waiting = -1;
      queues.forEach((queue, worker) => {
        if (heads[worker] < queue.length) {
          waiting = waiting < 0 || heads[worker] < heads[waiting] ? worker : waiting;
          if (isReady(queue[heads[worker]]) && (best < 0 || heads[worker] < heads[best])) {
            best = worker;
          }
        }
      });
      if (waiting < 0) {
        break;
      }
      take(best < 0 ? waiting : best);
    }
    for (const history of entries.values()) {
      for (const entry of history) {
        if (entry && !taken.has(entry)) {
          ordered.push({ done: null, part: null, job: entry.job, entry, x: ordered.length, alone: true });
        }
      }
    }
    return ordered;
  }

  /** Of a record: a lane for each worker and a row for each unit, in which a column is a step. */
  function rowsOfRecord() {
    const steps = orderedSteps();
    const workers = new Map();
    const units = new Map();
    const isFaulty = ({ fault }, unit, place, job) => Boolean(fault) && fault.job === job && (fault.unit === null || fault.unit === undefined || (fault.unit === unit && fault.place === place));
    let last = null;
    for (const step of steps) {
      const command = commands[step.job] || null;
      if (step.done) {
        if (!workers.has(step.done.worker)) {
          workers.set(step.done.worker, rowOf(`worker ${step.done.worker}`, "worker"));
        }
        const lane = workers.get(step.done.worker);
        last = lane.items[lane.items.length - 1];
        if (last && last.done === step.done) {
          last.x1 = step.x + 0.9;
        } else {
          lane.items.push({ command, job: step.job, done: step.done, x0: step.x, x1: step.x + 0.9, look: false });
        }
      }
      const unit = step.part ? step.part.unit : step.entry ? step.entry.unit : null;
      if (unit !== null) {
        const place = step.part ? step.part.point : step.entry.place;
        if (!units.has(unit)) {
          units.set(unit, rowOf(`unit ${unit} LBA ${firstOf(unit)}`, "unit", { unit }));
        }
        const item = { command, job: step.job, x0: step.x, x1: step.x + 0.9, entry: step.entry, part: step.part, look: !step.entry };
        item.bad = isFaulty(page, unit, place, step.job);
        item.last = Boolean(page.change && step.entry && page.change.unit === unit && page.change.place === place);
        units.get(unit).items.push(item);
        if (item.bad) {
          units.get(unit).bad = true;
        }
      }
    }
    for (const unit of entries.keys()) {
      if (!units.has(unit)) {
        units.set(unit, rowOf(`unit ${unit} LBA ${firstOf(unit)}`, "unit", { unit }));
      }
    }
    const sorted = (map) => [...map.keys()].sort((one, other) => one - other).map((key) => map.get(key));
    for (const row of units.values()) {
      row.items.sort((one, other) => one.x0 - other.x0);
    }
    width = Math.max(steps.length, 1);
    axis = (x) => (Number.isInteger(x) && x < width ? `step ${x}` : "");
    rows = [...sorted(workers), ...sorted(units)];
    arrows = [];
  }

  /** Where times lie: at their rank among those of these commands, or true to scale. */
  function scaleOf(shown, isClock) {
    const times = [...new Set(shown.flatMap((it) => (it.ended === null ? [it.began] : [it.began, it.ended])))].sort(compareTimes);
    if (isClock) {
      const first = BigInt(times[0] || "0");
      const span = Number(BigInt(times[times.length - 1] || "1") - first) || 1;
      const units = Math.max(times.length, 1);
      return { at: (time) => (Number(BigInt(time) - first) / span) * units, end: units, text: (x) => String(first + BigInt(Math.round((x / units) * span))), gap: 0 };
    }
    const ranks = new Map(times.map((it, place) => [it, place]));
    return { at: (time) => ranks.get(time), end: times.length, text: (x) => (Number.isInteger(x) ? times[x] || "" : ""), gap: 0.85 };
  }

  const isShown = (command) => byId("only").value !== "named" || command.isNamed;

  /** Of a trace: lanes by host, as many as it has commands under way together, and where it is explained the units' orders. */
  function rowsOfTrace() {
    const shown = commands.filter(isShown);
    const scale = scaleOf(shown, byId("clock").checked);
    const hosts = new Map();
    for (const command of [...shown].sort((one, other) => compareTimes(one.began, other.began) || one.job - other.job)) {
      const x0 = scale.at(command.began);
      const x1 = command.ended === null ? scale.end + 0.5 : scale.at(command.ended) + scale.gap;
      if (!hosts.has(command.host)) {
        hosts.set(command.host, []);
      }
      const lanes = hosts.get(command.host);
      let lane = lanes.find((it) => it.items[it.items.length - 1].x1 <= x0);
      if (!lane) {
        lane = rowOf(lanes.length ? "" : `host ${command.host}`, "host");
        lanes.push(lane);
      }
      const item = { command, job: command.job, x0, x1: Math.max(x1, x0), look: false, bad: command.isRed };
      lane.items.push(item);
      command.item = item;
    }
    rows = [...hosts.keys()].sort((one, other) => one - other).flatMap((host) => hosts.get(host));
    width = scale.end + 0.5;
    axis = scale.text;
    arrows = [];
    if (page.kind === "contradiction") {
      arrows = page.facts.flatMap((fact, place) => (fact.from && fact.before !== fact.after ? [{ number: place + 1, from: commands[fact.before], to: commands[fact.after], isRed: fact.isRed }] : []));
    } else {
      rows.push(...unitsOfTrace(page.kind === "ordered" ? stepsOfOrder() : stepsOfRecord(), scale));
    }
  }

  /** Of each unit the points that the order has there, in its order. */
  function stepsOfOrder() {
    const units = new Map();
    page.placed.forEach((placed) => {
      for (let unit = unitOf(placed.lba); unit <= unitOf(placed.lba + Math.max(placed.blocks, 1) - 1); unit += 1) {
        units.set(unit, units.get(unit) || []);
        units.get(unit).push({ command: commands[placed.job], placed, look: !placed.puts });
      }
    });
    return units;
  }

  /** Of each unit the steps that the record has there, in their order. */
  function stepsOfRecord() {
    const units = new Map();
    const looks = new Map();
    const made = new Set();
    for (const done of page.done) {
      for (const part of done.parts) {
        const entry = (entries.get(part.unit) || [])[part.point];
        if (part.result === "done" && entry && entry.job === done.job) {
          made.add(entry);
          continue;
        }
        const of = looks.get(part.unit) || new Map();
        looks.set(part.unit, of);
        of.set(part.point, [...(of.get(part.point) || []), { command: owners[done.job], entry: null, part, look: true }]);
      }
    }
    for (const unit of new Set([...entries.keys(), ...looks.keys()])) {
      const history = entries.get(unit) || [];
      const steps = [];
      for (let place = 0; place <= history.length; place += 1) {
        steps.push(...((looks.get(unit) || new Map()).get(place) || []));
        if (history[place]) {
          steps.push({ command: owners[history[place].job], entry: history[place], part: null, look: false });
        }
      }
      units.set(unit, steps);
    }
    return units;
  }

  /** A row for each unit. A step is drawn where it can be at the earliest: after those before it, and in its command's time. */
  function unitsOfTrace(units, scale) {
    return [...units.keys()].sort((one, other) => one - other).map((unit) => {
      const row = rowOf(`unit ${unit} LBA ${firstOf(unit)}`, "unit", { unit });
      let x = -1;
      for (const step of units.get(unit)) {
        const command = step.command || null;
        x = Math.max(x, command && command.item ? command.item.x0 : -1);
        row.items.push({ ...step, command, job: command ? command.job : null, x0: x, x1: x + 0.16 });
        x += 0.18;
      }
      width = Math.max(width, Math.min(x, scale.end + 2));
      return row;
    });
  }

  function layOut() {
    for (const command of commands) {
      command.item = null;
    }
    if (isTrace) {
      rowsOfTrace();
    } else {
      rowsOfRecord();
    }
    // Arrows want room between lanes.
    const room = arrows.length ? 40 : 0;
    let y = room ? 34 : 0;
    let before = null;
    for (const row of rows) {
      y += before && (before.kind !== row.kind || (row.kind === "host" && row.label)) ? 8 : 0;
      row.y = y;
      y += LANE + room;
      before = row;
    }
    view.height = y;
    for (const row of rows) {
      for (const item of row.items) {
        item.row = row;
        if (item.command && !item.command.item) {
          item.command.item = item;
        }
      }
    }
  }

  // ---- what is in view ----

  const LEFT = 120;
  const TOP = 22;
  const view = { x: 0, k: 40, top: 0, height: 0 };
  let picked = null;
  let matching = null; // the commands that the filters let through, or null for all

  const chart = byId("chart");
  const canvas = byId("canvas");
  let paper = null; // the size of the drawing while the page is printed, and what was in view
  const room = () => paper || ({ w: Math.max(chart.clientWidth - LEFT, 50), h: Math.max(chart.clientHeight - TOP, 30) });

  function keepInside() {
    const { w, h } = room();
    view.k = Math.min(Math.max(view.k, w / (width + 1) / 2), 400);
    view.x = Math.min(Math.max(view.x, -1.2), Math.max(width - (w * 0.3) / view.k, -1.2));
    view.top = Math.min(Math.max(view.top, 0), Math.max(view.height - h * 0.6, 0));
  }

  function zoom(by, at) {
    const x = view.x + at / view.k;
    view.k *= by;
    keepInside();
    view.x = x - at / view.k;
    changed();
  }

  function showAll() {
    view.k = room().w / (width + 1);
    view.x = -0.5;
    view.top = 0;
    changed();
  }

  /** Brings items into view, as large as they fit and can be read. */
  function show(items) {
    const first = Math.min(...items.map((it) => it.x0));
    const last = Math.max(...items.map((it) => it.x1));
    const { w, h } = room();
    view.k = Math.min(Math.max(w / (last - first + 1.5), 24), 110);
    view.x = (first + last) / 2 - w / view.k / 2;
    if ((last - first) * view.k > w) {
      view.x = first - 1;
    }
    const ys = items.map((it) => it.row.y);
    const middle = (Math.min(...ys) + Math.max(...ys) + LANE) / 2;
    view.top = Math.max(...ys) + LANE < h ? 0 : middle - h / 2;
    changed();
  }

  function showVerdict() {
    const bad = rows.flatMap((row) => row.items.filter((it) => it.bad || it.last));
    const named = commands.filter((it) => it.isNamed && it.item).map((it) => it.item);
    const items = page.kind === "contradiction" ? named : bad.length ? bad : named;
    if (items.length) {
      show(items);
    } else {
      // Wide enough for the numbers of a record's jobs.
      view.k = Math.max(room().w / (width + 1), isTrace ? 18 : 26 + 7.5 * String(commands.length).length);
      view.x = -0.5;
      changed();
    }
  }

  function bring(item) {
    const { w, h } = room();
    const x = (item.x0 - view.x) * view.k;
    if (x < 0 || x > w - 40) {
      view.x = item.x0 - w / view.k / 2;
    }
    if (item.row.y < view.top || item.row.y + LANE > view.top + h) {
      view.top = item.row.y - h / 2;
    }
  }

  // ---- drawing: a list of shapes, which the canvas draws and a file keeps ----

  const color = (name) => getComputedStyle(document.documentElement).getPropertyValue(name).trim();

  function firstAt(items, x) {
    let low = 0;
    let high = items.length;
    while (low < high) {
      const middle = (low + high) >> 1;
      if (items[middle].x1 < x) {
        low = middle + 1;
      } else {
        high = middle;
      }
    }
    return low;
  }

  const isDim = (command) => matching !== null && !(command && matching.has(command));

  function textOf(item, w) {
    const { command } = item;
    const letter = item.look && item.part ? { looked: "", failed: "F", "no-memory": "M", full: "L", done: "!" }[item.part.result] || KINDS[command ? command.kind : "other"][0] : KINDS[command ? command.kind : "other"][0];
    const texts = [letter];
    if (command) {
      texts.push(`${letter} ${item.job}`, `${letter} ${item.job}  ${command.short}`, `${letter} job ${item.job}  ${command.short}  ${command.status}`);
    }
    return texts.filter((it) => it.length * 6.6 + 8 <= w).pop() || "";
  }

  /** The shape of an item: boxes are changes, and looks in units' rows are rounded and open. */
  function shapesOf(item, x, y, w, colors, shapes) {
    const command = item.command;
    const tint = colors[command ? command.kind : "other"];
    const isPicked = picked && command === picked;
    const alpha = isDim(command) ? 0.18 : 1;
    const isOpen = isTrace && command && command.ended === null && item.row.kind === "host";
    const look = item.row.kind === "unit" ? item.look : command && LOOKS.has(command.kind);
    shapes.push({ is: "box", x, y: y + 4, w: Math.max(w, 1.5), h: LANE - 8, fill: look ? colors.back : tint, edge: tint, alpha, round: look ? 8 : 2, wide: 1.5, dash: isOpen ? "4 3" : "" });
    if (isPicked) {
      shapes.push({ is: "box", x: x - 2, y: y + 2, w: Math.max(w, 1.5) + 4, h: LANE - 4, fill: "", edge: colors.pick, alpha: 1, round: 4, wide: 2, dash: "" });
    }
    if (item.bad || item.last || (command && command.isRed && item.row.kind !== "unit")) {
      shapes.push({ is: "box", x: x - 4, y, w: Math.max(w, 1.5) + 8, h: LANE, fill: "", edge: item.last && !item.bad ? colors.last : colors.bad, alpha: 1, round: 5, wide: 2.5, dash: item.last && !item.bad ? "6 3" : "" });
    }
    const text = w >= 12 ? textOf(item, w) : "";
    if (text) {
      shapes.push({ is: "text", x: x + 4, y: y + LANE / 2 + 4, text, fill: look ? colors.text : command && command.kind === "zeroes" ? "#16171a" : colors.back, alpha, weight: command && command.failed ? "700" : "400" });
    }
    if (command && command.failed && w >= 26 && item.row.kind !== "unit") {
      shapes.push({ is: "line", x: x + w - 9, y: y + 8, x2: x + w - 3, y2: y + 14, edge: look ? tint : colors.back, wide: 1.5, alpha }, { is: "line", x: x + w - 3, y: y + 8, x2: x + w - 9, y2: y + 14, edge: look ? tint : colors.back, wide: 1.5, alpha });
    }
  }

  function shapesOfRow(row, y, w, colors, shapes) {
    const from = view.x;
    const to = view.x + w / view.k;
    let drawn = -2;
    let hidden = 0;
    const earlier = firstAt(row.items, from);
    if (row.items.length && (earlier === row.items.length || row.items[earlier].x0 > to)) {
      const later = row.items.length - earlier;
      const text = [...(earlier ? [`◂ ${grouping(earlier)} earlier`] : []), ...(later ? [`${grouping(later)} later ▸`] : [])].join("   ");
      shapes.push({ is: "text", x: LEFT + 8, y: y + LANE / 2 + 4, text, fill: colors.quiet, alpha: 1, weight: "400" });
      return 0;
    }
    for (let place = earlier; place < row.items.length && row.items[place].x0 <= to; place += 1) {
      const item = row.items[place];
      const x = LEFT + (item.x0 - view.x) * view.k;
      const end = LEFT + (item.x1 - view.x) * view.k;
      const counts = item.bad || item.last || (item.command && (item.command === picked || item.command.isNamed));
      if (end - drawn < 1 && !counts) {
        hidden += 1;
        continue;
      }
      const left = Math.max(x, LEFT - 10);
      shapesOf(item, left, y, Math.min(end, LEFT + w + 10) - left, colors, shapes);
      drawn = Math.max(drawn, end);
    }
    return hidden;
  }

  /** How much of all is in view, and what is too narrow to be drawn there. */
  function seenText(shown, h, w, hidden) {
    const right = view.x + w / view.k;
    const hereOf = ({ items }) => {
      const end = firstAt(items, right);
      return end - firstAt(items, view.x) + (end < items.length && items[end].x0 <= right ? 1 : 0);
    };
    const here = shown.reduce((sum, row) => sum + hereOf(row), 0);
    const all = rows.reduce((sum, { items }) => sum + items.length, 0);
    const left = commands.filter((it) => !isShown(it)).length;
    const full = shown.filter((row) => row.y >= view.top - 4 && row.y + LANE <= view.top + h).length;
    const texts = [`${grouping(full)} of ${many(rows.length, "row")}`, `${grouping(here)} of ${grouping(all)} ${all === 1 ? "box" : "boxes"} in view`];
    if (left > 0) {
      texts.push(`${many(left, "other command")} left out`);
    }
    return [...texts, ...(hidden ? [`${grouping(hidden)} of these too narrow to draw: zoom in`] : [])].join(" · ");
  }

  function shapesOfArrows(colors, shapes) {
    arrows.forEach((arrow, place) => {
      const [one, other] = [arrow.from.item, arrow.to.item];
      if (!one || !other) {
        return;
      }
      const isSame = one.row === other.row;
      const isBack = other.x0 < one.x0; // in one row, back is below and forth above
      const end = (item, isFrom) => {
        const x = LEFT + ((item.x0 + item.x1) / 2 - view.x) * view.k + ((place % 5) - 2) * 9;
        const down = isSame ? isBack : (isFrom ? other : one).row.y > item.row.y;
        return [x, TOP + item.row.y - view.top + (down ? LANE - 3 : 3)];
      };
      const [x, y] = end(one, true);
      const [x2, y2] = end(other, false);
      const edge = arrow.isRed ? colors.bad : colors.quiet;
      const bend = isSame ? (isBack ? 52 : -52) : 0;
      const lean = isSame ? 0 : one.row.y < other.row.y ? 30 : -30; // down and up lie apart
      const middle = [(x + x2) / 2 + lean, (y + y2) / 2 + bend];
      shapes.push({ is: "curve", x, y, cx: middle[0], cy: middle[1], x2, y2, edge, wide: 2, alpha: 1 });
      const angle = Math.atan2(y2 - middle[1], x2 - middle[0]);
      const tip = (turn) => [x2 - 9 * Math.cos(angle + turn), y2 - 9 * Math.sin(angle + turn)];
      shapes.push({ is: "area", points: [[x2, y2], tip(0.4), tip(-0.4)], fill: edge, alpha: 1 });
      // Where a quarter of the curve is behind.
      const at = [0.5625 * x + 0.375 * middle[0] + 0.0625 * x2, 0.5625 * y + 0.375 * middle[1] + 0.0625 * y2];
      const half = 5 + 4 * String(arrow.number).length;
      shapes.push({ is: "box", x: at[0] - half, y: at[1] - 9, w: 2 * half, h: 18, fill: colors.back, edge, alpha: 1, round: 9, wide: 1.5, dash: "" });
      shapes.push({ is: "text", x: at[0] - 4 * String(arrow.number).length, y: at[1] + 4, text: String(arrow.number), fill: edge, alpha: 1, weight: "700" });
    });
  }

  function shapesInView() {
    const { w, h } = room();
    const colors = { back: color("--back"), text: color("--text"), quiet: color("--quiet"), line: color("--line"), band: color("--band"), bad: color("--bad"), last: color("--last"), pick: color("--pick") };
    for (const [kind, [, , name]] of Object.entries(KINDS)) {
      colors[kind] = color(name);
    }
    const shapes = [];
    const shown = rows.filter((row) => row.y + LANE >= view.top && row.y <= view.top + h);
    shown.forEach((row) => {
      const y = TOP + row.y - view.top;
      if (row.kind === "unit" || row.kind === "worker") {
        shapes.push({ is: "box", x: LEFT, y, w, h: LANE, fill: colors.band, edge: "", alpha: 1, round: 0, wide: 0, dash: "" });
      }
      shapes.push({ is: "line", x: LEFT, y: y + LANE, x2: LEFT + w, y2: y + LANE, edge: colors.line, wide: 1, alpha: 0.6 });
    });
    const hidden = shown.reduce((sum, row) => sum + shapesOfRow(row, TOP + row.y - view.top, w, colors, shapes), 0);
    shapesOfArrows(colors, shapes);
    shapes.push({ is: "box", x: 0, y: 0, w: LEFT + w, h: TOP, fill: colors.back, edge: "", alpha: 1, round: 0, wide: 0, dash: "" });
    shapes.push({ is: "box", x: 0, y: 0, w: LEFT - 2, h: TOP + h, fill: colors.back, edge: "", alpha: 1, round: 0, wide: 0, dash: "" });
    const every = Math.max(1, 2 ** Math.ceil(Math.log2(96 / view.k)));
    for (let x = Math.max(Math.ceil(view.x / every) * every, 0); x <= view.x + w / view.k && x <= width; x += every) {
      shapes.push({ is: "text", x: LEFT + (x - view.x) * view.k, y: 15, text: axis(x), fill: colors.quiet, alpha: 1, weight: "400" });
    }
    shapes.push({ is: "text", x: 8, y: 15, text: isTrace ? (byId("clock").checked ? "time" : "time, as ordered") : "", fill: colors.quiet, alpha: 1, weight: "400" });
    shown.forEach((row) => shapes.push({ is: "text", x: 8, y: TOP + row.y - view.top + 19, text: row.label, fill: row.bad ? colors.bad : colors.quiet, alpha: 1, weight: row.bad ? "700" : "400", label: true }));
    return { shapes, w: LEFT + w, h: TOP + h, shown, back: colors.back, seen: seenText(shown, h, w, hidden) };
  }

  function drawOn(context, shape) {
    context.globalAlpha = shape.alpha;
    context.setLineDash(shape.dash ? shape.dash.split(" ").map(Number) : []);
    context.lineWidth = shape.wide || 1;
    context.beginPath();
    if (shape.is === "box") {
      context.roundRect(shape.x, shape.y, Math.max(shape.w, 0.5), shape.h, Math.min(shape.round, shape.w / 2));
    } else if (shape.is === "line") {
      context.moveTo(shape.x, shape.y);
      context.lineTo(shape.x2, shape.y2);
    } else if (shape.is === "curve") {
      context.moveTo(shape.x, shape.y);
      context.quadraticCurveTo(shape.cx, shape.cy, shape.x2, shape.y2);
    } else if (shape.is === "area") {
      shape.points.forEach(([x, y], place) => (place ? context.lineTo(x, y) : context.moveTo(x, y)));
      context.closePath();
    } else {
      context.font = `${shape.weight} 12px system-ui, sans-serif`;
      context.fillStyle = shape.fill;
      context.fillText(shape.text, shape.x, shape.y);
      return;
    }
    if (shape.fill) {
      context.fillStyle = shape.fill;
      context.fill();
    }
    if (shape.edge) {
      context.strokeStyle = shape.edge;
      context.stroke();
    }
  }

  function draw() {
    const ratio = window.devicePixelRatio || 1;
    const { shapes, w, h, shown, seen } = shapesInView();
    byId("seen").textContent = seen;
    if (canvas.width !== Math.round(w * ratio) || canvas.height !== Math.round(h * ratio)) {
      canvas.width = Math.round(w * ratio);
      canvas.height = Math.round(h * ratio);
    }
    const context = canvas.getContext("2d");
    context.setTransform(ratio, 0, 0, ratio, 0, 0);
    context.clearRect(0, 0, w, h);
    for (const shape of shapes) {
      if (!shape.label) {
        drawOn(context, shape);
      }
    }
    byId("labels").replaceChildren(
      ...shown.map((row) => {
        const it = document.createElement("div");
        it.textContent = row.label;
        it.className = row.bad ? "bad" : "";
        it.style.top = `${TOP + row.y - view.top + 6}px`;
        it.style.visibility = row.y + 6 < view.top ? "hidden" : "visible";
        return it;
      }),
    );
  }

  let isAwaited = false;
  function changed() {
    keepInside();
    if (!isAwaited) {
      isAwaited = true;
      requestAnimationFrame(() => {
        isAwaited = false;
        draw();
        keepPlace();
      });
    }
  }

  /** What is in view as an SVG file. */
  function svgOf() {
    const { shapes, w, h, back } = shapesInView();
    const escaped = (text) => text.replace(/&/g, "&amp;").replace(/</g, "&lt;").replace(/"/g, "&quot;");
    const paint = (it) => `fill="${it.fill || "none"}" stroke="${it.edge || "none"}" stroke-width="${it.wide || 0}" opacity="${it.alpha}"${it.dash ? ` stroke-dasharray="${it.dash}"` : ""}`;
    const lines = shapes.map((it) => {
      switch (it.is) {
        case "box":
          return `<rect x="${it.x}" y="${it.y}" width="${Math.max(it.w, 0.5)}" height="${it.h}" rx="${it.round}" ${paint(it)}/>`;
        case "line":
          return `<path d="M${it.x} ${it.y}L${it.x2} ${it.y2}" ${paint(it)}/>`;
        case "curve":
          return `<path d="M${it.x} ${it.y}Q${it.cx} ${it.cy} ${it.x2} ${it.y2}" ${paint({ ...it, fill: "" })}/>`;
        case "area":
          return `<path d="M${it.points.map((point) => point.join(" ")).join("L")}Z" ${paint(it)}/>`;
        default:
          return `<text x="${it.x}" y="${it.y}" fill="${it.fill}" opacity="${it.alpha}" font-weight="${it.weight}">${escaped(it.text)}</text>`;
      }
    });
    const front = `<svg xmlns="http://www.w3.org/2000/svg" viewBox="0 0 ${w} ${h}" width="${w}" height="${h}" font-family="sans-serif" font-size="12"><title>${escaped(page.verdict)}</title><rect width="100%" height="100%" fill="${back}"/>`;
    return [front, ...lines, "</svg>"].join("\n");
  }

  /** Paper has no canvas of the window's size: it gets the shapes, in light colors, of as many rows as a sheet has. */
  function print(isOn) {
    if (isOn) {
      paper = { w: Math.max(room().w, 880), h: Math.min(view.height + LANE, 900), top: view.top };
      view.top = view.height + LANE <= 900 ? 0 : view.top;
    } else if (paper) {
      view.top = paper.top;
      paper = null;
    }
    document.documentElement.toggleAttribute("data-print", isOn);
    byId("printed").innerHTML = isOn ? svgOf() : "";
  }

  function save() {
    const link = document.createElement("a");
    link.href = URL.createObjectURL(new Blob([svgOf()], { type: "image/svg+xml" }));
    link.download = "nvq-view.svg";
    link.click();
    setTimeout(() => URL.revokeObjectURL(link.href), 1000);
  }

  // ---- who wrote what was read ----

  /** The answers of the blocks, one line for blocks in a row with the same answer. */
  function grouped(answers) {
    const lines = [];
    for (const [lba, text] of answers) {
      const last = lines[lines.length - 1];
      if (last && last.text === text && last.to === lba - 1) {
        last.to = lba;
      } else {
        lines.push({ from: lba, to: lba, text });
      }
    }
    return lines.map(({ from, to, text }) => `LBA ${from}${to > from ? ` to ${to}` : ""}: ${text}`);
  }

  /** By a record: the last entry before the point of a look that changed the block. */
  function writersByRecord(command) {
    const answers = [];
    const parts = isTrace ? page.done.filter((it) => owners[it.job] === command).flatMap((it) => it.parts) : command.parts;
    const first = isTrace && page.namespace.start !== "zeroes" ? "what was there at first" : "the zeroes of the beginning";
    for (const part of parts) {
      const history = entries.get(part.unit) || [];
      for (const [from, blocks] of command.ranges) {
        for (let lba = from; lba < from + blocks; lba += 1) {
          if (unitOf(lba) === part.unit) {
            let place = Math.min(part.point, history.length) - 1;
            while (place >= 0 && !(history[place] && changes(history[place], lba))) {
              place -= 1;
            }
            const owner = place < 0 ? null : owners[history[place].job];
            answers.push([lba, place < 0 ? first : owner ? `job ${owner.job} (unit ${part.unit} place ${place})` : first]);
          }
        }
      }
    }
    return grouped(answers);
  }

  function changes(entry, lba) {
    if (entry.ranges) {
      return entry.ranges.split(",").some((it) => {
        const [first, blocks] = it.split("+").map(Number);
        return lba >= first && lba < first + blocks;
      });
    }
    return lba >= entry.lba && lba < entry.lba + entry.blocks;
  }

  /** By an order: the last position that put something in the block before the command found it there. */
  function writersByOrder(command) {
    const last = new Map();
    const answers = new Map();
    const each = (placed, tell) => {
      for (let lba = placed.lba; lba < placed.lba + placed.blocks; lba += 1) {
        tell(lba);
      }
    };
    page.placed.forEach((placed) => {
      if (placed.job === command.job && placed.finds) {
        each(placed, (lba) => answers.set(lba, last.get(lba) || "what was there at first"));
      }
      if (placed.puts) {
        each(placed, (lba) => last.set(lba, `job ${placed.job} (position ${placed.position})`));
      }
    });
    return grouped([...answers].sort((one, other) => one[0] - other[0]));
  }

  const MOST = 64;

  /** By a trace alone: the commands that put these bytes into the block. */
  function writersByContent(command) {
    const answers = [];
    const [first, blocks] = command.ranges[0];
    for (let lba = first; lba < first + Math.min(blocks, MOST); lba += 1) {
      const found = command.finds(lba);
      const same = commands.filter((it) => it !== command && it.changes(lba) && it.puts(lba) === found).map((it) => `job ${it.job}`);
      const texts = [...same.slice(0, 4), ...(same.length > 4 ? [many(same.length - 4, "other")] : [])];
      const first = page.namespace.start === "zeroes" && found === ZEROES ? ", and it was there at first" : "";
      answers.push([lba, `${texts.join(", ") || "nobody in this trace"} put that${first}`]);
    }
    return [...grouped(answers), ...(blocks > MOST ? [`${many(blocks - MOST, "more block")} not looked up`] : [])];
  }

  // ---- details ----

  function element(name, text, kind) {
    const it = document.createElement(name);
    it.textContent = text;
    if (kind) {
      it.className = kind;
    }
    return it;
  }

  /** Text in which each job that is there can be clicked. */
  function linked(name, text, kind) {
    const it = element(name, "", kind);
    for (const part of text.split(/(job \d+)/)) {
      const job = /^job (\d+)$/.exec(part);
      if (job && commands[Number(job[1])]) {
        const link = element("a", part);
        link.tabIndex = 0;
        link.role = "link";
        link.addEventListener("click", () => pick(commands[Number(job[1])], true));
        link.addEventListener("keydown", (event) => event.key === "Enter" && pick(commands[Number(job[1])], true));
        it.append(link);
      } else {
        it.append(part);
      }
    }
    return it;
  }

  function detailsOf(command) {
    const list = document.createElement("dl");
    const add = (name, text, kind) => list.append(element("dt", name), linked("dd", text, kind));
    add("command", shortened(command.words, 600), "words");
    add("host, CID", `${command.host}, ${command.cids.join(" and ")}`);
    add("status", command.status);
    if (isTrace) {
      add("time", `${command.began} to ${command.ended === null ? "no end that was seen" : command.ended}`);
      const together = command.ended === null ? null : commands.filter((it) => it !== command && compareTimes(it.began, command.ended) <= 0 && (it.ended === null || compareTimes(command.began, it.ended) <= 0)).length;
      if (together !== null) {
        add("under way", `${together} other commands for a time`);
      }
    } else if (command.worker !== null) {
      add("worker", String(command.worker));
      add("parts", command.parts.map((it) => `unit ${it.unit} point ${it.point} ${it.result}`).join("; ") || "none");
    }
    if (command.data !== null) {
      add("data", shortened(page.runs[command.data], 600), "words");
    }
    if (command.ranges.length === 1 && command.ranges[0][1] && command.finds(command.ranges[0][0]) !== null) {
      const writers = { contradiction: writersByContent, ordered: writersByOrder }[page.kind] || writersByRecord;
      writers(command).forEach((line) => add("written by", line));
    }
    return list;
  }

  function pick(command, bringsIntoView) {
    picked = command;
    if (command && !isShown(command)) {
      byId("only").value = "all";
      layOut();
    }
    const box = byId("details");
    if (!command) {
      box.replaceChildren(element("p", "Click a command, or a row of the table.", "quiet"));
    } else {
      box.replaceChildren(element("h2", `job ${command.job}: ${command.title}`), detailsOf(command));
      if (bringsIntoView && command.item) {
        bring(command.item);
      }
    }
    fillTable(bringsIntoView);
    changed();
  }

  // ---- filters and the table ----

  const ROW = 22;
  let listed = commands;

  function filter() {
    const form = new FormData(byId("filters"));
    const words = Object.fromEntries([...form].map(([name, value]) => [name, value.trim().toLowerCase()]).filter(([, value]) => value));
    const tests = {
      job: (it, value) => String(it.job) === value,
      host: (it, value) => String(it.host) === value,
      cid: (it, value) => it.cids.some((cid) => String(cid) === value),
      unit: (it, value) => it.isIn(Number(value)),
      lba: (it, value) => it.has(Number(value)),
      kind: (it, value) => it.kind === value,
      status: (it, value) => it.statuses.includes(value),
      text: (it, value) => `${it.words} ${it.status} ${it.data === null ? "" : page.runs[it.data]}`.toLowerCase().includes(value),
    };
    const names = Object.keys(words);
    listed = names.length ? commands.filter((it) => names.every((name) => tests[name](it, words[name]))) : commands;
    matching = names.length ? new Set(listed) : null;
    byId("count").textContent = names.length ? `${grouping(listed.length)} of ${grouping(commands.length)}` : many(commands.length, "command");
    byId("table").scrollTop = 0;
    fillTable(false);
    if (words.job && listed.length === 1) {
      pick(listed[0], true);
    }
    changed();
  }

  function cellsOf(command) {
    const cut = (text, most) => (text.length > most ? `${text.slice(0, most)}…` : text);
    const where = isTrace ? `${command.began} – ${command.ended === null ? "" : command.ended}` : command.worker === null ? "" : `worker ${command.worker}`;
    const data = command.data === null ? "" : cut(page.runs[command.data], 80);
    return [`${command.job}`, `${command.host}`, command.cids.join(" "), where, `${KINDS[command.kind][0]} ${KINDS[command.kind][1]}`, cut(command.words, 160), command.status, data];
  }

  function rowElement(cells, kind, role) {
    const it = element("div", "", `row ${kind}`);
    it.role = "row";
    it.append(
      ...cells.map((text) => {
        const cell = element("span", text);
        cell.role = role;
        return cell;
      }),
    );
    return it;
  }

  /** The rows of the table that are in view, and room for the others. */
  function fillTable(bringsIntoView) {
    const table = byId("table");
    if (bringsIntoView && picked) {
      const place = listed.indexOf(picked);
      if (place >= 0 && (place * ROW < table.scrollTop || (place + 3) * ROW > table.scrollTop + table.clientHeight)) {
        table.scrollTop = Math.max(place * ROW - table.clientHeight / 2, 0);
      }
    }
    const first = Math.max(Math.floor(table.scrollTop / ROW) - 5, 0);
    const last = Math.min(first + Math.ceil(table.clientHeight / ROW) + 12, listed.length);
    const head = rowElement(["job", "host", "CID", isTrace ? "began – ended" : "worker", "kind", "command", "status", "data"], "head", "columnheader");
    const space = element("div", "");
    space.style.height = `${(listed.length - 0) * ROW}px`;
    const shown = [];
    for (let place = first; place < last; place += 1) {
      const command = listed[place];
      const row = rowElement(cellsOf(command), `${command.isNamed ? "named" : ""} ${command === picked ? "picked" : ""}`, "gridcell");
      row.id = `row-${command.job}`;
      row.setAttribute("aria-selected", String(command === picked));
      row.style.top = `${(place + 1) * ROW}px`;
      row.setAttribute("aria-rowindex", String(place + 2));
      row.addEventListener("click", () => pick(command, true));
      shown.push(row);
    }
    table.setAttribute("aria-activedescendant", picked ? `row-${picked.job}` : "");
    table.setAttribute("aria-rowcount", String(listed.length + 1));
    table.replaceChildren(head, space, ...shown);
  }

  function step(by, among) {
    const place = picked ? among.indexOf(picked) : -1;
    const next = among[Math.min(Math.max(place + by, 0), among.length - 1)];
    if (next) {
      pick(next, true);
    }
  }

  // ---- the place in the page's address ----

  function keepPlace() {
    const words = [`x=${view.x.toFixed(2)}`, `k=${view.k.toFixed(2)}`, `top=${Math.round(view.top)}`];
    if (picked) {
      words.unshift(`job=${picked.job}`);
    }
    if (page.kind === "contradiction") {
      words.push(`only=${byId("only").value}`);
    }
    try {
      history.replaceState(null, "", `#${words.join("&")}`);
    } catch {
      // A page without an address of its own keeps no place.
    }
  }

  function takePlace(words) {
    if (words.has("only")) {
      byId("only").value = words.get("only");
      layOut();
      showVerdict();
    }
    const job = words.get("job");
    if (job !== null && commands[Number(job)]) {
      pick(commands[Number(job)], true);
    }
    for (const name of ["x", "k", "top"]) {
      const value = Number(words.get(name));
      if (words.has(name) && Number.isFinite(value)) {
        view[name] = value;
      }
    }
    changed();
  }

  // ---- what the reader does ----

  function itemAt(event) {
    const box = chart.getBoundingClientRect();
    const x = view.x + (event.clientX - box.left - LEFT) / view.k;
    const y = event.clientY - box.top - TOP + view.top;
    if (event.clientX - box.left < LEFT) {
      return null;
    }
    const row = rows.find((it) => y >= it.y && y < it.y + LANE);
    const slack = 4 / view.k;
    const item = row && row.items[firstAt(row.items, x - slack)];
    return item && item.x0 <= x + slack ? item : null;
  }

  function hintOf(item) {
    const { command, entry, part, placed } = item;
    const place = placed ? `position ${placed.position}: ${placed.lba}+${placed.blocks} ${shortened(spelled(placed.does), 200)}\n` : entry ? `unit ${entry.unit} place ${entry.place}\n` : part && item.row.kind === "unit" ? `unit ${part.unit} point ${part.point} ${part.result}\n` : "";
    const marks = item.last ? "the last change before the fault\n" : item.bad && !isTrace ? "the first fault\n" : "";
    return command ? `${marks}${place}job ${command.job} host ${command.host} cid ${command.cids.join(" ")}\n${shortened(command.words, 200)}\n${command.status}${command.data === null ? "" : ` ${shortened(page.runs[command.data], 120)}`}` : `${marks}${place}a preparation`;
  }

  function listen() {
    const pointers = new Map();
    let start = null;
    let spread = 0;
    chart.addEventListener("wheel", (event) => {
      event.preventDefault();
      const box = chart.getBoundingClientRect();
      if (event.shiftKey || Math.abs(event.deltaX) > Math.abs(event.deltaY)) {
        view.x += (event.deltaX || event.deltaY) / view.k;
        changed();
      } else if (event.altKey) {
        view.top += event.deltaY;
        changed();
      } else {
        zoom(Math.exp(-event.deltaY / 400), Math.max(event.clientX - box.left - LEFT, 0));
      }
    }, { passive: false });
    chart.addEventListener("pointerdown", (event) => {
      pointers.set(event.pointerId, event);
      start = { x: event.clientX, y: event.clientY, moved: false };
      spread = 0;
    });
    window.addEventListener("pointermove", (event) => {
      if (!pointers.has(event.pointerId)) {
        hover(event);
        return;
      }
      const before = pointers.get(event.pointerId);
      pointers.set(event.pointerId, event);
      if (pointers.size === 2) {
        const [one, other] = [...pointers.values()];
        const now = Math.hypot(one.clientX - other.clientX, one.clientY - other.clientY);
        if (spread) {
          zoom(now / spread, (one.clientX + other.clientX) / 2 - chart.getBoundingClientRect().left - LEFT);
        }
        spread = now;
        return;
      }
      if (start && Math.hypot(event.clientX - start.x, event.clientY - start.y) > 4) {
        start.moved = true;
        chart.classList.add("moved");
      }
      if (start && start.moved) {
        view.x -= (event.clientX - before.clientX) / view.k;
        view.top -= event.clientY - before.clientY;
        changed();
      }
    });
    window.addEventListener("pointerup", (event) => {
      if (pointers.delete(event.pointerId) && start && !start.moved) {
        const item = itemAt(event);
        pick(item && item.command, false);
      }
      chart.classList.remove("moved");
    });
    window.addEventListener("pointercancel", (event) => pointers.delete(event.pointerId));
    chart.addEventListener("pointerleave", () => {
      byId("hint").hidden = true;
    });
    const keys = {
      ArrowLeft: () => (view.x -= 60 / view.k), ArrowRight: () => (view.x += 60 / view.k), ArrowUp: () => (view.top -= LANE), ArrowDown: () => (view.top += LANE),
      "+": () => zoom(1.3, room().w / 2), "=": () => zoom(1.3, room().w / 2), "-": () => zoom(1 / 1.3, room().w / 2), 0: showAll, v: showVerdict,
      n: () => step(1, listed.filter(isShown)), p: () => step(-1, listed.filter(isShown)), Escape: () => pick(null, false), Home: () => (view.x = -1), End: () => (view.x = width),
    }; // prettier-ignore
    chart.addEventListener("keydown", (event) => {
      const deed = keys[event.key] || keys[event.key.toLowerCase()];
      if (deed && !event.ctrlKey && !event.metaKey) {
        event.preventDefault();
        deed();
        changed();
      }
    });
    byId("table").addEventListener("scroll", () => fillTable(false));
    byId("table").addEventListener("keydown", (event) => {
      const by = { ArrowDown: 1, ArrowUp: -1, PageDown: 10, PageUp: -10 }[event.key];
      if (by) {
        event.preventDefault();
        step(by, listed);
      }
    });
    byId("filters").addEventListener("input", filter);
    byId("filters").addEventListener("submit", (event) => event.preventDefault());
    byId("filters").addEventListener("reset", () => setTimeout(filter));
    byId("closer").addEventListener("click", () => zoom(1.5, room().w / 2));
    byId("wider").addEventListener("click", () => zoom(1 / 1.5, room().w / 2));
    byId("whole").addEventListener("click", showAll);
    byId("place").addEventListener("click", showVerdict);
    byId("save").addEventListener("click", save);
    for (const name of ["only", "clock"]) {
      byId(name).addEventListener("change", () => {
        layOut();
        showVerdict();
      });
    }
    window.addEventListener("resize", changed);
    window.addEventListener("beforeprint", () => print(true));
    window.addEventListener("afterprint", () => print(false));
    window.addEventListener("hashchange", () => takePlace(new URLSearchParams(location.hash.slice(1))));
    matchMedia("(prefers-color-scheme: dark)").addEventListener("change", () => {
      fillKey();
      changed();
    });
  }

  function hover(event) {
    const box = chart.getBoundingClientRect();
    const isInside = event.clientX >= box.left && event.clientX < box.right && event.clientY >= box.top && event.clientY < box.bottom;
    const item = isInside ? itemAt(event) : null;
    const hint = byId("hint");
    hint.hidden = !item;
    if (item) {
      hint.textContent = hintOf(item);
      hint.style.left = `${Math.min(event.clientX - box.left + 12, Math.max(box.width - 430, 0))}px`;
      hint.style.top = `${Math.min(event.clientY - box.top + 14, Math.max(box.height - 90, 0))}px`;
    }
  }

  // ---- the verdict, in words ----

  function headline() {
    const numbers = Object.fromEntries([...page.verdict.matchAll(/(\w+) (\d+)/g)].map((it) => [it[1], grouping(Number(it[2]))]));
    const refused = numbers.refused && numbers.refused !== "0" ? `, ${numbers.refused} refused for want of memory` : "";
    switch (page.verdict.split(" ")[0]) {
      case "lawful":
        return `Lawful: ${numbers.jobs} jobs made ${numbers.changes} changes in ${numbers.units} units${refused}`;
      case "unlawful":
        return `Not lawful: ${page.fault.fault} at job ${page.fault.job}${page.fault.unit === null || page.fault.unit === undefined ? "" : `, unit ${page.fault.unit}, place ${page.fault.place}`}`;
      case "explained":
        return numbers.points ? `Explained: an order of ${numbers.points} points gives what the hosts of ${numbers.jobs} commands saw` : `Explained: an order of ${numbers.steps} steps in ${numbers.units} units gives what the hosts of ${numbers.jobs} commands saw${numbers.excused === "0" ? "" : `, ${numbers.excused} excused`}`;
      default:
        return `Contradiction: no order of points gives what the hosts of ${many(commands.length, "command")} saw`;
    }
  }

  function fillWhy() {
    const why = byId("why");
    const listed = (name, items) => {
      const list = document.createElement(name);
      list.append(...items);
      return list;
    };
    if (page.kind === "contradiction") {
      why.append(element("h2", "Why"), linked("p", page.sentence, ""), listed("ol", page.facts.map((fact) => linked("li", fact.text, fact.isRed ? "bad" : ""))), linked("p", page.conclusion.text, "bad"));
      for (const lba of [...new Set([...page.facts, page.conclusion].filter((it) => "lba" in it).map((it) => it.lba))].sort((one, other) => one - other)) {
        why.append(element("h2", `LBA ${lba}`), listed("ul", deedsAt(lba)));
      }
      const [, held] = /( reads .*)$/.exec(page.verdict);
      why.append(element("p", `By the standard, held to${held}: Zalkvorn's docs/STANDARD.md says what that is.`, "quiet"));
      return;
    }
    const kindOf = (line) => (/^(first difference|the step gives)/.test(line) ? "bad" : /^last change/.test(line) ? "last" : "");
    const items = (lines) => lines.map((line) => linked("li", brief(line), kindOf(line)));
    const all = [...page.lines, ...(page.placed || [])];
    const placedText = (it) => `position ${it.position} point ${it.point} lba ${it.lba} blocks ${it.blocks} job ${it.job} ${it.does}`;
    const lines = all.slice(0, 200).map((it) => (typeof it === "string" ? it : placedText(it))).map(page.kind === "ordered" ? spelled : (line) => line);
    const more = all.length > lines.length ? [element("li", `${many(all.length - lines.length, "more line")}: nvq explain prints them`, "quiet")] : [];
    if (!page.fault) {
      why.append(element("h2", { explained: "The record that explains it", ordered: "The order that explains it" }[page.kind] || "What was found"), listed("ul", [...items(lines), ...more]));
      return;
    }
    const isMain = (line, place) => place === 0 || /^recorded:/.test(line) || kindOf(line);
    const told = faultText();
    why.append(element("h2", "What is wrong"), ...(told ? [linked("p", told, "bad")] : []), listed("ul", items(lines.filter(isMain))));
    const folded = document.createElement("details");
    folded.append(element("summary", "What the record has there"), listed("ul", [...items(lines.filter((line, place) => !isMain(line, place))), ...more]));
    why.append(folded);
  }

  /** What commands found and put in the block: those that the contradiction names, and the last others that began before these had ended. */
  function deedsAt(lba) {
    const named = commands.filter((it) => it.isNamed && it.deedAt(lba));
    const isBefore = (it) => named.some((one) => one.ended === null || compareTimes(it.began, one.ended) <= 0);
    const others = commands.filter((it) => !it.isNamed && it.deedAt(lba)).sort((one, other) => compareTimes(one.began, other.began));
    const last = others.filter(isBefore).slice(-4);
    const shown = [...named, ...last].sort((one, other) => compareTimes(one.began, other.began) || one.job - other.job).map((it) => linked("li", it.deedAt(lba)));
    return others.length > last.length ? [...shown, element("li", `${many(others.length - last.length, "other command")}: LBA ${lba} in the filters lists them`, "quiet")] : shown;
  }

  /** What the job of the fault did, in a sentence, and who changed that block last; nothing where the lines don't say so. */
  function faultText() {
    const of = (pattern) => page.lines.map((line) => pattern.exec(line)).find(Boolean);
    const command = commands[page.fault.job];
    const at = of(/^first difference: LBA (\d+) byte (\d+) (\w+) (\w+) (\w+) (\w+)$/);
    const gives = of(/^the step gives: status ([^a-z]+)/);
    if (!command || !at) {
      return "";
    }
    const [, lba, byte, said, one, was, other] = at;
    const last = page.change ? (entries.get(page.change.unit) || [])[page.change.place] : null;
    const job = `job ${command.job} (${command.title})`;
    const front = said === "compared" ? `${job} compared ${one}` : `Of ${job} is recorded ${one}`;
    const where = { held: "which held", given: "where its unit's history gives", sent: "where its host sent" }[was];
    const texts = [`${front} in byte ${byte} of LBA ${lba}, ${where} ${other}${last ? `: job ${last.job} had changed that block last` : ""}.`];
    if (gives && gives[1].trim() !== command.status) {
      texts.push(`It was answered ${command.status}, and not ${gives[1].trim()}.`);
    }
    return texts.join(" ");
  }

  function fillKey() {
    const list = document.createElement("ul");
    const used = new Set(commands.map((it) => it.kind));
    for (const [kind, [letter, name, tint]] of Object.entries(KINDS)) {
      if (used.has(kind)) {
        const it = document.createElement("li");
        const look = LOOKS.has(kind);
        const svg = document.createElementNS("http://www.w3.org/2000/svg", "svg");
        svg.setAttribute("width", "22");
        svg.setAttribute("height", "16");
        const box = document.createElementNS("http://www.w3.org/2000/svg", "rect");
        for (const [attribute, value] of Object.entries({ x: 1, y: 1, width: 20, height: 14, rx: look ? 7 : 2, fill: look ? "none" : color(tint), stroke: color(tint) })) {
          box.setAttribute(attribute, String(value));
        }
        svg.append(box);
        it.append(svg, `${letter} ${name}`);
        list.append(it);
      }
    }
    const some = commands[0] ? [`${KINDS[commands[0].kind][0]} 7 8+4: job 7, 4 blocks from LBA 8`] : [];
    const marks = [...some, "filled: it changes blocks; open and round: it looks at them", "× and bold: a status that isn't 0/00", ...(isTrace && commands.some((it) => it.ended === null) ? ["dashed: no end was seen"] : [])];
    if (page.kind === "contradiction") {
      marks.push("an arrow: the first of two is before the other, by the fact of that number", "red: what would come before itself, or what nobody can have left");
    } else if (isTrace) {
      marks.push("units: the order that explains it; a step is drawn where it can be at the earliest");
    } else {
      marks.push("a column: one step, in an order that workers and units keep", "units: boxes are changes by place; open ones looked there, F failed, M no memory, L full", "red ring: the first fault; violet, dashed: the last change before it");
    }
    const more = document.createElement("ul");
    more.append(...marks.map((it) => element("li", it)));
    more.className = "quiet";
    byId("key").replaceChildren(element("h2", "Key"), list, more);
  }

  function begin() {
    for (const done of isTrace ? [] : page.done) {
      const command = commands[done.job];
      if (command && command.worker === null) {
        Object.assign(command, { worker: done.worker, parts: done.parts, statuses: done.statuses, data: done.data });
      }
    }
    const title = byId("verdict");
    title.textContent = headline();
    title.className = page.kind === "contradiction" || page.fault ? "bad" : "";
    document.title = `${page.files.join(", ")}: ${page.verdict}`;
    const { nsze, nabsn, nabo, nawun, nacwu } = page.namespace;
    const units = nabsn ? `units of ${nabsn + 1} blocks${nabo ? ` from LBA ${nabo} on` : ""}` : "no boundaries";
    const more = isTrace ? `, start ${page.namespace.start}${page.kind === "explained" ? `, reads ${page.namespace.reads}` : ""}` : `, ${many(page.namespace.workers, "worker")}`;
    byId("about").textContent = `${page.files.join(", ")}: ${page.verdict} · ${nsze} blocks of ${BLOCK} bytes, ${units}, NAWUN ${nawun}, NACWU ${nacwu}${more}`;
    const kinds = byId("filters").elements.kind;
    for (const [kind, [, name]] of Object.entries(KINDS)) {
      const option = element("option", name);
      option.value = kind;
      kinds.append(option);
    }
    byId("only-label").hidden = page.kind !== "contradiction";
    if (page.kind === "contradiction") {
      byId("only").append(new Option(`the ${grouping(page.named.length)} that the verdict names`, "named"), new Option(`all ${grouping(commands.length)}`, "all"));
    }
    byId("scale-label").hidden = !isTrace;
    layOut();
    fillWhy();
    fillKey();
    filter();
    listen();
    const place = new URLSearchParams(location.hash.slice(1));
    showVerdict();
    const first = page.fault ? commands[page.fault.job] : page.kind === "contradiction" ? commands[page.conclusion.reader] || commands.find((it) => it.isNamed && LOOKS.has(it.kind)) : null;
    if (first) {
      pick(first, false);
      fillTable(true);
    }
    if (place.size) {
      takePlace(place);
    }
    draw();
    document.documentElement.dataset.painted = String(Math.round(performance.now()));
  }

  begin();
})();
