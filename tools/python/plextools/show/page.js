// Makes the page live: a pair, an entry, a job or a time of waiting that is chosen lights up its statements, and is
// told at the side.
(function () {
  const data = JSON.parse(document.getElementById("data").textContent);
  const words = data.words;
  const drawnAtOnce = 100;
  const panel = document.getElementById("told");
  const table = document.getElementById("table");
  const entryNames = data.entries.map((entry) => entry.name);
  const live = document.getElementById("live");
  let lit = [];
  let chosen = [];
  let timeLine = null;
  const space = live && document.querySelector("#drawn svg").namespaceURI;

  // small helpers: an element with a class and its content

  function make(tag, kind, ...content) {
    const element = document.createElement(tag);
    if (kind) element.className = kind;
    element.append(...content);
    return element;
  }

  function choice(place, text) {
    const link = make("a", "", text);
    link.href = "#" + place;
    return link;
  }

  function line(number) {
    return choice("L" + number, String(number));
  }

  // what is lit up

  function dark() {
    for (const element of lit) element.classList.remove("first", "later", "both", "reach");
    for (const element of chosen) element.classList.remove("chosen");
    lit = [];
    chosen = [];
    if (timeLine) timeLine.mark(null);
  }

  function light(number, kind) {
    const element = document.getElementById("L" + number);
    if (!element) return;
    const other = kind === "first" ? "later" : kind === "later" ? "first" : null;
    if (other && (element.classList.contains(other) || element.classList.contains("both"))) {
      element.classList.remove(other);
      element.classList.add("both");
    } else {
      element.classList.add(kind);
    }
    lit.push(element);
  }

  function lightRanges(ranges) {
    for (let k = 0; k < ranges.length; k += 2) {
      for (let n = ranges[k]; n <= ranges[k + 1]; n++) light(n, "reach");
    }
  }

  // The text, which scrolls in its own box, goes to the first line that is lit up.
  function showFirstLit() {
    if (!lit.length) return;
    const text = document.getElementById("lines");
    const first = lit.reduce((one, other) => Number(other.dataset.n) < Number(one.dataset.n) ? other : one);
    const top = first.getBoundingClientRect().top - text.getBoundingClientRect().top;
    text.scrollTop += top - text.clientHeight / 3;
  }

  function mark(element) {
    if (!element) return;
    element.classList.add("chosen");
    chosen.push(element);
  }

  // lists of statements

  // The statements of an entry's side, by its place among those of the kind of entry.
  function sideOf(entry, side) {
    return data.sides[data.entries[entry].sides[side]];
  }

  function statements(entry, side, kind) {
    const list = make("ul", "");
    const [listed, more] = sideOf(entry, side);
    for (const [number, head, does] of listed) {
      if (kind) light(number, kind);
      const told = words[does] ? " " + words[does] : "";
      list.append(make("li", "", line(number), ": ", make("code", "", words[head]), told));
    }
    if (more) list.append(make("li", "", "and " + more + " statements more"));
    return list;
  }

  function role(kind, number) {
    const name = number + " " + data.entries[number].name;
    return make("p", "", make("span", "role " + kind, kind), " ", choice("entry=" + number, name));
  }

  // pairs

  // The reasons of a pair, which those of the same kinds of entries have too, with the names of these two.
  function reasonsOf(i, j) {
    const list = data.lists[data.rows[data.pairs[i]][j]] || [];
    const found = [];
    for (let k = 0; k < list.length; k += 5) found.push(list.slice(k, k + 5));
    return found;
  }

  function helps(cure, i, j) {
    const [first, later] = [data.entries[i], data.entries[j]];
    const names = {
      "first": first.name, "first signal": first.signal, "later": later.name, "later signal": later.signal,
    };
    return words[cure].replace(/\{([a-z ]+)\}/g, (whole, name) => names[name]);
  }

  const kinds = {"?": "Q", ".": "P"};
  const wide = 22;

  // A row of a large table is a run of letters, until it is seen or asked for.
  function cellsOf(row) {
    const run = row.querySelector("td.run");
    if (run) {
      const letters = run.textContent.trim();
      run.remove();
      for (const letter of letters) {
        const cell = row.insertCell();
        cell.className = kinds[letter] || letter;
        cell.textContent = letter;
      }
    }
    return row.cells;
  }

  function cellOf(i, j) {
    return cellsOf(table.tBodies[0].rows[i])[j + 1];
  }

  function watchRows() {
    const watcher = new IntersectionObserver((seen) => {
      for (const one of seen) {
        if (one.isIntersecting) {
          cellsOf(one.target);
          watcher.unobserve(one.target);
        }
      }
    }, {root: table.parentNode, rootMargin: "150px"});
    for (const run of table.querySelectorAll("td.run")) watcher.observe(run.parentNode);
  }

  function tellReason(i, j, [never, told, first, later, cure]) {
    const parts = [make("h3", "", (never ? "NEVER " : "IF ") + words[told])];
    parts.push(make("span", "role first", "first"), statements(i, first, "first"));
    if (sideOf(j, later)[0].length) parts.push(make("span", "role later", "later"), statements(j, later, "later"));
    parts.push(make("p", "", make("b", "", "What helps: "), helps(cure, i, j)));
    return parts;
  }

  // The first reasons of a pair, and a button that draws the next ones.
  function drawReasons(place, i, j, reasons) {
    for (const reason of reasons.slice(0, drawnAtOnce)) place.append(...tellReason(i, j, reason));
    const rest = reasons.slice(drawnAtOnce);
    if (!rest.length) return;
    const more = make("button", "more", rest.length + " more");
    more.type = "button";
    more.addEventListener("click", () => {
      more.remove();
      drawReasons(place, i, j, rest);
    });
    place.append(more);
  }

  function tellPair(i, j) {
    const reasons = reasonsOf(i, j);
    const tested = reasons.length && reasons[0][0] ? "never together" : "together where its tests hold";
    const verdict = reasons.length ? tested : "always together";
    const parts = [make("h2", "", "Pair " + i + " " + j + ": " + verdict), role("first", i), role("later", j)];
    if (!reasons.length) parts.push(make("p", "", "Unless the two are of one forlopp."));
    const told = make("div", "");
    parts.push(told);
    drawReasons(told, i, j, reasons);
    parts.push(make("p", "", choice("pair=" + j + "," + i, "the other order: " + j + " first, " + i + " later")));
    mark(cellOf(i, j));
    return parts;
  }

  // entries

  function tellEntry(i) {
    const entry = data.entries[i];
    const parts = [make("h2", "", "Entry " + i + ": " + entry.name + ", level " + entry.level)];
    lightRanges(entry.reach);
    let reached = 0;
    for (let k = 0; k < entry.reach.length; k += 2) reached += entry.reach[k + 1] - entry.reach[k] + 1;
    parts.push(make("p", "", "Its jobs reach " + reached + " lines, which are lit up. They may do:"));
    for (const [told, side] of data.kinds[entry.kind].lines) {
      const part = make("details", "", make("summary", "", make("code", "", words[told])), statements(i, side, null));
      parts.push(part);
    }
    parts.push(make("p", "", "Beside itself: ", choice("pair=" + i + "," + i, "pair " + i + " " + i), "."));
    mark(document.querySelector('[data-entry="' + i + '"]'));
    return parts;
  }

  // jobs and times of waiting

  // A bar or a wait with its parts, of which each has a list.
  function partsOf(columns, k) {
    const one = {};
    for (const name of Object.keys(columns)) one[name] = columns[name][k];
    return one;
  }

  function barOf(k) {
    return {...partsOf(data.play.bars, k), job: k + 1, held: data.play.files[data.play.bars.held[k]]};
  }

  function waitOf(k) {
    return {...partsOf(data.play.waits, k), reason: data.play.reasons[data.play.waits.reason[k]]};
  }

  // The numbers, from 0, of those of a list that are so.
  function those(list, value) {
    const some = [];
    for (let k = list.indexOf(value); k >= 0; k = list.indexOf(value, k + 1)) some.push(k);
    return some;
  }

  function someJobs(some) {
    const shown = some.slice(0, 20).map((k) => k + 1).join(", ");
    return some.length > 20 ? shown + " and " + (some.length - 20) + " more" : shown;
  }

  function tellBar(k) {
    const bar = barOf(k);
    const entry = data.entries[bar.entry];
    const list = make("ul", "");
    function item(...content) { list.append(make("li", "", ...content)); }
    item("entry ", choice("entry=" + bar.entry, bar.entry + " " + entry.name));
    item(bar.values.length ? "values " + bar.values.join(" ") : "no values");
    item(bar.forlopp ? "forlopp " + bar.forlopp : "in no forlopp");
    item((bar.to - bar.from) + " statements, from " + bar.from + " to " + bar.to + ", on worker " + (bar.row + 1));
    item(bar.line ? "came with line " + bar.line + " of the signal file" : "was sent by job " + bar.sender);
    if (bar.held.length) item("held records of " + bar.held.join(", ") + " as it began");
    const sent = those(data.play.bars.sender, bar.job);
    item(sent.length ? "sent the jobs " + someJobs(sent) : "sent no job that ran");
    item(bar.fault ? "ended by the fault " + bar.fault : "ended by itself");
    for (const place of those(data.play.waits.job, bar.job)) {
      const wait = waitOf(place);
      item("waited from " + wait.from + " to " + wait.to + ": ", reasonOf(wait.reason));
    }
    lightRanges(entry.reach);
    timeLine.mark("bar", k);
    return [make("h2", "", "Job " + bar.job + ": " + entry.name), list, ...callFlow(k)];
  }

  // the call flow of a forlopp, or of a job that is in none

  const flowMost = 60, rowsMost = 240, flowRow = 22, flowColumn = 92, flowLeft = 62, flowTop = 26;

  function draw(name, attributes, ...content) {
    const element = document.createElementNS(space, name);
    for (const key of Object.keys(attributes)) element.setAttribute(key, attributes[key]);
    element.append(...content);
    return element;
  }

  function blockOf(place) {
    return entryNames[data.play.bars.entry[place]].split(" ")[1];
  }

  // The rows of a job: one that begins it, and one for each signal that it sent. A row goes from lane to lane, where
  // null is outside, or from nowhere where a job sent the signal by which this one began.
  function flowRows(place) {
    const bar = barOf(place);
    const begun = [entryNames[bar.entry].split(" ")[0], ...bar.values].join(" ");
    const sender = bar.line ? "" : " (from job " + bar.sender + ")";
    const rows = [{place: place, begins: true, kind: "signal", from: bar.line ? null : undefined, to: blockOf(place),
      label: begun + sender}];
    const flows = data.play.flows;
    if (flows && place < flows.jobs.length) {
      const receivers = flows.receivers[place].slice();
      for (const number of flows.lists[flows.jobs[place]]) rows.push(signalRow(place, flows, number, receivers));
      const left = flows.left_out[place];
      if (left) rows.push({place: place, note: left + " more signals of this job", at: blockOf(place)});
    }
    if (bar.fault) rows.push({place: place, note: "✗ fault " + bar.fault, at: blockOf(place)});
    return rows;
  }

  function signalRow(place, flows, number, receivers) {
    const [kind, name, source, target, line, ...values] = flows.signals[number];
    const told = flows.words[kind];
    const row = {place: place, line: line, from: flows.words[source], to: target < 0 ? null : flows.words[target],
      label: [flows.words[name], ...values].join(" "),
      kind: told === "answer" ? "answer" : told === "direct" || told === "combined" ? "call" : "signal"};
    if (told === "buffered") row.label += " (" + receiverOf(place, receivers.shift()) + ")";
    return row;
  }

  function receiverOf(place, receiver) {
    if (!receiver) return "to no job that ran";
    const forlopps = data.play.bars.forlopp, forlopp = forlopps[receiver - 1];
    const fresh = forlopp === undefined || forlopp === forlopps[place] ? "" : ", new F" + forlopp;
    return "to job " + receiver + fresh;
  }

  // The jobs of a list around one of them, as many as have room, with their rows.
  function flowAround(every, k) {
    const at = every.indexOf(k), shown = [k];
    let count = flowRows(k).length;
    for (let before = at - 1, behind = at + 1; shown.length < flowMost && (before >= 0 || behind < every.length);) {
      for (const place of [every[before--], every[behind++]]) {
        if (place === undefined) continue;
        count += flowRows(place).length;
        if (count > rowsMost) return shown.sort((one, other) => one - other);
        shown.push(place);
      }
    }
    return shown.sort((one, other) => one - other);
  }

  // A line for each block, and an arrow for each signal: those that start jobs, those inside a job, and answers.
  function callFlow(k) {
    const forlopp = data.play.bars.forlopp[k];
    const every = forlopp ? those(data.play.bars.forlopp, forlopp) : [k];
    const jobs = flowAround(every, k);
    const rows = [].concat(...jobs.map(flowRows));
    const named = rows.flatMap((row) => row.note ? [row.at] : [row.from, row.to]);
    const lanes = [...new Set([null, ...named.filter((lane) => lane !== undefined)])];
    const at = (lane) => flowLeft + lanes.indexOf(lane) * flowColumn;
    const high = flowTop + flowRow * rows.length, wide = at(lanes[lanes.length - 1]) + flowColumn;
    const svg = draw("svg", {class: "flow", width: wide, height: high, role: "group", "aria-label": "call flow"});
    for (const lane of lanes) {
      svg.append(draw("text", {x: at(lane), y: 12, "text-anchor": "middle"}, (lane || "outside").slice(0, 13)));
      svg.append(draw("path", {class: "lane", d: "M" + at(lane) + ",18 V" + high}));
    }
    rows.forEach((row, number) => svg.append(flowLine(row, at, flowTop + flowRow * number, row.place === k)));
    const told = jobs.length < every.length ? " (" + jobs.length + " of " + every.length + " jobs)" : "";
    const name = forlopp ? "forlopp " + forlopp + told : "job " + (k + 1);
    return [make("h3", "", "Call flow of " + name), make("div", "flows", svg), make("p", "soft", flowKey())];
  }

  function flowKey() {
    if (!data.play.flows) return "Signals inside jobs are not told of so large a load.";
    return "An open head is a signal that starts a job or leaves the exchange, a filled one a signal inside a job, and " +
      "a dashed arrow an answer.";
  }

  // A row: what begins a job, and what is said of one, leads to the job, and a signal to its statement.
  function flowLine(row, at, y, isChosen) {
    const href = row.line ? "#L" + row.line : "#bar=" + row.place;
    const link = draw("a", {href: href, class: isChosen ? "chosen" : ""});
    if (row.note) {
      link.append(draw("text", {x: at(row.at) + 8, y: y + 11, class: "note"}, row.note));
      return link;
    }
    const label = row.label + (row.line ? " :" + row.line : "");
    if (row.begins) link.append(draw("text", {x: 2, y: y + 11, class: "soft"}, String(row.place + 1)));
    link.append(...flowArrow(row.kind, row.from === undefined ? at(row.to) - 22 : at(row.from), at(row.to), y + 8));
    const ends = row.from === undefined || row.from === row.to ? [at(row.to)] : [at(row.from), at(row.to)];
    const text = draw("text", {x: Math.min(...ends) + (row.from === row.to ? 24 : 6), y: y + 4}, label);
    link.append(text);
    const from = row.from === undefined ? "" : row.from;
    link.dataset.row = JSON.stringify([row.kind, from, row.to, row.label]);
    return link;
  }

  function flowArrow(kind, from, to, y) {
    const head = to < from || from === to ? 1 : -1;
    const begin = "M" + from + ",";
    const path = from === to ? begin + (y - 8) + " h16 v8 H" + (to + 2) : begin + y + " H" + (to + 2 * head);
    const tip = "M" + (to + 8 * head) + "," + (y - 4) + " L" + to + "," + y + " l" + 8 * head + ",4";
    return [
      draw("path", {class: "arrow " + kind, d: path}),
      draw("path", {class: kind === "call" ? "head" : "head open", d: kind === "call" ? tip + " z" : tip}),
    ];
  }

  function why(reason) {
    const told = {
      line: "for a line of the signal file that comes first",
      sender: "for the job that sends it",
      end: "no other job came",
    };
    return told[reason] || reason;
  }

  function reasonOf(reason) {
    return reason.pair ? choice("pair=" + reason.pair.join(","), reason.told) : why(reason.told);
  }

  function tellWait(k) {
    const wait = waitOf(k);
    const parts = [make("h2", "", "The window stood still from " + wait.from + " to " + wait.to)];
    parts.push(make("p", "", wait.job ? "Job " + wait.job + " waited: " : "", reasonOf(wait.reason)));
    timeLine.mark("wait", k);
    return parts;
  }

  // choosing

  function tell(place) {
    const [kind, told] = place.split("=");
    const numbers = (told || "").split(",").map(Number);
    const count = data.entries.length;
    if (numbers.some((n) => !Number.isInteger(n) || n < 0)) return null;
    const [i, j] = numbers;
    if (kind === "pair" && numbers.length === 2 && i < count && j < count) return () => tellPair(i, j);
    if (kind === "entry" && i < count) return () => tellEntry(i);
    if (kind === "bar" && data.play && numbers[0] < data.play.bars.entry.length) return () => tellBar(numbers[0]);
    if (kind === "wait" && data.play && numbers[0] < data.play.waits.from.length) return () => tellWait(numbers[0]);
    return null;
  }

  function choose(place) {
    const teller = tell(place);
    if (!teller) return false;
    dark();
    const close = make("button", "", "close");
    close.type = "button";
    close.addEventListener("click", nothing);
    panel.replaceChildren(close, ...teller());
    settle(place);
    panel.scrollTop = 0;
    if (location.hash !== "#" + place) history.replaceState(null, "", "#" + place);
    showFirstLit();
    return true;
  }

  // Where a window is narrow, the panel stands behind the part in which something was chosen, and covers nothing.
  const narrow = window.matchMedia("(max-width: 1149px)");
  function settle(place) {
    const parts = {pair: "pairs", entry: "entries", bar: "time", wait: "time"};
    const part = place && document.getElementById(parts[place.split("=")[0]]);
    if (narrow.matches && part) part.after(panel);
    else document.querySelector("main").after(panel);
  }
  narrow.addEventListener("change", () => settle(decodeURIComponent(location.hash.slice(1))));

  function nothing() {
    dark();
    panel.replaceChildren(make("p", "soft", panel.dataset.hint));
    history.replaceState(null, "", location.pathname + location.search);
  }

  document.addEventListener("click", (event) => {
    const link = event.target.closest('a[href^="#"]');
    const cell = event.target.closest("#table td");
    let place = null;
    if (cell) {
      const j = cell.classList.contains("run") ? Math.floor(event.offsetX / wide) : cell.cellIndex - 1;
      place = "pair=" + cell.parentNode.sectionRowIndex + "," + j;
    }
    else if (link) place = link.getAttribute("href").slice(1);
    if (place && choose(place)) event.preventDefault();
  });

  // keys: the arrows go from cell to cell, Enter and Space choose, Escape lets go

  let stop = table && table.tBodies[0].rows.length ? cellOf(0, 0) : null;
  if (stop) stop.tabIndex = 0;

  function goTo(cell) {
    if (!cell || cell.tagName !== "TD") return;
    stop.tabIndex = -1;
    stop = cell;
    stop.tabIndex = 0;
    stop.focus();
  }

  function fromCell(cell, key) {
    const rows = table.tBodies[0].rows;
    const i = cell.parentNode.sectionRowIndex;
    const j = cell.cellIndex;
    const row = {ArrowUp: i - 1, ArrowDown: i + 1}[key];
    if (row !== undefined) return rows[row] && cellsOf(rows[row])[j];
    const cells = cellsOf(rows[i]);
    return {ArrowLeft: cells[j - 1], ArrowRight: cells[j + 1], Home: cells[1], End: cells[cells.length - 1]}[key];
  }

  document.addEventListener("keydown", (event) => {
    const cell = event.target.closest("#table td");
    if (event.key === "Escape") {
      nothing();
    } else if (cell && (event.key === "Enter" || event.key === " ")) {
      event.target.dispatchEvent(new MouseEvent("click", {bubbles: true}));
      event.preventDefault();
    } else if (cell && /^(Arrow|Home|End)/.test(event.key)) {
      goTo(fromCell(cell, event.key));
      event.preventDefault();
    }
  });

  window.addEventListener("hashchange", () => choose(decodeURIComponent(location.hash.slice(1))));
  if (table) watchRows();
  if (data.play && live) {
    live.hidden = false;
    timeLine = TimeLine(live, data.play, entryNames, choose);
    document.getElementById("drawn").remove();
  }
  document.body.classList.add("live");
  panel.hidden = false;
  nothingYet();

  function nothingYet() {
    if (choose(decodeURIComponent(location.hash.slice(1)))) return;
    panel.replaceChildren(make("p", "soft", panel.dataset.hint));
  }
})();
