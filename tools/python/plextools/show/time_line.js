"use strict";
// The time line of a play: it is drawn for the part of the time that is in view, job by job where there is room for
// each, and else by how much of each piece of the time a worker was busy. `TimeLine(place, play, names, choose)` makes
// one; `choose` is told which bar or wait is chosen.
function TimeLine(place, play, names, choose) {
  const colours = ["#e69f00", "#56b4e9", "#009e73", "#f0e442", "#0072b2", "#d55e00", "#cc79a7", "#999999"];
  const dark = [4];  // the colours on which letters are white
  const space = document.querySelector("#drawn svg").namespaceURI;
  const left = 74, right = 8, most = 700, leastPiece = 4, mostBoxes = 4000, least = 14, letterWidth = 7.5;
  const {bars, waits} = play;
  const count = bars.entry.length;
  const rows = [];
  const found = new Set();
  let view = {from: 0, to: Math.max(1, play.end)};
  let by = "entry", cursor = 0, chosen = null, hits = [], at = -1;

  for (let k = 0; k < count; k++) (rows[bars.row[k]] = rows[bars.row[k]] || []).push(k);
  for (let row = 0; row < rows.length; row++) rows[row] = rows[row] || [];
  const tall = rows.length > 16 ? 14 : 26;

  function letters(n) {
    return (n >= 26 ? letters(Math.floor(n / 26) - 1) : "") + String.fromCharCode(65 + n % 26);
  }

  function draw(name, attributes, text) {
    const element = document.createElementNS(space, name);
    for (const key of Object.keys(attributes)) element.setAttribute(key, attributes[key]);
    if (text !== undefined) element.textContent = text;
    return element;
  }

  function html(name, attributes, ...content) {
    const element = document.createElement(name);
    for (const key of Object.keys(attributes)) element.setAttribute(key, attributes[key]);
    element.append(...content);
    return element;
  }

  // what a bar looks like

  function number(k) { return by === "entry" ? bars.entry[k] : bars.forlopp[k]; }
  function letter(k) { return by === "entry" ? letters(bars.entry[k]) : bars.forlopp[k] ? "F" + bars.forlopp[k] : "–"; }
  function look(n) { return {colour: colours[n % colours.length], lines: Math.floor(n / colours.length) % 3}; }

  // The lines of a pattern over a bar: across it, or along it.
  function pattern(n, begin, wide, y) {
    let path = "";
    const high = tall - 5;
    if (n === 1) for (let at = begin + 4; at < begin + wide; at += 5) path += "M" + at.toFixed(1) + "," + y + "v" + high;
    else for (const at of [.25, .5, .75]) path += "M" + begin + "," + (y + at * high) + "h" + wide;
    return draw("path", {class: "pattern", d: path});
  }

  // drawing

  const svg = draw("svg", {class: "drawing", tabindex: 0, role: "application", "aria-roledescription": "time line"});
  const zoomOut = html("button", {type: "button", title: "wider (-)"}, "−");
  const zoomIn = html("button", {type: "button", title: "closer (+)"}, "+");
  const whole = html("button", {type: "button", title: "the whole time (0)"}, "all");
  const colouring = html("select", {"aria-label": "colours"},
    html("option", {value: "entry"}, "colours of entries"), html("option", {value: "forlopp"}, "colours of forlopps"));
  const search = html("input", {type: "search", placeholder: "job, F3, entry or fault", "aria-label": "search"});
  const told = html("span", {class: "found", role: "status"});
  place.append(html("div", {class: "tools"}, zoomOut, zoomIn, whole, colouring, search, told), svg,
    html("p", {class: "soft"}, "Wheel, pinch, + and − zoom; drag, and the arrow keys with Shift, move; the arrow keys go",
      " from job to job, and Enter chooses one."));

  function width() { return Math.max(260, place.clientWidth); }
  function scale() { return (width() - left - right) / (view.to - view.from); }
  function x(time) { return left + (time - view.from) * scale(); }

  // The first bar of a row that ends behind a time.
  function firstOf(row, time) {
    let low = 0, high = row.length;
    while (low < high) {
      const middle = (low + high) >> 1;
      if (bars.to[row[middle]] > time) high = middle; else low = middle + 1;
    }
    return low;
  }

  function seen(row) {
    const some = [];
    for (let k = firstOf(row, view.from); k < row.length && bars.from[row[k]] < view.to; k++) some.push(row[k]);
    return some;
  }

  function box(begin, end, y, more) {
    const from = Math.max(left, x(begin)), to = Math.min(width() - right, x(end));
    return draw("rect", {x: from.toFixed(2), y: y, width: Math.max(1.5, to - from - .5).toFixed(2), height: tall - 5,
      ...more});
  }

  function drawBar(k, y) {
    const n = number(k), {colour, lines} = look(n);
    const part = [];
    const kind = "bar" + (hits.length && !found.has(k) ? " dim" : "") + (chosen === "bar" + k ? " chosen" : "") +
      (cursor === k ? " cursor" : "");
    const rect = box(bars.from[k], bars.to[k], y, {class: kind, "data-bar": k, fill: colour});
    rect.append(draw("title", {}, "job " + (k + 1) + ": " + names[bars.entry[k]] + ", from " + bars.from[k] + " to " +
      bars.to[k]));
    part.push(rect);
    const wide = Number(rect.getAttribute("width")), begin = Number(rect.getAttribute("x"));
    if (lines) part.push(pattern(lines, begin, wide, y));
    const text = wide > 90 ? letter(k) + " " + (k + 1) + " " + names[bars.entry[k]] : letter(k);
    if (wide >= 7 * letter(k).length + 5) {
      part.push(draw("text", {x: begin + 3, y: y + tall - 9, class: "letter" + (dark.includes(n % 8) ? " light" : "")},
        text.slice(0, Math.max(letter(k).length, Math.floor((wide - 6) / 6.6)))));
    }
    if (bars.fault[k]) part.push(draw("path", {class: "fault", d: "M" + (begin + wide) + "," + y + " v" + (tall - 5)}));
    return part;
  }

  // A row by pieces of time: how much of each it was busy, and the look that most of that has.
  function drawPieces(some, y) {
    const wide = Math.max(leastPiece, (width() - left) * rows.length / mostBoxes);
    const pieces = [];
    for (const k of some) {
      const first = Math.floor((x(Math.max(view.from, bars.from[k])) - left) / wide);
      const last = Math.floor((x(Math.min(view.to, bars.to[k])) - left) / wide);
      for (let n = first; n <= last; n++) {
        const begin = view.from + n * wide / scale(), end = begin + wide / scale();
        const busy = Math.min(end, bars.to[k]) - Math.max(begin, bars.from[k]);
        if (busy <= 0) continue;
        const piece = pieces[n] = pieces[n] || {busy: 0, jobs: 0, of: new Map(), hit: false, first: k};
        piece.busy += busy;
        piece.jobs++;
        piece.hit = piece.hit || found.has(k);
        const look = number(k) % colours.length;
        piece.of.set(look, (piece.of.get(look) || 0) + busy);
      }
    }
    const part = [];
    pieces.forEach((piece, n) => {
      const main = [...piece.of].reduce((one, other) => other[1] > one[1] ? other : one)[0];
      const share = Math.min(1, piece.busy / (wide / scale()));
      const high = Math.max(2, Math.round((tall - 5) * share));
      const rect = draw("rect", {x: (left + n * wide).toFixed(2), y: y + tall - 5 - high, width: wide.toFixed(2),
        height: high, fill: colours[main], class: "piece" + (hits.length && !piece.hit ? " dim" : ""),
        "data-first": piece.first});
      rect.append(draw("title", {}, piece.jobs + " jobs, " + Math.round(share * 100) + " % busy"));
      part.push(rect);
    });
    return part;
  }

  function drawWaits(y) {
    const part = [];
    let end = -1;
    for (let k = 0; k < waits.from.length; k++) {
      if (waits.to[k] <= view.from || waits.from[k] >= view.to) continue;
      if (x(waits.to[k]) - end < 2) continue;
      const reason = play.reasons[waits.reason[k]];
      const kind = {"?": "Q", "": ""}[reason.kind];
      const thin = (waits.to[k] - waits.from[k]) * scale() < 4 ? " thin" : "";
      const rect = box(waits.from[k], waits.to[k], y, {"data-wait": k, class: "wait " +
        (kind === undefined ? reason.kind : kind) + thin + (chosen === "wait" + k ? " chosen" : "")});
      rect.append(draw("title", {}, "from " + waits.from[k] + " to " + waits.to[k] + ": " + reason.told));
      part.push(rect);
      end = Number(rect.getAttribute("x")) + Number(rect.getAttribute("width"));
      if (part.length > mostBoxes) break;
    }
    return part;
  }

  function drawTimes(y) {
    const part = [];
    const about = (view.to - view.from) * 90 / (width() - left);
    const power = 10 ** Math.floor(Math.log10(Math.max(1, about)));
    const step = Math.max(1, [1, 2, 5, 10].map((n) => n * power).find((n) => n >= about) || power);
    for (let time = Math.ceil(view.from / step) * step; time <= view.to; time += step) {
      const at = x(time);
      part.push(draw("path", {class: "grid", d: "M" + at.toFixed(1) + ",0 v" + (y - 2)}));
      const told = time.toLocaleString("en");
      if (at + letterWidth * told.length < width()) part.push(draw("text", {x: at.toFixed(1), y: y + 11}, told));
    }
    return part;
  }

  function redraw() {
    const parts = [];
    const every = rows.map(seen);
    const number = every.reduce((sum, some) => sum + some.length, 0);
    const single = number <= most;
    const bottom = tall * (rows.length + 1);
    parts.push(...drawTimes(bottom + 4));
    every.forEach((some, row) => {
      parts.push(draw("text", {x: 2, y: tall * row + tall - 9}, (rows.length > 16 ? "" : "worker ") + (row + 1)));
      if (single) for (const k of some) parts.push(...drawBar(k, tall * row));
      else parts.push(...drawPieces(some, tall * row));
    });
    parts.push(draw("text", {x: 2, y: bottom - 9}, "waits"), ...drawWaits(bottom - tall));
    svg.setAttribute("width", width());
    svg.setAttribute("height", bottom + 20);
    svg.setAttribute("aria-label", number + " of " + count + " jobs in view, from " + Math.round(view.from) + " to " +
      Math.round(view.to));
    svg.dataset.from = view.from;
    svg.dataset.to = view.to;
    svg.dataset.single = single;
    svg.replaceChildren(...parts);
  }

  let due = false;
  function later() {
    if (due) return;
    due = true;
    requestAnimationFrame(() => { due = false; redraw(); });
  }

  // zoom and pan

  function show(from, to) {
    const end = Math.max(1, play.end), span = Math.min(Math.max(to - from, Math.min(end, least)), end);
    from = Math.min(Math.max(0, from), end - span);
    view = {from: from, to: from + span};
    later();
  }

  function zoom(factor, middle) {
    const span = (view.to - view.from) / factor;
    const part = (middle - view.from) / (view.to - view.from);
    show(middle - span * part, middle + span * (1 - part));
  }

  function pan(share) { show(view.from + (view.to - view.from) * share, view.to + (view.to - view.from) * share); }
  function centre() { return (view.from + view.to) / 2; }
  function timeAt(clientX) { return view.from + (clientX - svg.getBoundingClientRect().left - left) / scale(); }

  // Brings a bar into view, near enough that it can be seen.
  function reveal(k) {
    const length = Math.max(1, bars.to[k] - bars.from[k]), middle = (bars.from[k] + bars.to[k]) / 2;
    let span = view.to - view.from;
    if (svg.dataset.single !== "true" || length * scale() < 4) span = Math.min(span, length * 40);
    if (bars.from[k] < view.from || bars.to[k] > view.to || span !== view.to - view.from) {
      show(middle - span / 2, middle + span / 2);
    }
    later();
  }

  svg.addEventListener("wheel", (event) => {
    event.preventDefault();
    const size = event.deltaMode === 1 ? 16 : 1;
    if (event.shiftKey || Math.abs(event.deltaX) > Math.abs(event.deltaY)) {
      pan((event.deltaX || event.deltaY) * size / width());
    } else {
      zoom(Math.exp(-event.deltaY * size * .002), timeAt(event.clientX));
    }
  }, {passive: false});

  const fingers = new Map();
  let moved = 0;
  svg.addEventListener("pointerdown", (event) => {
    if (!fingers.size) moved = 0;
    fingers.set(event.pointerId, event.clientX);
  });
  svg.addEventListener("pointermove", (event) => {
    if (!fingers.has(event.pointerId)) return;
    const before = [...fingers.values()];
    const step = event.clientX - fingers.get(event.pointerId);
    fingers.set(event.pointerId, event.clientX);
    moved += Math.abs(step);
    if (moved > 4 && !svg.hasPointerCapture(event.pointerId)) svg.setPointerCapture(event.pointerId);
    if (fingers.size === 1) {
      show(view.from - step / scale(), view.to - step / scale());
    } else {
      const now = [...fingers.values()];
      const gap = Math.abs(before[0] - before[1]), wider = Math.abs(now[0] - now[1]);
      if (gap > 8 && wider > 8) zoom(wider / gap, timeAt((now[0] + now[1]) / 2));
    }
  });
  for (const kind of ["pointerup", "pointercancel", "lostpointercapture"]) {
    svg.addEventListener(kind, (event) => fingers.delete(event.pointerId));
  }
  svg.addEventListener("click", (event) => {
    event.stopPropagation();
    if (moved > 4) return;
    const {bar, wait, first} = event.target.dataset;
    if (bar !== undefined) choose("bar=" + bar);
    else if (wait !== undefined) choose("wait=" + wait);
    else if (first !== undefined) zoom(8, timeAt(event.clientX));
  });

  svg.addEventListener("keydown", (event) => {
    const keys = {
      "+": () => zoom(1.5, centre()), "=": () => zoom(1.5, centre()), "-": () => zoom(1 / 1.5, centre()),
      "0": () => show(0, play.end), PageUp: () => pan(-.8), PageDown: () => pan(.8),
      Home: () => goTo(0), End: () => goTo(count - 1),
      ArrowLeft: () => event.shiftKey ? pan(-.2) : goTo(cursor - 1),
      ArrowRight: () => event.shiftKey ? pan(.2) : goTo(cursor + 1),
      Enter: () => choose("bar=" + cursor), " ": () => choose("bar=" + cursor),
    };
    if (!keys[event.key] || event.ctrlKey || event.metaKey || event.altKey) return;
    keys[event.key]();
    event.preventDefault();
    event.stopPropagation();
  });

  function goTo(k) {
    cursor = Math.min(Math.max(0, k), count - 1);
    reveal(cursor);
  }

  // search

  function fits(word) {
    const upper = word.toUpperCase();
    const forlopp = /^F(\d+)$/.exec(upper), job = /^\d+$/.exec(word);
    if (job) return (k) => k + 1 === Number(word);
    if (forlopp) return (k) => bars.forlopp[k] === Number(forlopp[1]);
    return (k) => names[bars.entry[k]].includes(upper) || (bars.fault[k] || "").includes(upper);
  }

  function lookFor() {
    const word = search.value.trim();
    hits = [];
    at = -1;
    found.clear();
    if (word) {
      const fit = fits(word);
      for (let k = 0; k < count; k++) if (fit(k)) hits.push(k);
      for (const k of hits) found.add(k);
    }
    told.textContent = word ? (hits.length ? hits.length + " found: Enter goes to each" : "none found") : "";
    later();
  }

  search.addEventListener("input", lookFor);
  search.addEventListener("keydown", (event) => {
    if (event.key !== "Enter" || !hits.length) return;
    at = (at + (event.shiftKey ? hits.length - 1 : 1)) % hits.length;
    told.textContent = (at + 1) + " of " + hits.length;
    goTo(hits[at]);
    choose("bar=" + hits[at]);
    event.preventDefault();
  });
  zoomIn.addEventListener("click", () => zoom(2, centre()));
  zoomOut.addEventListener("click", () => zoom(.5, centre()));
  whole.addEventListener("click", () => show(0, play.end));
  colouring.addEventListener("change", () => { by = colouring.value; later(); });
  new ResizeObserver(later).observe(place);
  redraw();

  return {
    // Marks what is chosen; nothing with null.
    mark(kind, k) {
      chosen = kind && kind + k;
      if (kind === "bar") {
        cursor = k;
        reveal(k);
      }
      later();
    },
  };
}
