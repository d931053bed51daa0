// Draws the reports of a session: activities in lanes, resources and datasets as steps and lines with the limits that constraints set,
// violations, and two reports compared. With #test behind its address the page tries itself and writes what it sees; with #2 it begins with
// the second report, with #2,1 compared with the first.
"use strict";
const MOST_BARS = 6000; // drawn at once
const ROW = 18, RIGHT = 24;
let LEFT = 230; // where the time axis begins: as far as names and numbers beside the panels want
const make = (name, text, parent) => {
  const made = document.createElement(name);
  if (text !== undefined) made.textContent = text;
  if (parent) parent.append(made);
  return made;
};
// How wide a text is, by letters that were measured once.
const pens = new Map(), widths = new Map();
function width_of(text, font = "11px system-ui, sans-serif") {
  if (!pens.has(font)) {
    pens.set(font, document.createElement("canvas").getContext("2d"));
    pens.get(font).font = font;
  }
  const key = font + text;
  if (!widths.has(key)) widths.set(key, pens.get(font).measureText(text).width);
  return widths.get(key);
}
const name_width = (text) => width_of(text, "600 13px system-ui, sans-serif");
function shortened(text, room) {
  if (name_width(text) <= room) return text;
  let kept = text;
  while (kept && name_width(`${kept}…`) > room) kept = kept.slice(0, -1);
  return `${kept}…`;
}

const counted = (number, one, more) => `${grouped(number)} ${number === 1 ? one : more}`;

// ---- lanes: each root with its shown descendants is a block of rows; blocks of one type stand in the first rows that are free, and below
// them where roots of the type that moved were in the report compared with, or went.

function rows_below(span) {
  const rows = [];
  const put = (it) => {
    it.offset = row_for(rows, it) + 1;
    it.children.forEach(put);
  };
  span.children.forEach(put);
  return rows.length;
}
const last_of = (span) => span.children.reduce((most, it) => Math.max(most, last_of(it)), Math.max(span.to, span.start + 1));
// The first row that is free from a start on, which then ends with the span.
function row_for(ends, it) {
  const free = ends.findIndex((end) => end <= it.start), row = free < 0 ? ends.length : free;
  ends[row] = Math.max(it.to, it.start + 1);
  return row;
}
function lanes(report, folded, ghosts) {
  const by_type = d3.nest().key((it) => it.type).sortKeys(d3.ascending).entries([...report.spans, ...ghosts].filter((it) => !it.parent)), gone = new Set(ghosts);
  let top = 0;
  const groups = [], bars = [];
  for (const { key: type, values } of by_type) {
    const ends = [], before = [], shut = folded.has(type), roots = values.filter((it) => !gone.has(it));
    for (const root of roots) {
      const count = 1 + (shut ? 0 : rows_below(root)), end = shut ? Math.max(root.to, root.start + 1) : last_of(root);
      let row = 0;
      while (ends.slice(row, row + count).some((it) => it > root.start)) row++;
      for (let at = row; at < row + count; at++) ends[at] = end;
      const place = (it, child) => {
        bars.push({ span: it, row: top + row + (child ? it.offset : 0), child });
        if (!shut) it.children.forEach((below) => place(below, true));
      };
      place(root, false);
    }
    for (const it of values) if (gone.has(it)) bars.push({ span: it, row: top + ends.length + row_for(before, it), child: false, ghost: true });
    groups.push({ type, top, rows: ends.length + before.length, has_children: roots.some((it) => it.children.length) });
    top += ends.length + before.length;
  }
  return { groups, bars, rows: top };
}
// How far the text of a bar may reach: to the next bar of its row.
function note_room(bars) {
  const last = new Map();
  for (const it of [...bars].sort((a, b) => a.span.start - b.span.start)) {
    if (last.has(it.row)) last.get(it.row).next = it.span.start;
    it.next = Infinity;
    last.set(it.row, it);
  }
}

// ---- the page

const state = { first: reports.length - 1, second: -1, folded: new Set(), chosen: null, transform: d3.zoomIdentity };
location.hash.slice(1).split(",").slice(0, 2).forEach((it, place) => { if (reports[it - 1]) state[place ? "second" : "first"] = it - 1; });
const header = make("header", undefined, document.body), main = make("main", undefined, document.body);
make("h1", "Plan", header);
const left = make("div", undefined, main), charts = make("div", undefined, left), legend = make("div", undefined, left);
const side = make("aside", undefined, main), tip = make("div", undefined, document.body);
charts.id = "charts";
legend.id = "legend";
tip.id = "tip";
tip.hidden = true;
function choice(label, none, chosen, change) {
  const box = make("label", `${label} `, header), list = make("select", undefined, box);
  if (none) make("option", none, list).value = -1;
  reports.forEach((it, number) => (make("option", `${number + 1}: ${it.name}`, list).value = number));
  list.value = chosen;
  list.onchange = () => change(Number(list.value));
  return list;
}
function button(text, title, action, parent = header) {
  const made = make("button", text, parent);
  made.type = "button";
  made.title = title;
  made.onclick = action;
  return made;
}
const first_list = choice("Report", null, state.first, (it) => { state.first = it; state.chosen = null; show(); });
const second_list = choice("compared with", "none", state.second, (it) => { state.second = it; show(); });
button("+", "closer (key +)", () => zoom_by(2));
button("−", "farther (key -)", () => zoom_by(0.5));
button("all", "the whole plan (key 0)", () => zoom_to(0, reports[state.first].length));
button("fold", "children under their parents, or not (key f)", () => fold_all());
const told = make("span", "", header), left_out = make("span", "", header);
left_out.id = "left_out";

let view = null; // what is laid out: the report, the one beside it, scales, panels, bars

function difference(one, two) {
  const moved = new Set(), came = new Set(), went = [], ghosts = [];
  if (two) {
    for (const it of one.spans) {
      const other = two.by_path.get(it.path);
      if (!other) came.add(it.path);
      else if (other.start !== it.start || other.end !== it.end || other.type !== it.type) moved.add(it.path);
    }
    for (const it of two.spans) if (!one.by_path.has(it.path)) went.push(it);
    for (const it of two.spans) if (!it.parent && (moved.has(it.path) || !one.by_path.has(it.path))) ghosts.push(it);
  }
  return { moved, came, went, ghosts };
}

// The violations that a panel of this series shades: those of constraints that name it, where it is known which they name.
const of_series = (report, series) => report.violations.filter((it) => {
  const found = report.constraints.find((constraint) => constraint.name === it.constraint);
  return found && (found[series.dataset ? "datasets" : "resources"] || []).includes(series.name);
});
// The violations of a bar: those of its own, and those that no span has, of a constraint that names its type, while it lasts.
function of_spans(report) {
  const made = new Map(), add = (path, it) => made.set(path, [...(made.get(path) || []), it]);
  for (const it of report.violations) {
    for (const path of it.path === null ? it.pair : [it.path]) add(path, it);
    if (it.path !== null) continue;
    const found = report.constraints.find((constraint) => constraint.name === it.constraint), types = (found && found.types) || [];
    for (const span of report.spans) if (types.includes(span.type) && span.start < it.to && span.to > it.from && !it.pair.includes(span.path)) add(span.path, it);
  }
  return made;
}

function show() {
  const report = reports[state.first], other = reports[state.second] || null;
  const series = report.series.map((it) => series_of(report, other, it));
  const wanted = [160, ...series.map((it) => name_width(it.series.name) + d3.max(it.ticks, (tick) => width_of(it.said(tick))) + 32),
    ...[...new Set(report.spans.filter((it) => !it.parent).map((it) => it.type))].map((it) => name_width(it) + 36)];
  LEFT = Math.min(d3.max(wanted), 340);
  const width = Math.max(500, charts.clientWidth), length = Math.max(report.length, other ? other.length : 0, 1);
  const base = d3.scaleLinear().domain([0, length]).range([LEFT, width - RIGHT]);
  const changed = difference(report, other);
  view = { report, other, width, length, base, x: base, changed, lanes: lanes(report, state.folded, changed.ghosts), panels: [], violated: of_spans(report), shows: new Set() };
  charts.textContent = "";
  time_panel();
  activities_panel();
  for (const it of series) series_panel(it);
  if (report.violations.length) violations_panel();
  const outcome = report.ok.outcome === "completed" ? "completed" : JSON.stringify(report.ok.outcome);
  const lasts = report.length > report.reach ? `, ${lasting(report.reach)} of ${lasting(report.length)}` : `, ${lasting(report.length)}`;
  told.textContent = `from ${moment(report, 0)}${lasts}; ${outcome}; ${counted(report.spans.length, "activity", "activities")}, ${counted(report.violations.length, "violation", "violations")}` +
    (other ? `; ${view.changed.moved.size} moved, ${view.changed.came.size} came, ${view.changed.went.length} went` : "");
  told.className = report.ok.outcome === "completed" ? "" : "bad";
  redraw();
  side_panel();
  signs();
}

function panel(height, name, kind) {
  const svg = d3.select(charts).append("svg").attr("width", view.width).attr("height", height).attr("viewBox", `0 0 ${view.width} ${height}`)
    .attr("class", `panel ${kind}`).attr("role", "img").attr("aria-label", name);
  const clip = `clip${view.panels.length}`;
  svg.append("clipPath").attr("id", clip).append("rect").attr("x", LEFT).attr("width", view.width - LEFT - RIGHT).attr("height", height);
  const made = { svg, name, height, draw: () => {}, back: svg.append("g").attr("clip-path", `url(#${clip})`), body: svg.append("g").attr("clip-path", `url(#${clip})`) };
  made.cursor = svg.append("line").attr("class", "cursor").attr("y1", 0).attr("y2", height).attr("visibility", "hidden");
  view.panels.push(made);
  return made;
}
function label(made, text, y, room = LEFT - 16) {
  const drawn = made.svg.append("text").attr("class", "name").attr("x", 8).attr("y", y).text(shortened(text, room));
  drawn.append("title").text(text);
  return drawn;
}

function time_panel() {
  const made = panel(42, "time", "axis");
  const axis = made.svg.append("g").attr("class", "axis").attr("transform", "translate(0,40)");
  made.reading = made.svg.append("text").attr("class", "reading").attr("x", 8).attr("y", 16);
  const unit = made.svg.append("text").attr("class", "unit tick").attr("x", 8).attr("y", 33);
  made.draw = (x) => {
    const [from, to] = x.domain(), micros = to - from, ticks = Math.max(2, (view.width - LEFT) / 90), zero = view.report.zero;
    let days = [];
    if (zero === null || micros < 20000) {
      // No calendar, or too short for it.
      const [size, name] = [[DAY, "days"], [3600e6, "hours"], [60e6, "minutes"], [1e6, "seconds"], [1e3, "milliseconds"]].find(([it]) => micros >= 2 * it) || [1, "microseconds"];
      const scale = d3.scaleLinear().domain([from / size, to / size]).range(x.range());
      axis.call(d3.axisTop(scale).ticks(ticks).tickFormat((it) => (Number.isInteger(it) || size > 1 ? grouped(+it.toFixed(6)) : "")));
      unit.text(name);
      days = [[from, `from the plan's start${zero === null ? "" : `, ${moment(view.report, 0)}`}`]];
    } else {
      const [first, last] = [from, to].map((it) => new Date(zero + it / 1000));
      const scale = d3.scaleUtc().domain([first, last]).range(x.range());
      axis.call(d3.axisTop(scale).ticks(ticks).tickFormat(d3.utcFormat(micros < 2e6 ? "%H:%M:%S.%L" : micros < 600e6 ? "%H:%M:%S" : "%H:%M")));
      unit.text("UTC");
      // The day at the left edge, and each midnight that has room beside the one before.
      const marks = [first];
      for (const it of d3.utcDay.range(d3.utcDay.ceil(first), last)) if (scale(it) - scale(marks[marks.length - 1]) > 160 && scale(it) < view.width - 160) marks.push(it);
      days = marks.map((it) => [(it - zero) * 1000, d3.utcFormat("%Y-%m-%d, day %j")(it)]);
    }
    const joined = made.svg.selectAll("text.day").data(days);
    joined.exit().remove();
    joined.enter().append("text").attr("class", "day name").attr("y", 14).merge(joined).attr("x", (it) => x(it[0])).text((it) => it[1]);
  };
}

function describe(span, ghost) {
  const report = ghost ? view.other : view.report;
  const rows = [["activity", `${span.path} ${span.type}`], ["start", `${moment(report, span.start)} (${grouped(span.start)} us)`],
    ["end", span.end === null ? "has not ended" : `${moment(report, span.end)} (after ${lasting(span.end - span.start)})`]];
  for (const [name, value] of Object.entries(span.arguments)) rows.push([name, plain(value)]);
  if (span.result !== null) rows.push(["result", plain(span.result)]);
  if (span.goal) rows.push(["placed by", span.goal]);
  if (ghost) return [...rows, ["in", `the report compared with`]];
  for (const it of view.violated.get(span.path) || []) rows.push(["violates", `${it.constraint}, ${moment(report, it.from)} to ${moment(report, it.to)}`]);
  const other = view.other && view.other.by_path.get(span.path);
  if (other && view.changed.moved.has(span.path)) rows.push(["was", `${moment(view.other, other.start)} to ${other.end === null ? "no end" : moment(view.other, other.end)}`]);
  return rows;
}
function definitions(rows, parent) {
  const list = make("dl", undefined, parent);
  for (const [name, value] of rows) { make("dt", name, list); make("dd", value, list); }
}

const class_of = (it) => ["bar", it.child && "child", it.span.end === null && "open", !it.ghost && view.violated.has(it.span.path) && "violated", it.ghost && "ghost",
  !it.ghost && view.changed.moved.has(it.span.path) && "moved", !it.ghost && view.changed.came.has(it.span.path) && "came", state.chosen === it.span.path && "chosen"].filter(Boolean);

// Writes a bar's text: in it, or behind it where there is room up to the next one. One that begins before what is in sight has its text
// where the sight begins.
function write_bar(node, it, x) {
  const at = x(it.span.start), hidden = Math.max(0, LEFT - at), size = Math.max(2, x(it.span.to) - at), [rect, text] = node.childNodes;
  const { path, type, goal } = it.span, texts = [...(goal ? [`${path} ${type} (${goal})`] : []), `${path} ${type}`, path];
  const fits = texts.find((said) => width_of(said) < size - hidden - 6), behind = (it.next === Infinity ? view.width - RIGHT : Math.min(x(it.next), view.width - RIGHT)) - at - size;
  const said = fits || texts.find((other) => width_of(other) < behind - 10) || "";
  node.setAttribute("transform", `translate(${at},${it.row * ROW + 4})`);
  node.classList.toggle("outside", !fits);
  rect.setAttribute("width", size);
  if (said) text.setAttribute("x", fits ? 4 + hidden : size + 4);
  if (text.textContent !== said) text.textContent = said;
}

// Whether a key presses what has the focus, as it presses a button.
function pressed() {
  const presses = d3.event.key === "Enter" || d3.event.key === " ";
  if (presses) d3.event.preventDefault();
  return presses;
}
function activities_panel() {
  const { groups, bars, rows } = view.lanes;
  const made = panel(Math.max(rows * ROW + 8, 24), "activities", "activities");
  for (const group of groups) {
    const drawn = label(made, `${group.has_children ? (state.folded.has(group.type) ? "▸ " : "▾ ") : ""}${group.type}`, group.top * ROW + 16);
    if (group.has_children) {
      const turn = () => { state.folded.has(group.type) ? state.folded.delete(group.type) : state.folded.add(group.type); show(); };
      drawn.attr("tabindex", 0).attr("role", "button").style("cursor", "pointer").on("click", turn).on("keydown", () => { if (pressed()) turn(); });
    }
    made.svg.append("line").attr("x1", 0).attr("x2", view.width).attr("y1", group.top * ROW + 2).attr("y2", group.top * ROW + 2).attr("stroke", "#e8ebee");
  }
  note_room(bars);
  for (const it of bars) for (const kind of class_of(it)) view.shows.add(kind);
  if (bars.some((it) => it.span.goal)) view.shows.add("mark");
  made.draw = (x) => {
    const [from, to] = x.domain();
    const sight = bars.filter((it) => it.span.start <= to && it.span.to >= from);
    const drawn = sight.slice(0, MOST_BARS);
    left_out.textContent = sight.length > drawn.length ? `${grouped(sight.length - drawn.length)} of ${grouped(sight.length)} bars in sight are left out: zoom in` : "";
    const joined = made.body.selectAll("g.bar").data(drawn, (it) => `${it.ghost ? "ghost" : ""}${it.span.path}`);
    joined.exit().remove();
    const fresh = joined.enter().append("g").attr("tabindex", 0).attr("role", "button");
    fresh.append("rect").attr("height", ROW - 4).attr("rx", 2);
    fresh.append("text").attr("y", 10).attr("x", 4);
    fresh.on("mousemove", (it) => hint(it)).on("mouseleave", () => (tip.hidden = true)).on("click", (it) => choose(it.span.path))
      .on("keydown", (it) => { if (pressed()) choose(it.span.path); }).on("focus", (it) => { if (it.span.to < x.domain()[0] || it.span.start > x.domain()[1]) zoom_to(it.span.start, it.span.to); });
    const shown = fresh.merge(joined);
    (state.chosen === made.chosen ? fresh : shown).attr("class", (it) => class_of(it).join(" "))
      .attr("aria-label", (it) => `${it.span.path} ${it.span.type}, ${moment(view.report, it.span.start)}`);
    made.chosen = state.chosen;
    shown.each(function (it) { write_bar(this, it, x); });
    draw_strips(made, drawn, x);
    const marks = made.body.selectAll("path.mark").data(drawn.filter((it) => it.span.goal && !it.ghost), (it) => it.span.path);
    marks.exit().remove();
    marks.enter().append("path").attr("class", "mark").attr("d", "M-4,-3L4,-3L0,3Z").merge(marks).attr("transform", (it) => `translate(${x(it.span.start)},${it.row * ROW + 4})`);
  };
}
// A strip along the foot of a bar, while it is violated.
function draw_strips(made, drawn, x) {
  const strips = drawn.flatMap((it) => (it.ghost ? [] : (view.violated.get(it.span.path) || []).map((violation) => ({ ...it, from: Math.max(violation.from, it.span.start), to: Math.min(violation.to, it.span.to) }))));
  const joined = made.body.selectAll("rect.strip").data(strips);
  joined.exit().remove();
  joined.enter().append("rect").attr("class", "strip").attr("height", 3).merge(joined).attr("y", (it) => it.row * ROW + ROW - 3)
    .attr("x", (it) => x(it.from)).attr("width", (it) => Math.max(2, x(it.to) - x(it.from))).raise();
}
// A series with its scale: the points of the report and of the one compared with, its limits, least and greatest values, ticks.
function series_of(report, other, series) {
  const beside = other && other.series.find((it) => it.name === series.name && it.dataset === series.dataset);
  const both = beside ? [series, beside] : [series], names = names_of(both);
  const level = names ? (it) => names.indexOf(String(it)) : Number;
  const lines = both.map((it, number) => points(it, number ? other.reach : report.reach, level));
  const values = lines.flatMap((it) => it.map((point) => point[1]));
  let least = names ? 0 : d3.min(values) || 0, most = names ? names.length - 1 : d3.max(values) || 0;
  const limits = names ? [] : limits_of(report, series).map((it) => ({ ...it, line: points(it, report.reach, Number) }));
  // A limit that stands far away is told, but the scale stays with the values.
  const away = Math.max(most - least, Math.abs(most), Math.abs(least), 1) * 3, [low, high] = [least - away, most + away];
  for (const it of limits.flatMap((limit) => limit.line.map((point) => point[1]))) if (it >= low && it <= high) [least, most] = [Math.min(least, it), Math.max(most, it)];
  const scale = d3.scaleLinear().domain([least, most]);
  const between = scale.ticks(3).filter((it) => Number.isInteger(it) && it > least + (most - least) * .2 && it < most - (most - least) * .2);
  const ticks = names ? d3.range(names.length) : least === most ? [least] : [least, ...between, most];
  const said = names ? (it) => names[it].replace(/^.*\./, "") : (it) => grouped(Math.round(it));
  return { series, beside, names, lines, limits, least, most, ticks, said };
}

function series_panel({ series, beside: other, names, lines, limits, least, most, ticks, said }) {
  const { report } = view, height = names ? Math.max(44, 18 + 16 * names.length) : limits.length ? 100 : 84;
  const made = panel(height, series.name, series.dataset ? "dataset" : "resource");
  const room = most > least ? 0 : 1, y = d3.scaleLinear().domain([least - room, most + room]).range([height - 10, 10]);
  const axis = d3.axisLeft(y).tickSize(3).tickSizeOuter(0).tickValues(ticks).tickFormat(said);
  made.svg.append("g").attr("class", "axis").attr("transform", `translate(${LEFT},0)`).call(axis);
  made.svg.append("rect").attr("class", "frame").attr("x", LEFT).attr("y", 4).attr("width", view.width - LEFT - RIGHT).attr("height", height - 8);
  const beside = d3.max(ticks, (it) => width_of(said(it)));
  label(made, series.name, 14, LEFT - beside - 24);
  if (series.dataset) made.svg.append("text").attr("class", "tick").attr("x", 8).attr("y", height - 8).text("dataset");
  made.reading = made.svg.append("text").attr("class", "reading").attr("x", 8).attr("y", 29);
  Object.assign(made, { series, beside: other });
  const violated = of_series(report, series);
  const path = d3.line().x((it) => made.x(it[0])).y((it) => y(it[1]));
  const line = (points, kind) => made.body.append("path").datum(points).attr("class", kind);
  const drawn = [...limits.map((it) => line(it.line, "limit")), ...lines.map((it, number) => line(it, number ? "other" : "first")).reverse()];
  const texts = limits.map((it) => made.body.append("text").attr("class", "limit_text").text(it.text));
  if (limits.length) view.shows.add("limit");
  if (violated.length) view.shows.add("violation");
  if (lines.length > 1) view.shows.add("other");
  made.draw = (x) => {
    made.x = x;
    const [from, to] = x.domain();
    for (const it of drawn) it.attr("d", (all) => path(all.slice(Math.max(0, d3.bisector((p) => p[0]).left(all, from) - 2), d3.bisector((p) => p[0]).right(all, to) + 2)));
    limits.forEach((it, number) => place_limit(it, texts[number], number, x, y, height));
    shade(made, violated, x, 4, height - 8);
  };
}
// The whole constraint, where there is room for it.
function limit_text(limit) {
  const whole = limit.rules.length === 1 && `${limit.rules[0].name}: ${limit.rules[0].text}`, fits = whole && width_of(whole) < (view.width - LEFT) * .5;
  const part = whole && limit.rules[0].text !== limit.text ? ", in part" : "";
  return (fits ? whole : `${limit.rules.map((it) => it.name).join(", ")}${part}: ${limit.text}`).replace(/\d{5,}/g, grouped);
}
// The text of a limit stands at one end of what is in sight, above its line or below where there is no room; beyond the scale it has an arrow.
function place_limit(limit, text, number, x, y, height) {
  const right = number % 2 === 0, at = Math.min(view.report.reach, Math.max(0, x.invert(right ? view.width - RIGHT - 60 : LEFT + 60)));
  const [from, value, rate] = segment_at(limit, at), high = y(value + rate * (at - from)), beyond = high < 0 ? "↑ " : high > height ? "↓ " : "";
  text.attr("x", right ? view.width - RIGHT - 6 : LEFT + 6).attr("text-anchor", right ? "end" : "start")
    .attr("y", Math.min(height - 8, high < 26 ? Math.max(high, 4) + 12 : high - 4)).text(`${beyond}${limit_text(limit)}`);
}
function shade(made, violations, x, top, height) {
  const joined = made.back.selectAll("rect.violation").data(violations);
  joined.exit().remove();
  joined.enter().append("rect").attr("class", "violation").attr("y", top).attr("height", height).merge(joined)
    .attr("x", (it) => x(it.from)).attr("width", (it) => Math.max(1.5, x(it.to) - x(it.from)));
}
function violations_panel() {
  const names = [...new Set(view.report.violations.map((it) => it.constraint))];
  const made = panel(names.length * ROW + 24, "violations", "violations");
  made.svg.append("text").attr("class", "tick").attr("x", 8).attr("y", 14).text("violations");
  names.forEach((it, row) => label(made, it, row * ROW + 32));
  const texts = made.body.append("g");
  made.draw = (x) => {
    shade(made, view.report.violations, x, 0, ROW - 6);
    made.back.selectAll("rect.violation").attr("y", (it) => names.indexOf(it.constraint) * ROW + 22);
    // The span that was asked about, behind its interval where there is room.
    const row_of = (it) => names.indexOf(it.constraint), ends = new Map();
    const told = view.report.violations.filter((it) => it.path !== null && x(it.to) >= LEFT && x(it.from) <= view.width - RIGHT).filter((it) => {
      const free = x(it.to) > (ends.get(row_of(it)) || 0);
      if (free) ends.set(row_of(it), x(it.to) + width_of(it.path) + 8);
      return free;
    }).slice(0, 400);
    const joined = texts.selectAll("text").data(told);
    joined.exit().remove();
    joined.enter().append("text").attr("class", "tick").merge(joined).attr("x", (it) => x(it.to) + 3).attr("y", (it) => row_of(it) * ROW + 32).text((it) => it.path);
  };
}

function redraw() {
  view.x = state.transform.rescaleX(view.base.copy().range([LEFT, view.width - RIGHT]));
  for (const it of view.panels) it.draw(view.x);
  if (view.cursor !== undefined) read_at(view.cursor);
}

// ---- the side panel, hints, the cursor

function side_panel() {
  const { report } = view;
  side.textContent = "";
  const span = state.chosen !== null && report.by_path.get(state.chosen), none = span ? "" : "none";
  make("h2", "Chosen", side).className = none;
  const box = make("div", span ? undefined : "an activity, by a click or Enter", side);
  box.id = "chosen";
  box.className = none;
  if (span) definitions(describe(span), box);
  listed_violations(report);
  if (view.other) listed_changes(report, view.other, view.changed);
  report.schedules.forEach(goals_of_schedule);
  if (report.ok.cells) table_of_cells(report, view.other);
  const refused = replies.filter((it) => it.refused);
  if (refused.length) {
    make("h2", `Refused commands (${refused.length})`, side);
    const all = make("ul", undefined, side);
    for (const it of refused) make("li", `${it.client}, command ${it.command}: ${it.refused.name}`, all);
  }
}
// A list of buttons, each of which shows something; above its length it says what it leaves out.
function listed(name, title, items, said, shows, hint_of = () => "show it") {
  make("h2", `${title} (${items.length})`, side);
  const list = make("ul", undefined, side);
  list.id = name;
  list.className = "jumps";
  for (const it of items.slice(0, 500)) button(said(it), hint_of(it), () => shows(it), make("li", undefined, list));
  if (items.length > 500) make("p", `${items.length - 500} more are not listed`, side);
}
function listed_violations(report) {
  const spans_of = (it) => (it.path === null ? it.pair : [it.path]), of = (it) => (spans_of(it).length ? ` at ${spans_of(it).join(" and ")}` : "");
  listed("violations", "Violations", report.violations, (it) => `${it.constraint}${of(it)}: ${brief(report, it.from)} for ${lasting(it.to - it.from)}`, (it) => {
    zoom_to(it.from, it.to);
    if (spans_of(it).length) choose(spans_of(it)[0]);
    read_at(it.from);
  }, (it) => (report.constraints.find((other) => other.name === it.constraint) || {}).text || "show it");
}
// What moved, came or went, by start; of children only those whose parent did not.
function listed_changes(report, other, { moved, came, went }) {
  const later = (it) => { const by = it.start - other.by_path.get(it.path).start; return by ? `${lasting(Math.abs(by))} ${by > 0 ? "later" : "earlier"}` : "lasts otherwise"; };
  const how = new Map([...report.spans.map((it) => [it, moved.has(it.path) ? later(it) : came.has(it.path) ? "came" : ""]), ...went.map((it) => [it, "went"])]);
  const changes = [...how.keys()].filter((it) => how.get(it) && !(it.parent && how.get(it.parent))).sort((a, b) => a.start - b.start);
  listed("changes", "Changes", changes, (it) => `${it.path} ${it.type}: ${how.get(it)}, ${brief(report, it.start)}`,
    (it) => (how.get(it) === "went" ? zoom_to(it.start, it.to) : show_span(it.path)));
}
// The state at the end of the run, as a report with details has it, and what the report compared with has otherwise.
function table_of_cells(report, other) {
  make("h2", `Cells at ${moment(report, report.reach)}`, side);
  const table = make("table", undefined, side), head = make("tr", undefined, make("thead", undefined, table)), body = make("tbody", undefined, table);
  table.id = "cells";
  const value_of = (it) => plain(it.kind === "accumulator" ? it.volume : it.value).replace(/^.*\./, "");
  const rates = report.ok.cells.some((it) => it.rate !== undefined), before = new Map(((other && other.ok.cells) || []).map((it) => [it.name, it]));
  for (const it of ["cell", "value", ...(rates ? ["rate"] : [])]) make("th", it, head);
  for (const it of report.ok.cells) {
    const row = make("tr", undefined, body), was = before.get(it.name), parts = [make("td", it.name, row), make("td", value_of(it), row)];
    if (rates) parts.push(make("td", it.rate === undefined ? "" : plain(it.rate), row));
    if (it.conflicted) make("div", "conflicted", parts[1]).className = "bad";
    if (was && value_of(was) !== value_of(it)) make("div", `was ${value_of(was)}`, parts[1]).className = "was";
    if (was && rates && was.rate !== it.rate) make("div", `was ${plain(was.rate)}`, parts[2]).className = "was";
  }
}
function goals_of_schedule(schedule) {
  make("h2", `Goals, ${schedule.name}, ${counted(schedule.trials, "trial", "trials")}`, side);
  const goals = make("ul", undefined, side);
  goals.className = "goals";
  for (const it of schedule.goals) {
    const line = make("li", undefined, goals), asked = view.report.asked.find((goal) => goal.name === it.goal);
    make("span", `${it.goal}: ${it.met ? "met" : "unmet"}`, line).className = it.met ? "met" : "unmet";
    if (it.placed.length) line.append(", placed ");
    for (const id of it.placed.slice(0, 60)) button(String(id), "show it", () => show_span(String(id)), line).className = "id";
    if (it.placed.length > 60) line.append(` and ${grouped(it.placed.length - 60)} more`);
    if (asked) make("div", asked.text, line).className = "asked";
    if (!it.met) for (const why of why_unmet(view.report, schedule, it)) make("div", why, line).className = "why";
  }
}
function show_span(path) {
  const span = view.report.by_path.get(path);
  if (!span) return;
  zoom_to(span.start, span.to);
  choose(path);
  read_at(span.start);
}
// What the signs of this report mean.
const SIGNS = [["bar", "an activity"], ["child", "a child of one"], ["open", "it has not ended"], ["mark", "a goal placed it"], ["violated", "a constraint is violated; the strip says when"], ["chosen", "chosen"],
  ["moved", "it moved, or lasts otherwise"], ["came", "it came"], ["ghost", "where it was, or went"], ["first", "the values"], ["other", "the values compared with"], ["limit", "where a constraint turns"], ["violation", "a constraint that names it is violated"]];
function signs() {
  legend.textContent = "";
  const list = make("ul", undefined, legend), lines = ["first", "other", "limit"];
  list.id = "signs";
  for (const [kind, meaning] of SIGNS) {
    if (!view.shows.has(kind) && !(kind === "first" && view.report.series.length)) continue;
    const item = make("li", undefined, list), svg = d3.select(item).append("svg").attr("width", 34).attr("height", 16).attr("aria-hidden", "true");
    if (lines.includes(kind)) svg.append("path").attr("class", kind).attr("d", "M2,8L32,8");
    else if (kind === "violation") svg.append("rect").attr("class", kind).attr("x", 2).attr("y", 1).attr("width", 30).attr("height", 14);
    else {
      svg.append("g").attr("class", kind === "mark" ? "bar" : `bar ${kind}`).append("rect").attr("x", 3).attr("y", 2).attr("width", 28).attr("height", 12).attr("rx", 2);
      if (kind === "mark") svg.append("path").attr("class", "mark").attr("d", "M0,0L8,0L4,6Z");
      if (kind === "violated") svg.append("rect").attr("class", "strip").attr("x", 12).attr("y", 11).attr("width", 12).attr("height", 3);
    }
    item.append(` ${meaning}`);
  }
}
function choose(path) {
  state.chosen = path;
  side_panel();
  redraw();
}
function hint(it) {
  tip.textContent = "";
  definitions(describe(it.span, it.ghost), tip);
  tip.hidden = false;
  tip.style.left = `${Math.min(d3.event.clientX + 14, innerWidth - 350)}px`;
  tip.style.top = `${Math.min(d3.event.clientY + 14, innerHeight - tip.offsetHeight - 8)}px`;
}
// Puts the cursor at a time, where the values of all panels are read; the keys , and . move it on by a hundredth of what is in sight.
function read_at(at) {
  view.cursor = at;
  const inside = at >= 0 && at <= view.length;
  for (const it of view.panels) {
    it.cursor.attr("visibility", inside ? "visible" : "hidden").attr("x1", view.x(at)).attr("x2", view.x(at));
    if (it.series) it.reading.text([it.series, it.beside].map((series, number) => (series && inside && at <= (number ? view.other : view.report).reach ? value_at(series, at) : "")).filter(Boolean).join(" / "));
    else if (it.reading) it.reading.text(inside ? moment(view.report, Math.floor(at)) : "");
  }
}

// ---- zoom, pan and keys: one zoom over all panels

const zoom = d3.zoom().scaleExtent([1, 1e9]).filter(() => !d3.event.button && !(d3.event.type === "wheel" && d3.event.shiftKey))
  .on("zoom", () => { state.transform = d3.event.transform; soon(); });
// Many moves of the wheel are one drawing.
let waiting = 0;
function soon() {
  if (location.hash === "#test") redraw();
  else if (!waiting) waiting = requestAnimationFrame(() => { waiting = 0; redraw(); });
}
const over = d3.select(charts).call(zoom).on("dblclick.zoom", null).on("mousemove.cursor", () => read_at(view.x.invert(d3.mouse(charts)[0])));
function zoom_to(from, to) {
  const margin = Math.max(1, (to - from) * .25), low = Math.max(0, from - margin), high = Math.min(view.length, to + margin);
  const scale = Math.max(1, view.length / Math.max(1, high - low));
  over.call(zoom.transform, d3.zoomIdentity.translate(LEFT - view.base(low) * scale, 0).scale(scale));
}
function step_cursor(by) {
  const [from, to] = view.x.domain(), inside = view.cursor >= from && view.cursor <= to;
  read_at(inside ? Math.min(to, Math.max(from, view.cursor + by * (to - from) / 100)) : from);
}
const zoom_by = (factor) => over.call(zoom.scaleBy, factor, [(LEFT + view.width - RIGHT) / 2, 0]);
function fold_all() {
  const types = view.lanes.groups.filter((it) => it.has_children).map((it) => it.type);
  state.folded = types.some((it) => !state.folded.has(it)) ? new Set(types) : new Set();
  show();
}
addEventListener("keydown", (event) => {
  if (event.ctrlKey || event.metaKey || event.altKey || event.target.tagName === "SELECT") return;
  const keys = { "+": () => zoom_by(2), "-": () => zoom_by(.5), 0: () => zoom_to(0, view.length), f: fold_all, ",": () => step_cursor(-1), ".": () => step_cursor(1),
    ArrowLeft: () => over.call(zoom.translateBy, 80 / state.transform.k, 0), ArrowRight: () => over.call(zoom.translateBy, -80 / state.transform.k, 0) };
  if (keys[event.key]) { keys[event.key](); event.preventDefault(); }
});

// ---- the test mode

function seen() {
  const all = (it) => [...document.querySelectorAll(it)], count = (it) => all(it).length, sight = view.x.domain().map(Math.round);
  return { bars: count("svg.panel g.bar:not(.ghost)"), ghosts: count("svg.panel g.bar.ghost"), open: count("svg.panel g.bar.open"), moved: count("svg.panel g.bar.moved"), came: count("svg.panel g.bar.came"),
    violated_bars: count("svg.panel g.bar.violated"), strips: count("svg.panel rect.strip"), marks: count("svg.panel path.mark"), panels: count("svg.panel"), series: count("svg.resource, svg.dataset"), datasets: count("svg.dataset"),
    shaded: count("svg.resource rect.violation, svg.dataset rect.violation"), violations: count("svg.violations rect.violation"),
    listed: all("#violations li").map((it) => it.textContent), changes: count("#changes li"), cells: all("#cells tbody tr").map((row) => [...row.children].map((it) => it.textContent)), unmet: count(".goals .unmet"), why: all(".goals .why").map((it) => it.textContent), limits: all(".limit_text").map((it) => it.textContent),
    labels: all("svg.panel g.bar text").filter((it) => it.textContent).length, lanes: view.lanes.groups.map((it) => it.type), left_out: left_out.textContent, told: told.textContent, sight,
    unit: document.querySelector(".unit").textContent, chosen: document.getElementById("chosen").textContent, readings: view.panels.filter((it) => it.series).map((it) => `${it.name}=${it.reading.text()}`) };
}
function try_itself() {
  const steps = { first: seen() };
  // The quickest of ten drawings, which other work of the machine delays least.
  steps.milliseconds = d3.min(d3.range(1, 11), (turn) => {
    const began = performance.now();
    state.transform = d3.zoomIdentity.translate(-turn, 0);
    redraw();
    return performance.now() - began;
  });
  zoom_to(view.length / 4, view.length / 2);
  read_at(Math.floor(view.length * .3));
  steps.zoomed = seen();
  if (view.report.violations.length) { document.querySelector("#violations button").click(); steps.jumped = seen(); }
  zoom_to(0, view.length);
  if (view.report.spans.length) { choose(view.report.spans[0].path); steps.chosen = seen(); }
  fold_all();
  steps.folded = seen();
  fold_all();
  steps.reports = reports.map((it, number) => { state.first = number; state.chosen = null; show(); return seen(); });
  if (reports.length > 1) { state.second = 0; second_list.value = 0; show(); steps.compared = seen(); }
  for (const key of [",", "."]) dispatchEvent(new KeyboardEvent("keydown", { key }));
  steps.stepped = [view.cursor, ...view.x.domain()];
  make("pre", JSON.stringify(steps), document.body).id = "seen";
}
if (location.hash === "#test") addEventListener("error", (event) => { make("pre", event.message, document.body).id = "wrong"; });

if (reports.length === 0) make("p", "This output has no report: no `simulate` was performed.", charts);
else {
  show();
  addEventListener("resize", show);
  if (location.hash === "#test") try_itself();
  document.body.dataset.height = Math.max(document.body.scrollHeight, side.offsetTop + side.scrollHeight);
}
