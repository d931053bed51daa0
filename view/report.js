// The reports of a session's output, and what they tell together with the session's text. All times are microseconds from the plan's
// start. A field of a report stands before what the text says.
"use strict";
const DAY = 86400e6;
const replies = JSON.parse(document.getElementById("output").textContent).filter((it) => it && !Array.isArray(it) && it.client !== undefined);
const grouped = (it) => String(it).replace(/\B(?=(\d{3})+(?!\d))/g, ",");
// A value as it is read: digits in groups, and truths, variants and texts as they are.
const plain = (it) => (/^-?\d+$/.test(String(it)) ? grouped(it) : String(it));
let session = null;
try {
  const text = document.getElementById("session");
  if (text) session = read_session(text.textContent);
} catch (refused) {
  console.warn(`the session's text is not read: ${refused.message}`);
}

// The plan's start in milliseconds since 1970, as the report or the session has it, or as a span's time in the calendar tells.
function start_of(ok) {
  const span = ok.spans.find((it) => it.utc);
  const told = ok.start || (session && session.start), text = told || (span && span.utc);
  if (!text) return null;
  const [, year, date, day, clock] = /^(\d{4})-(?:(\d\d-\d\d)|(\d{3}))T([\d:.]+)Z?$/.exec(text);
  const [h, m, s] = clock.split(":").map(Number);
  const from = date ? Date.parse(`${year}-${date}T00:00:00Z`) : Date.UTC(+year, 0, +day);
  return from + ((h * 60 + m) * 60 + s) * 1000 - (told ? 0 : span.start / 1000);
}

// The rules of a sort of the report's model, from the session's text.
const rules_of = (ok, sort) => (session ? session[sort].filter((it) => it.model === (ok.model || session.models[0].name)) : []);

// The schedules of this output on the branch up to the report's revision.
const schedules_on = (ok) => replies.filter((it) => it.ok && it.ok.goals && it.ok.branch === ok.branch && it.ok.revision <= ok.revision)
  .sort((a, b) => a.ok.revision - b.ok.revision).map((it) => ({ ...it.ok, name: `revision ${it.ok.revision} (${it.client}, command ${it.command})` }));

// What each constraint names: as a report with details tells, and else as the session's text says, which alone has the texts and limits.
function constraints_of(ok, rules, datasets) {
  const is_dataset = (name) => datasets.some((it) => it.name === name);
  const written = rules.map((it) => ({ ...it, resources: it.names.filter((name) => !is_dataset(name)), datasets: it.names.filter(is_dataset) }));
  if (!ok.constraints) return written;
  return ok.constraints.map((it) => ({ text: "", comparisons: [], datasets: [], ...written.find((other) => other.name === it.name), ...it }));
}

// The datasets that a report tells, and behind them the others of the session, of which goals may name some.
function datasets_of(ok) {
  const told = (ok.datasets || []).map((it) => ({ ...it, told: true })), names = new Set(told.map((it) => it.name));
  return [...told, ...(session ? session.datasets : []).filter((it) => !names.has(it.name))];
}

function report_of(reply) {
  const ok = reply.ok, reach = ok.reach;
  const spans = ok.spans.map((it) => ({ ...it, to: it.end === null ? reach : it.end, children: [] }));
  const by_path = new Map(spans.map((it) => [it.path, it]));
  for (const it of spans) {
    it.parent = (it.path.includes(".") && by_path.get(it.path.slice(0, it.path.lastIndexOf(".")))) || null;
    if (it.parent) it.parent.children.push(it);
  }
  const schedules = schedules_on(ok), by_id = new Map();
  for (const it of schedules) for (const goal of it.goals) for (const id of goal.placed) by_id.set(String(id), goal.goal);
  for (const it of spans) it.goal = it.parent ? undefined : by_id.get(it.path);
  // Behind an interval of two types that are forbidden together may stand the paths of two spans that meet.
  const violations = (ok.violations || []).flatMap((it) => it.intervals.map(([from, to, ...pair]) => ({ constraint: it.constraint, path: it.path, from, to, pair: pair.flat() })));
  const rules = rules_of(ok, "constraints"), asked = rules_of(ok, "goals"), datasets = datasets_of(ok);
  const named = new Set([...rules, ...asked].flatMap((it) => it.names));
  const constraints = constraints_of(ok, rules, datasets);
  const series = [...ok.profiles.map((it) => ({ ...it, dataset: false })),
    ...datasets.filter((it) => it.told || named.has(it.name)).map((it) => ({ ...it, dataset: true }))];
  const name = `${ok.branch}, revision ${ok.revision} (${reply.client}, command ${reply.command})`;
  const length = ok.duration || (session && session.duration) || reach || 1;
  return { name, ok, reach, length, spans, by_path, series, violations, schedules, asked, zero: start_of(ok), constraints };
}
const reports = replies.filter((it) => it.ok && it.ok.profiles).map(report_of);

// ---- times and values

function moment(report, at) {
  if (report.zero === null) return `${grouped(at)} us`;
  const micros = BigInt(Math.round(report.zero * 1000)) + BigInt(at), rest = String(((micros % 1000000n) + 1000000n) % 1000000n).padStart(6, "0");
  const text = new Date(Number((micros - BigInt(rest)) / 1000n)).toISOString();
  return `${text.slice(0, 10)} ${text.slice(11, 19)}${rest === "000000" ? "" : "." + rest.replace(/0+$/, "")}`;
}
// Without the date, where the whole plan is of one day.
function brief(report, at) {
  const text = moment(report, at), [from, to] = [0, Math.max(0, report.length - 1)].map((it) => moment(report, it).slice(0, 10));
  return report.zero !== null && from === to ? text.slice(11) : text;
}
function lasting(micros) {
  let text = "", left = Math.abs(micros);
  for (const [unit, size] of Object.entries(UNITS)) if (left >= size) [text, left] = [`${text}${Math.floor(left / size)}${unit}`, left % size];
  return `${micros < 0 ? "-" : ""}${text || "0us"}`;
}
const segment_at = (series, at) => {
  const place = d3.bisector((it) => it[0]).right(series.segments, at) - 1;
  return place < 0 ? null : series.segments[place];
};
// The value at a time, in plain numbers: sums of linear resources go beyond what a number keeps.
function value_at(series, at) {
  const it = segment_at(series, at);
  if (!it) return "";
  return plain(it.length === 3 ? BigInt(it[1]) + BigInt(it[2]) * BigInt(Math.floor(at - it[0])) : it[1]);
}
// The texts that stand for values, where they are truths or variants.
const names_of = (all) => {
  const values = all.flatMap((it) => it.segments.map((segment) => segment[1]));
  if (values.some((it) => typeof it === "boolean")) return ["false", "true"];
  if (!values.some((it) => typeof it === "string" && it.includes("."))) return null;
  return [...new Set(values)].sort();
};
// The points of a series; `level` gives a place to a value.
function points(series, reach, level) {
  const made = [];
  series.segments.forEach((it, place) => {
    if (it[0] > reach) return;
    const to = place + 1 < series.segments.length ? Math.min(reach, series.segments[place + 1][0]) : reach;
    const value = level(it[1]);
    made.push([it[0], value], [to, it.length === 3 ? value + Number(it[2]) * (to - it[0]) : value]);
  });
  return made;
}

// ---- limits: where a comparison of a constraint turns, in the unit of one resource or dataset that it names

function limits_of(report, series) {
  const made = [];
  for (const rule of report.constraints) for (const it of rule.comparisons) {
    const factor = it.factors.get(series.name);
    const others = [...it.factors].filter(([name, by]) => by && name !== series.name).map(([name, by]) => [report.series.find((other) => other.name === name), by]);
    // A dataset is a limit itself where a resource stands beside it.
    if (!factor || others.some(([other]) => !other) || (series.dataset && others.some(([other]) => !other.dataset))) continue;
    const times = [...new Set([0, ...others.flatMap(([other]) => other.segments.map((segment) => segment[0]))])].sort((a, b) => a - b).filter((at) => at <= report.reach);
    const segments = times.map((at) => {
      let value = it.constant, rate = 0;
      for (const [other, by] of others) {
        const [from, first, rise = 0] = segment_at(other, at);
        value += by * (Number(first) + Number(rise) * (at - from));
        rate += by * Number(rise);
      }
      return [at, value / -factor || 0, rate / -factor || 0];
    });
    const same = made.find((other) => JSON.stringify(other.segments) === JSON.stringify(segments));
    if (!same) made.push({ rules: [rule], text: it.text, segments });
    else if (!same.rules.includes(rule)) same.rules.push(rule);
  }
  return made;
}

// ---- what a goal lacks in a report

const starts_of = (report, goal) => report.spans.filter((it) => it.type === goal.type && Object.entries({ ...types_of(report)[goal.type], ...goal.arguments })
  .every(([name, value]) => it.arguments[name] === value)).map((it) => it.start).sort((a, b) => a - b);
const types_of = (report) => (session.models.find((it) => it.name === (report.ok.model || session.models[0].name)) || { types: {} }).types;
function lacking(report, goal) {
  const starts = starts_of(report, goal), inside = goal.kind === "coexistence" ? [] : starts.filter((it) => it >= goal.from && it < goal.to);
  if (goal.kind === "cardinality") return inside.length < goal.count ? `${inside.length} of ${goal.count} starts are in the range` : "";
  if (goal.kind === "recurrence") {
    const marks = [goal.from, ...inside, goal.to], gap = marks.findIndex((it, place) => place > 0 && it - marks[place - 1] > goal.every);
    return gap < 0 ? "" : `no start from ${brief(report, marks[gap - 1])} to ${brief(report, marks[gap])}`;
  }
  if (!goal.of) return "";
  const anchors = report.spans.filter((it) => it.type === goal.of && (goal.edge === "start" || it.end !== null)).map((it) => (goal.edge === "start" ? it.start : it.end)).sort((a, b) => a - b);
  const bare = anchors.find((at) => !starts.some((it) => it >= at + goal.low && it <= at + goal.high));
  return bare === undefined ? "" : `no start from ${lasting(goal.low)} to ${lasting(goal.high)} after ${brief(report, bare)}`;
}
// The last gap of a goal. Of a recurrence and a coexistence it is a time, of a cardinality how many starts there are: the session's text
// tells of which kind the goal is.
function gap_told(report, goal, gap) {
  if (!goal) return `last gap: ${grouped(gap)}`;
  if (goal.kind === "cardinality") return `last gap: ${gap} of ${goal.count} starts in the range`;
  const within = goal.kind === "recurrence" ? `in ${lasting(goal.every)}` : `from ${lasting(goal.low)} to ${lasting(goal.high)}`;
  return `last gap: no start ${within} after ${brief(report, gap)}`;
}
// Why a schedule of the report's branch left a goal unmet: as the schedule tells, or what can be seen: what is lacking in the run of its
// plan, and the constraints behind `keeping` that the plan before violates.
function why_unmet(report, schedule, told) {
  const made = [], why = told.why, goal = report.asked.find((it) => it.name === told.goal);
  const run_of = (revision) => reports.find((it) => it.ok.branch === report.ok.branch && it.ok.revision === revision);
  if (why && why.later) made.push("a later goal broke it");
  else if (why) {
    made.push(gap_told(report, goal, why.gap));
    made.push(why.tried === 1 ? "1 start was tried" : `${why.tried || "no"} starts were tried`);
    if (why.constraint) made.push(`the last was refused by ${why.constraint}, at ${brief(report, why.time)}`);
    else if (why.outcome) made.push(`the last run ended with ${JSON.stringify(why.outcome)}`);
  } else if (goal) {
    const before = run_of(schedule.revision - 1), after = run_of(schedule.revision);
    if (after) made.push(lacking(after, goal));
    if (before) for (const it of goal.keeping) if (before.violations.some((other) => other.constraint === it)) made.push(`the plan before violates ${it}, which it keeps`);
    if (goal.rollback && !told.placed.length) made.push("with rollback nothing of it stays");
  }
  return made.filter(Boolean);
}
