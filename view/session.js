// Reads from the session's text what reports do not tell: the plan's times, the datasets, and what constraints and goals say.
// It is for texts that the program performs; where it cannot read one, the page is drawn without.
"use strict";
const UNITS = { d: 86400e6, h: 3600e6, min: 60e6, s: 1e6, ms: 1e3, us: 1 };
const TOKEN = /"[^"\n]*"|`[^`]*`|(?:\d+(?:us|min|ms|[dhs]))+|\d+|\w+|:=|\+=|[=!<>]=|&&|\|\||->|\S/y;
const micros_of = (text) => [...text.matchAll(/(\d+)([a-z]+)/g)].reduce((sum, it) => sum + Number(it[1]) * UNITS[it[2]], 0);

// The tokens, each with its place in the text.
function tokens_of(text) {
  const made = [], between = /(?:\s|\/\/[^\n]*)*/y;
  let at = 0;
  for (;;) {
    between.lastIndex = at;
    TOKEN.lastIndex = at += between.exec(text)[0].length;
    const found = TOKEN.exec(text);
    if (!found) return made;
    made.push({ text: found[0], at, end: (at += found[0].length) });
  }
}

// A reader of tokens; `next` is the text of the one that comes.
function reader_of(text) {
  const tokens = tokens_of(text);
  let at = 0;
  const it = {
    next: (ahead = 0) => (at + ahead < tokens.length ? tokens[at + ahead].text : ""),
    take: () => { if (at >= tokens.length) throw new Error("the text ends early"); return tokens[at++].text; },
    is: (wanted) => it.next() === wanted && Boolean(++at),
    need: (wanted) => { if (!it.is(wanted)) throw new Error(`${wanted} was expected, not ${it.next()}`); },
    place: () => at,
    said: (from) => text.slice(tokens[from].at, tokens[at - 1].end).replace(/\s+/g, " "),
    signed: (read) => (it.is("-") ? -read(it.take()) : read(it.take())),
    // Takes all up to the bracket that closes the one that was taken last.
    close: () => { for (let depth = 1; depth > 0;) depth += { "{": 1, "}": -1 }[it.take()] || 0; },
  };
  return it;
}

function literal(it) {
  if (it.next(1) === ".") { const name = it.take(); it.take(); return `${name}.${it.take()}`; }
  if (it.next() === "true" || it.next() === "false") return it.take() === "true";
  return it.signed((text) => (/[a-z]/.test(text) ? micros_of(text) : Number(text)));
}
// `( NAME = literal, .. )`, also with types, as parameters have them; what has no value is undefined.
function given(it) {
  const made = {};
  it.need("(");
  while (!it.is(")")) {
    const name = it.take();
    if (it.is(":")) it.take();
    made[name] = it.is("=") ? literal(it) : undefined;
    it.is(",");
  }
  return made;
}

function model(it) {
  const made = { name: it.take(), types: {}, resources: [] };
  it.need("{");
  while (!it.is("}")) {
    const word = it.take();
    if (word === "discrete" || word === "linear") made.resources.push(it.take());
    if (word === "activity") { const name = it.take(); made.types[name] = given(it); }
    if (word === "{") it.close();
  }
  return made;
}

// What a window names: names of resources and datasets, types, and its comparisons of sums, `sum` being the left side less the right one.
function window_of(it, local, found, negated = false) {
  const sum = (made, sign) => {
    for (let more = it.is("-") ? -sign : sign; more; more = it.is("+") ? sign : it.is("-") ? -sign : 0) {
      const word = it.take(), number = /^\d/.test(word);
      const value = number ? more * (/[a-z]/.test(word) ? micros_of(word) : Number(word)) : more;
      if (number && !it.is("*")) { made.constant += value; continue; }
      const name = number ? it.take() : word;
      found.names.add(name);
      made.factors.set(name, (made.factors.get(name) || 0) + value);
    }
  };
  const atom = (not) => {
    if (it.is("not")) return atom(!not);
    if (it.is("(")) { window_of(it, local, found, not); return it.need(")"); }
    if (it.next() === "true" || it.next() === "false") return it.take();
    if (it.is("during")) {
      it.need("(");
      const name = it.take();
      if (name !== local) found.types.add(name);
      return it.need(")");
    }
    if (it.next() === "shift" || it.next() === "longer") {
      it.take();
      it.need("(");
      window_of(it, local, found, not);
      while (!it.is(")")) it.take();
      return null;
    }
    const equal = it.next(1) === "==" || it.next(1) === "!=", truth = ["true", "false"].includes(it.next(2)) || it.next(3) === ".";
    if (/^[A-Za-z_]/.test(it.next()) && (equal ? truth : !/^([+\-*<>]|[<>]=)$/.test(it.next(1)))) {
      found.names.add(it.take());
      if (equal) { it.take(); literal(it); }
      return null;
    }
    const from = it.place(), made = { factors: new Map(), constant: 0 };
    sum(made, 1);
    const operator = it.take();
    sum(made, -1);
    return found.comparisons.push({ ...made, operator, text: `${not ? "not " : ""}${it.said(from)}` });
  };
  do atom(negated); while (it.is("or") || it.is("and"));
}

function constraint(it) {
  const name = it.take(), found = { names: new Set(), types: new Set(), comparisons: [] };
  it.need(":");
  const from = it.place();
  let local = null;
  if (it.is("forbid")) {
    found.types.add(it.take());
    it.need(",");
    found.types.add(it.take());
  } else {
    if (it.is("for")) {
      local = it.take();
      it.need("in");
      found.types.add(it.take());
      it.need(":");
    }
    window_of(it, local, found);
  }
  const text = it.said(from);
  it.need(";");
  return { name, text, names: [...found.names], types: [...found.types], comparisons: found.comparisons };
}

const range = (it) => { it.need("["); const from = micros_of(it.take()); it.need(","); const to = micros_of(it.take()); it.need(")"); return { from, to }; };
function goal(it) {
  const made = { name: it.take(), keeping: [], names: [] };
  it.need(":");
  const from = it.place();
  Object.assign(made, { kind: it.take(), type: it.take(), arguments: given(it) });
  if (made.kind === "recurrence") {
    it.need("every");
    made.every = micros_of(it.take());
  } else if (made.kind === "cardinality") {
    it.need("count");
    made.count = Number(it.take());
  } else {
    it.need("for");
    const beside = it.place();
    if (it.is("window")) {
      const found = { names: new Set(), types: new Set(), comparisons: [] };
      it.need("(");
      window_of(it, null, found);
      it.need(")");
      made.names = [...found.names];
    } else {
      made.edge = it.take();
      it.need("of");
      made.of = it.take();
    }
    made.anchor = it.said(beside);
    it.need("from");
    made.low = it.signed(micros_of);
    it.need("to");
    made.high = it.signed(micros_of);
  }
  if (it.is("in")) Object.assign(made, range(it));
  if (it.is("keeping")) do made.keeping.push(it.take()); while (it.is(","));
  made.rollback = it.is("rollback");
  made.text = it.said(from);
  it.need(";");
  return made;
}

// A dataset's numbers may be longer than a number keeps; such stay texts.
const dataset = (name, json) => ({ name, ...JSON.parse(json.slice(1, -1).replace(/-?\d{16,}/g, '"$&"')) });

function read_session(text) {
  const it = reader_of(text), made = { models: [], datasets: [], constraints: [], goals: [] };
  const section = (list, read) => {
    const of = it.is("of") ? it.take() : made.models[0].name;
    it.need("{");
    while (!it.is("}")) list.push({ model: of, ...read(it) });
  };
  for (;;) {
    const word = it.next() ? it.take() : "client";
    if (word === "client") return made; // what clients do, the replies tell
    if (word === "model") made.models.push(model(it));
    else if (word === "load") { const name = it.take(); made.datasets.push(dataset(name, it.take())); it.need(";"); }
    else if (word === "constraints") section(made.constraints, constraint);
    else if (word === "goals") section(made.goals, goal);
    else {
      while (!it.is("{")) it.take();
      if (word === "plan") {
        it.need("start");
        made.start = it.take().slice(1, -1);
        it.need(";");
        it.need("duration");
        made.duration = micros_of(it.take());
      }
      it.close();
    }
  }
}
