#!/usr/bin/env python3
"""Makes sessions that grow, to try and to measure the program on: tests/scale/sessions.py [KIND NUMBER]

Without words it prints the kinds, each with what it is. With a kind and a number it prints the session of that kind and size. A kind
makes of a number always the same text, so that figures of different days can be compared. `tests/scale/growth`
measures what the program does with them.

A new kind is a function of the number whose name is the kind's and whose docstring says what it is, and its place in KINDS.
"""

import sys

WEEK = 604_800_000_000
START = "2030-01-01T00:00:00Z"
# The model of the session that the program makes, and its activities in turn.
ORBITER = """model orbiter {
  enum Mode { SAFE, NOMINAL }
  register mode: Mode = Mode.NOMINAL;
  register pointing: int = 0;
  counter images = 0;
  counter heaters = 0;
  counter passes = 0;
  accumulator storage = 0 rate 0;
  accumulator energy = 20000000000000 rate -20;
  counter alarms = 0;
  counter power = 20;
  discrete mode = mode;
  discrete pointing = pointing;
  discrete torn = pointing.conflicted;
  discrete images = images;
  discrete heaters = heaters;
  discrete power = power;
  linear storage = storage.volume;
  linear energy = energy.volume;
  activity Slew(target: int = 0) { power += 30; delay 2min; pointing := target; power += -30; }
  activity Image(size: int = 5) { power += 15; storage.rate += size; delay 1min; storage.rate += -size; power += -15; images += 1; }
  activity ImageSet(shots: int = 3) { let k = 0; while k < shots { call Image(); k = k + 1; } }
  activity HeaterOn() { heaters += 1; power += 10; }
  activity HeaterOff() { if heaters > 0 { heaters += -1; power += -10; } }
  activity Downlink() { storage.rate += -10; delay 1min; storage.rate += 10; passes += 1; }
  activity Charge() { energy.rate += 50; delay 10min; energy.rate += -50; }
  activity Calibrate() -> int { delay 30s; return pointing; }
  activity SafeCheck() { let p = call Calibrate(); if p < 0 { mode := Mode.SAFE; alarms += 1; } }
  activity Track(level: int = 0) { wait until images >= level; passes += 1; }
  activity Burst() { spawn Image(size = 1); spawn Image(size = 2); delay 1s; }
  activity Mark() { }
}
"""
TYPES = "Slew Image ImageSet HeaterOn HeaterOff Downlink Charge Calibrate SafeCheck Track Burst Mark".split()
SIMULATE = "client a { simulate main; }\n"
# Models of one counter, whose activity changes it at once, or for a microsecond.
COUNTED = "model m { counter c = 0; activity A(by: int = 1) { c += by; } }\n"
SHOWN = "model m { counter c = 0; discrete c = c; activity A(by: int = 1) { c += by; } }\n"
BRIEF = "model m { counter c = 0; discrete c = c; activity A() { c += 1; delay 1us; } }\n"
# The most commands of a client, and the most clients with edits.
MOST_COMMANDS = 4096
MOST_CLIENTS = 15


def plan(directives):
    """The plan `main` of a week, with a directive for each time and activity."""
    lines = "".join(f"  at {time} {activity};\n" for time, activity in directives)
    return f'plan main {{\n  start "{START}";\n  duration 7d;\n{lines}}}\n'


def client(commands):
    """One client, with each of its commands."""
    return f"client a {{ {' '.join(f'{it};' for it in commands)} }}\n"


def spacing(number):
    """How many microseconds lie between one directive and the next, where so many are spread over the week."""
    return max(1, WEEK // number)


def orbit_plan(number):
    """The activities of the orbiter in turn, evenly spread over the week."""
    every = spacing(number)
    return plan((f"{it * every}us", f"Slew(target = {it})" if it % 12 == 0 else f"{TYPES[it % 12]}()") for it in range(number))


def orbit(number):
    """a spacecraft in orbit, with so many directives over a week"""
    return ORBITER + orbit_plan(number) + SIMULATE


def judged(number):
    """the same with constraints: on resources, on each span of a type, and of two types that may not meet"""
    constraints = """constraints {
  energy_ok: energy >= 0;
  power_ok: power <= 60;
  apart: forbid Slew, Image;
  calm: for a in Downlink: not during(a) or heaters <= 1;
  alone: for a in Image: not during(a) or not during(Slew);
  settled: longer(shift(power <= 60, 0us, 1s), 1s);
}
"""
    return ORBITER + orbit_plan(number) + constraints + SIMULATE


def with_rule(number, rule):
    return judged(number).replace("  settled:", f"  {rule}\n  settled:")


def shifted(number):
    """the same and a rule for each span of a type under shift"""
    return with_rule(number, "before: for a in Downlink: not shift(during(a), -60s, 0s) or heaters <= 1;")


def lasting(number):
    """the same and a rule for each span of a type under shift and longer"""
    return with_rule(number, "before: for a in Downlink: longer(not shift(during(a), -60s, 30s) or energy >= 100, 10s) or power <= 60;")


def same(number):
    """so many directives at one time, which change one counter"""
    model = "model m { counter c = 0; discrete c = c; activity A() { c += 1; delay 1us; c += -1; } }\n"
    return model + plan(("5us", "A()") for _ in range(number)) + SIMULATE


def waits(number):
    """so many tasks that wait for a counter, as many changes of another one, then the change that they wait for"""
    model = (
        "model m { counter go = 0; counter other = 0; discrete go = go; activity W(k: int) { wait until go >= k; } "
        "activity O() { other += 1; } activity G() { go += 1000000; } }\n"
    )
    waiting = [("1us", f"W(k = {it % 7 + 1})") for it in range(number)]
    changing = [(f"{it + 10}us", "O()") for it in range(number)]
    return model + plan([*waiting, *changing, (f"{number + 100}us", "G()")]) + SIMULATE


def rising(number):
    """so many tasks that wait for levels of a volume, which is filled faster and slower"""
    model = (
        "model m { accumulator v = 0 rate 1; linear v = v.volume; counter hits = 0; "
        "activity W(k: int) { wait until v.volume >= k; hits += 1; } activity F(by: int) { v.rate += by; } }\n"
    )
    waiting = [("0us", f"W(k = {it * 20})") for it in range(number)]
    filling = [(f"{it * 1000 + 7}us", f"F(by = {1 if it % 2 == 0 else -1})") for it in range(min(number, 200))]
    return model + plan(waiting + filling) + SIMULATE


def chain(number):
    """so many directives, each anchored to the end of the one before it"""
    return BRIEF + plan([("0us", "A()")] + [(f"end of {it} + 1us", "A()") for it in range(1, number)]) + SIMULATE


def star(number):
    """so many directives, each but the first anchored to its end"""
    return BRIEF + plan([("0us", "A()")] + [(f"end of 1 + {it}us", "A()") for it in range(1, number)]) + SIMULATE


def children(number):
    """a task that spawns so many children, which end one after another, and its caller, which waits for all of them"""
    model = (
        "model m { counter c = 0; discrete c = c; activity C(k: int) { delay k; c += 1; } "
        "activity P(n: int) { let k = 0; while k < n { spawn C(k = k); k = k + 1; } } activity Q(n: int) { call P(n = n); c += 1; } }\n"
    )
    return model + plan([("0us", f"Q(n = {number})")]) + SIMULATE


def calls(number):
    """so many directives, each with forty calls inside one another"""
    callers = "".join(f"activity N{it}() -> int {{ let x = call {f'N{it - 1}' if it else 'L'}(); return x + 1; }} " for it in range(40))
    model = f"model m {{ counter c = 0; discrete c = c; activity L() -> int {{ c += 1; delay 1us; return c; }} {callers}}}\n"
    return model + plan((f"{it * 10}us", "N39()") for it in range(number)) + SIMULATE


def daemon(number):
    """a daemon of so many rounds"""
    model = f"model m {{ counter c = 0; discrete c = c; daemon {{ while c < {number} {{ c += 1; delay 1ms; }} }} }}\n"
    return model + plan([]) + SIMULATE


def wide(number):
    """250 counters, each with a resource, and so many directives that change two of them"""
    cells = "".join(f"  counter c{it} = 0; discrete c{it} = c{it};\n" for it in range(250))
    activities = "".join(f"  activity A{it}() {{ c{it} += 1; delay 1us; c{(it * 7 + 3) % 250} += -1; }}\n" for it in range(200))
    return f"model m {{\n{cells}{activities}}}\n" + plan((f"{it * 3}us", f"A{it % 200}()") for it in range(number)) + SIMULATE


def edits(number):
    """so many additions by clients, 61,440 at the most, and one simulation"""
    adding = [f"add main at {it}us A(by = {it % MOST_COMMANDS});" for it in range(min(number, MOST_CLIENTS * MOST_COMMANDS))]
    clients = [adding[it : it + MOST_COMMANDS] for it in range(0, len(adding), MOST_COMMANDS)]
    texts = [f"client c{it} {{ {' '.join(commands)} }}\n" for it, commands in enumerate(clients)]
    return SHOWN + plan([]) + "".join(texts) + "client z { show main; show main; simulate main; }\n"


def turns(number):
    """so many additions by one client, 2,000 at the most, who looks at the plan after each hundred"""
    added = (f"add main at {it}us A();{' show main;' if it % 100 == 0 else ''}" for it in range(min(number, 2000)))
    return COUNTED + plan([]) + f"client a {{ {' '.join(added)} }}\n"


def load(number):
    """a plan of so many directives, each anchored to the one before it, read from JSON"""
    anchors = ("" if it == 0 else f',"anchor":{{"edge":"start","to":{it - 1}}}' for it in range(number))
    directives = (f'{{"id":{it},"start":1,"type":"A","arguments":{{"by":{it}}}{anchor}}}' for it, anchor in enumerate(anchors))
    return COUNTED + plan([]) + client([f'load main `{{"directives":[{",".join(directives)}]}}`', "simulate main"])


def merge(number):
    """two forks of a plan of so many directives, each with edits of 500 others at the most, and their merge"""
    most = min(number, 1000)
    here = " ".join(f"set s {it + 1} by = 2;" for it in range(0, most, 2))
    there = " ".join(f"set main {it + 1} by = 3;" for it in range(1, most, 2))
    commands = f"fork base from main; fork s from main; {here} {there} merge main from s of base; simulate main;"
    return COUNTED + plan((f"{it}us", "A()") for it in range(number)) + f"client a {{ {commands} }}\n"


def series(number):
    """a dataset of so many segments, 10,000 at the most, and a constraint that compares a resource with it"""
    number = min(number, 10000)
    segments = ",".join(f"[{it * 60},{it % 5},{it % 3}]" for it in range(number))
    model = "model m { counter c = 0; linear c = c; activity A(by: int = 1) { c += by; delay 10us; c += -by; } }\n"
    dataset = f'load limit `{{"kind":"linear","segments":[{segments}]}}`;\n'
    return model + plan((f"{it * 60 + 5}us", "A()") for it in range(number)) + dataset + "constraints { below: c <= limit; }\n" + SIMULATE


def sequence(number):
    """commands that are sent for so many spans, with spacings"""
    model = "model m { counter c = 0; activity A(by: int = 1) { c += by; delay 10us; } }\n"
    rules = "sequence { for A: start ON(by), end + 3us OFF(by, 1) if by > 3; longer(ON, 8us); longer(OFF, 5us); }\n"
    return model + plan((f"{it * 7}us", f"A(by = {it})") for it in range(number)) + rules + client(["expand main"])


def branches(number):
    """63 forks of a plan of so many directives, one edit of each, and simulations of eight of them"""
    commands = [it for branch in range(63) for it in (f"fork b{branch} from main", f"move b{branch} 1 to {branch + 1}us")]
    return SHOWN + plan((f"{it}us", "A()") for it in range(number)) + client(commands + [f"simulate b{it}" for it in range(8)])


def moved(number):
    """The commands that move twenty directives by a minute each."""
    places = [it * number // 21 for it in range(1, 21)]
    return [f"move main {it + 1} to {it * spacing(number) + 60_000_000}us" for it in places]


def moves(number):
    """the plan of so many directives of the orbiter, simulated, and again after each of twenty moves of a directive"""
    commands = [it for move in moved(number) for it in (move, "simulate main")]
    return ORBITER + orbit_plan(number) + client(["simulate main", *commands])


def scattered(number):
    """the same moves, each far from the one before it"""
    places = moved(number)
    commands = [it for at in range(20) for it in (places[at * 7 % 20], "simulate main")]
    return ORBITER + orbit_plan(number) + client(["simulate main", *commands])


def moves_quiet(number):
    """the same moves with one simulation before them"""
    return ORBITER + orbit_plan(number) + client(["simulate main", *moved(number)])


def repeats(number):
    """a plan of 2,000 directives of the orbiter, simulated so many times, each time behind a move of the same directive"""
    times = [(99_999_999_977 * it) % WEEK for it in range(1, number + 1)]
    return ORBITER + orbit_plan(2000) + client(it for time in times for it in (f"move main 1001 to {time}us", "simulate main"))


def apart(number, clients):
    """Clients that each fork the plan of so many directives of the orbiter, and simulate it behind each of twenty moves of a directive."""
    moving = [" ".join(f"{move}; simulate main;" for move in moved(number)).replace("main", f"b{client}") for client in range(clients)]
    texts = (f"client c{client} {{ fork b{client} from main; {moves} }}\n" for client, moves in enumerate(moving))
    return ORBITER + orbit_plan(number) + "".join(texts)


def alone(number):
    """one client that forks the plan of so many directives of the orbiter, and simulates it behind each of twenty moves"""
    return apart(number, 1)


def together(number):
    """two clients that do so, each on a fork of its own"""
    return apart(number, 2)


def goals(number):
    """the plan of so many directives of the orbiter, with three goals and two constraints that are kept"""
    rules = f"""constraints {{
  energy_ok: energy >= 0;
  apart: forbid HeaterOn, HeaterOff;
}}
goals {{
  beat: recurrence Mark() every {WEEK // 100}us in [0us, 7d);
  check: coexistence Charge() for window(images >= {max(1, number // 3)}) from 1min to 30min keeping energy_ok;
  some: cardinality Downlink() count {number // 12 + 20} in [0us, 7d) keeping energy_ok, apart;
}}
"""
    return ORBITER + orbit_plan(number) + rules + client(["schedule main"])


def placed(number, kind):
    """The plan of so many directives of the orbiter, and a goal that places one of a kind for each twenty-five of them."""
    every, until = int(12 * spacing(number) * 0.7), WEEK * 12 // 25
    return ORBITER + orbit_plan(number) + f"goals {{ g: recurrence {kind}() every {every}us in [0us, {until}us); }}\n" + client(["schedule main"])


def marks(number):
    """that plan, and a goal that places what changes nothing"""
    return placed(number, "Mark")


def downlinks(number):
    """that plan, and a goal that places what changes a volume for good"""
    return placed(number, "Downlink")


ALL = [orbit, judged, shifted, lasting, same, waits, rising, chain, star, children, calls, daemon, wide, edits, turns, load, merge, series, sequence, branches]
ALL += [moves, scattered, moves_quiet, repeats, alone, together, goals, marks, downlinks]
KINDS = {it.__name__: it for it in ALL}


def main(words):
    if not words:
        for kind, it in KINDS.items():
            print(f"{kind:12} {it.__doc__}")
    elif len(words) == 2 and words[0] in KINDS and words[1].isdecimal() and int(words[1]) > 0:
        sys.stdout.write(KINDS[words[0]](int(words[1])))
    else:
        sys.exit(__doc__)


if __name__ == "__main__":
    main(sys.argv[1:])
