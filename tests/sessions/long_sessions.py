"""Sessions that are too long for a file of their own, made here: see the file run beside this one."""

HEAD = '''model m { activity A() { } }
plan main { start "2030-01-01T00:00:00Z"; duration 10000us; }
'''
ACTIVITIES = "Slew Image ImageSet HeaterOn HeaterOff Downlink Charge Calibrate SafeCheck Track Burst Mark".split()
WEEK = 604800000000


def read(folder, name):
    with open(f"{folder}/{name}", "rb") as it:
        return it.read()


def printed(journal, replies):
    """What is printed of client a, by the parts of each of its commands and by what it is replied."""
    triples = ",".join(f"[0,{command},{part}]" for command, parts in enumerate(journal) for part in range(parts))
    lines = "".join(f'{{"client":"a","command":{command},{reply}}}\n' for command, reply in enumerate(replies))
    return f"[{triples}]\n{lines}".encode()


def full_plans():
    """A plan has 65,536 directives at most, whether they are added, loaded or merged. A merge of two with 40,000 is refused."""

    def plan(count):
        return '`{"directives":[' + ",".join(['{"start":5,"type":"A","arguments":{}}'] * count) + "]}`"

    def loaded(branch, count):
        return f'"ok":{{"branch":"{branch}","count":{count},"first":1,"revision":1}}'

    refused = '"refused":{"name":"TooMany"}'
    commands = f"""load main {plan(65536)}; add main at 5us A(); load main {plan(65537)};
      new base; new side; load base {plan(40000)}; load side {plan(40000)}; new none; merge base from side of none;"""
    replies = [loaded("main", 65536), refused, refused, *(f'"ok":{{"branch":"{it}","revision":0}}' for it in ("base", "side"))]
    replies += [loaded("base", 40000), loaded("side", 40000), '"ok":{"branch":"none","revision":0}', refused]
    return f"{HEAD}client a {{ {commands} }}\n".encode(), printed([1, 1, 1, 1, 1, 1, 1, 1, 3], replies)


def many_commands():
    """A client has 4,096 commands at most."""
    reply = '"ok":{"branch":"main","plan":{"directives":[]},"revision":0}'
    return f"{HEAD}client a {{ {'show main; ' * 4096} }}\n".encode(), printed([1] * 4096, [reply] * 4096)


def many_segments():
    """A dataset has 10,000 segments at most. The last one of these alone violates the constraint."""
    segments = ",".join(f"[{it},{it}]" for it in range(10000))
    dataset = f'load d `{{"kind":"whole","segments":[{segments}]}}`; constraints {{ c: d < 9999; }}'
    report = '"ok":{"attached":true,"branch":"main","outcome":"completed","profiles":[],"reach":10000,"revision":0,"spans":[],'
    report += '"violations":[{"constraint":"c","intervals":[[9999,10000]],"path":null}]}'
    return f"{HEAD}{dataset} client a {{ simulate main; }}\n".encode(), printed([2], [report])


def made(number, text_of_one):
    """The text of a made session: that of one directive, with so many in its place."""
    head, _, tail = text_of_one.decode().partition("  at 0us Slew(target = 0);\n")
    lines = []
    for it in range(number):
        kind = ACTIVITIES[it % 12]
        arguments = f"target = {it}" if kind == "Slew" else ""
        lines.append(f"  at {it * (WEEK // number)}us {kind}({arguments});\n")
    return "".join([head, *lines, tail]).encode()


def cases(folder):
    """Each case: its label, the words, the input, the output and the exit status."""
    yield "plans with all directives that they may have", ["run"], *full_plans(), 0
    yield "a client with all commands that it may have", ["run"], *many_commands(), 0
    yield "a dataset with all segments that it may have", ["run"], *many_segments(), 0
    session = read(folder, "one_activity.aerie")
    yield "a session of all bytes that it may have", ["run"], session.ljust(16777216), read(folder, "one_activity.out"), 0
    for number in (2, 12, 300, 20000):
        text = made(number, read(folder, "a_made_text_of_1.out"))
        yield f"a made text of {number}", ["make", "--text", "--number", str(number)], b"", text, 0
        counted = b'{"clients":3,"commands":10,"session":"ok"}\n'
        yield f"a made text of {number} is a good session", ["check"], text, counted, 0
