"""Texts of programs that are too long to stand in files: 1 MiB of processes, and processes at the limits of the language."""
import itertools
import string

FILE_BYTES = 1_048_576
FIELDS = 1_020
STATEMENTS = 1_024
RESULTS = 1_018
ARMS = 1_000
EMPTY_MAIN = "process main(start: main_start) { }\n"


def changed(text, old, new):
    """The text with the one place that reads `old` changed."""
    if text.count(old) != 1:
        raise ValueError(f"{old!r} stands {text.count(old)} times")
    return text.replace(old, new)


def many_processes(ring, size):
    """Files of `size` bytes in all: the text of a ring, with its node again and again under other names."""
    start, end = ring.index("process node"), ring.index("process main")
    node = ring[start:end]
    files, text = [], ring
    for number in itertools.count():
        more = changed(node, "process node(", f"process node{number}(")
        if sum(map(len, files)) + len(text) + len(more) > size:
            return [*files, text]
        if len(text) + len(more) > FILE_BYTES:
            files.append(text)
            text = ""
        text += more


def names():
    """Short names: a letter, and then a digit or capital letters and digits."""
    ends = string.digits + string.ascii_uppercase
    for length in itertools.count(1):
        for first, *rest in itertools.product(string.ascii_letters, *[ends] * length):
            yield first + "".join(rest)


def filled(head, piece, tail, most):
    """The text of head, pieces and tail, with as many pieces as a file and `most` allow."""
    room = FILE_BYTES - len(head) - len(tail)
    pieces = []
    for number in range(most):
        pieces.append(piece(number))
        room -= len(pieces[-1])
        if room < 0:
            pieces.pop()
            break
    return head + "".join(pieces) + tail


def records(body, most=1, first="", last=""):
    """A process with four records of 1,020 fields, three ports of such records and two integers: 4,091 paths."""
    fields = ",".join(f"f{i}:integer" for i in range(FIELDS))
    head = (
        f"definitions w{{type r=record{{{fields}}};type ri=inport of r;type t=record{{a:ri,b:ri,c:ri}};type ti=inport of t;}}\n"
        f"process p(start:ti){{var m:t,a:r,b:r,c:r,d:r,k:integer,j:integer;receive m from start;{first}"
    )
    return filled(head, body, last + "}\n" + EMPTY_MAIN, most)


def nested_loops(fields, lost):
    """58 loops within each other. Each sets so many fields, and where `lost` takes one of them away at its end."""
    fields = min(fields, (FIELDS - 32) // 58)
    first = "receive a from m.a;receive b from m.b;receive c from m.c;new d;k:=1;"
    begin = lambda i: "while k<9{" + "".join(f"d.f{fields * i + n}:=k;" for n in range(fields))
    within = "".join(f"d.f{58 * fields + n}:=k;" for n in range(32))
    end = "".join((f"discard d.f{fields * i};" if lost else "") + "}" for i in reversed(range(58)))
    return records(begin, 58, first, within + end)


def arms(last=""):
    """Selections of 1,000 arms that each receive a record of 1,020 fields."""
    fields = ",".join(f"f{i}:integer" for i in range(FIELDS))
    ports = ",".join(f"i{i}:ri" for i in range(ARMS))
    arm = "".join(f"when m.i{i} receive a{{}}" for i in range(ARMS))
    head = (
        f"definitions w{{type r=record{{{fields}}};type ri=inport of r;type t=record{{{ports}}};type ti=inport of t;}}\n"
        "process p(start:ti){var m:t,a:r,b:r;receive m from start;"
    )
    return filled(head, lambda _: f"select{{{arm}}}", last + "}\n" + EMPTY_MAIN, STATEMENTS - 4)


def results():
    """Calls with 1,018 results."""
    several = list(itertools.islice(names(), RESULTS))
    params = ",".join(f"out {name}:integer" for name in several)
    head = (
        f"definitions w{{type c=callmessage({params});type ci=inport of c;type co=outport of ci;type si=inport of co;}}\n"
        f"process p(start:si){{var o:co,{','.join(name + ':integer' for name in several)};receive o from start;"
    )
    return filled(head, lambda _: f"call o({','.join(several)});", "}\n" + EMPTY_MAIN, STATEMENTS - 1)


def lost_apart():
    """A field of a quarter is lost in a branch of its own, so that each is missing by another path."""
    lost = "".join(f"if 1<2{{discard a.f{i};}}" for i in range(FIELDS // 4))
    return records(lambda _: "b:=a;", STATEMENTS // 2 - 1, "receive a from m.a;" + lost)


def before_handlers():
    """Four records of 780 fields that have no value, and behind them 500 calls within 150 handlers each."""
    fields = ",".join(f"f{i}:integer" for i in range(FIELDS * 13 // 17))
    several = [f"v{i}" for i in range(20)]
    raised = [f"E{i}" for i in range(150)]
    head = (
        f"definitions w{{{''.join(f'exception {name};' for name in raised)}type r=record{{{fields}}};"
        f"type c=callmessage({','.join(f'out {name}:integer' for name in several)}) raises({','.join(raised)});type ci=inport of c;type co=outport of ci;type ti=inport of co;}}\n"
        f"process p(start:ti){{var a:r,b:r,c:r,d:r,x:r,o:co,{','.join(f'{name}:integer' for name in several)};receive o from start;x:=a;x:=b;x:=c;x:=d;"
    )
    tried = f"try{{call o({','.join(several)});}}" + "".join(f"on {name}{{}}" for name in raised)
    return filled(head, lambda _: tried, "}\n" + EMPTY_MAIN, (STATEMENTS - 6) // 2)


def handled(calls, raised, body, last, records=0, kept=0):
    """A `try` of so many calls that may raise so many exceptions, with a handler for each, and statements behind it. So many integers come back from a call; with the exceptions come back the subsets of them, by turns."""
    several = list(itertools.islice(names(), raised))
    results = [f"v{i}" for i in range(kept)]
    subset = lambda i: [f"full({name})" for bit, name in enumerate(results) if i >> bit & 1]
    raising = (name + (f"{{{','.join(subset(i % 2**kept))}}}" if subset(i % 2**kept) else "") for i, name in enumerate(several))
    fields = ",".join(f"f{i}:integer" for i in range(FIELDS))
    head = (
        f"definitions w{{{''.join(f'exception {name};' for name in several)}type r=record{{{fields}}};"
        f"type c=callmessage({','.join(f'out {name}:integer' for name in results)}) raises({','.join(raising)});type ci=inport of c;type co=outport of ci;type ti=inport of co;}}\n"
    )
    variables = "".join(f"{name}:integer," for name in results) + "".join(f"{name}:r," for name in "abc"[:records])
    tried = f"try{{{f'call o({chr(44).join(results)});' * calls}}}" + "".join(f"on {name}{{{body}}}" for name in several)
    return f"{head}process p(start:ti){{var {variables}x:r,k:integer,o:co;receive o from start;k:=1;{tried}{last}}}\n{EMPTY_MAIN}"


def beside_variables(calls, raised, body):
    """Calls that may raise exceptions which keep one of two integers by turns, beside 3,900 integers, of which the last two are set, and one is read that has no value."""
    several, exceptions = list(itertools.islice(names(), 3_900)), [f"E{i}" for i in range(raised)]
    raising = (f"{name}{{full({'xy'[i % 2]})}}" for i, name in enumerate(exceptions))
    head = (
        f"definitions w{{{''.join(f'exception {name};' for name in exceptions)}type c=callmessage(inout x:integer,inout y:integer)raises({','.join(raising)});"
        "type ci=inport of c;type co=outport of ci;type ti=inport of co;}\n"
    )
    x, y = several[-2:]
    tried = f"try{{{f'call A({x},{y});' * calls}}}" + "".join(f"on {name}{{{body}}}" for name in exceptions)
    return f"{head}process p(start:ti){{var A:co,{','.join(f'{name}:integer' for name in several)};receive A from start;{x}:=1;{y}:=1;{tried}{several[1]}:={several[0]};}}\n{EMPTY_MAIN}"


def parted(walk, raised, body=""):
    """63 records of 60 fields, each lost in one branch of a selection and received in the other, then calls within so many handlers, and at the end all fields are read."""
    several, exceptions = [f"R{i}" for i in range(63)], [f"E{i}" for i in range(raised)]
    fields = list(itertools.islice(names(), 60))
    head = (
        f"definitions w{{{''.join(f'exception {name};' for name in exceptions)}type r=record{{{','.join(f'{name}:integer' for name in fields)}}};type ri=inport of r;"
        f"type c=callmessage() raises({','.join(exceptions)});type ci=inport of c;type co=outport of ci;type t=record{{i:ri,o:co}};type ti=inport of t;}}\n"
    )
    lost = "".join(f"if 1<2{{discard {name};}}else{{receive {name} from m.i;}}" for name in several)
    tried = f"try{{{'call m.o();' * walk}}}" + "".join(f"on {name}{{{body}}}" for name in exceptions)
    sums = "".join(f"k:={'+'.join(f'{name}.{field}' for name in several)};" for field in fields)
    return f"{head}process p(start:ti){{var m:t,k:integer,{','.join(f'{name}:r' for name in several)};receive m from start;{lost}{tried}{sums}}}\n{EMPTY_MAIN}"


def backwards():
    """1,000 reads of a record without a value, behind one that reads its fields from the last to the first."""
    first = "k:=" + "+".join(f"d.f{i}" for i in reversed(range(FIELDS))) + ";"
    return records(lambda _: "a:=d;", 1_000, "b:=c;" + first)


def results_taken(raised):
    """1,000 calls with 270 results, which keep two of them by turns, before 3,000 fields without values are read."""
    results, exceptions = list(itertools.islice(names(), 270)), [f"E{i}" for i in range(raised)]
    raising = (f"{name}{{full({results[i % 2]})}}" for i, name in enumerate(exceptions))
    head = (
        f"definitions w{{{''.join(f'exception {name};' for name in exceptions)}type r=record{{{','.join(f'f{i}:integer' for i in range(750))}}};"
        f"type c=callmessage({','.join(f'out {name}:integer' for name in results)})raises({','.join(raising)});type ci=inport of c;type co=outport of ci;type ti=inport of co;}}\n"
    )
    several = [f"R{i}" for i in range(4)]
    tried = f"try{{{f'call A({chr(44).join(results)});' * 1_000}}}" + "".join(f"on {name}{{}}" for name in exceptions)
    return f"{head}process p(start:ti){{var A:co,{','.join(f'{name}:r' for name in several)},x:r,{','.join(f'{name}:integer' for name in results)};receive A from start;{tried}{''.join(f'x:={name};' for name in several)}}}\n{EMPTY_MAIN}"


def coming_back(calls, raised, count, fields, kept, last="k:=1;"):
    """A `try` of calls with so many results, integers or records of so many fields, that may raise exceptions which keep some of them each, and a handler of its own for each exception. Three further records are there for what comes last."""
    exceptions, several = [f"E{i}" for i in range(raised)], list(itertools.islice(names(), count))
    of = "q" if fields else "integer"
    left = (4_080 - count * (fields + 1)) // 4 - 1
    keeps = lambda i: ",".join(f"full({several[n]})" for n in range(count) if kept(i, n))
    raising = (name + (f"{{{keeps(i)}}}" if keeps(i) else "") for i, name in enumerate(exceptions))
    head = (
        f"definitions w{{{''.join(f'exception {name};' for name in exceptions)}type q=record{{{','.join(f'f{i}:integer' for i in range(max(fields, 1)))}}};"
        f"type r=record{{{','.join(f'f{i}:integer' for i in range(min(left, FIELDS)))}}};"
        f"type c=callmessage({','.join(f'out {name}:{of}' for name in several)})raises({','.join(raising)});type ci=inport of c;type co=outport of ci;type ti=inport of co;}}\n"
    )
    tried = f"try{{{f'call o({chr(44).join(several)});' * calls}}}" + "".join(f"on {name}{{k:=1;}}" for name in exceptions)
    return f"{head}process p(start:ti){{var {''.join(f'{name}:{of},' for name in several)}R0:r,R1:r,R2:r,x:r,k:integer,o:co;receive o from start;k:=1;{tried}{last}}}\n{EMPTY_MAIN}"


def losing_loops(within, depth):
    """So many loops within each other, each of which makes and loses a field, and these statements in the outermost."""
    return "while k<9{" + within + "".join(f"while k<9{{d.f{i}:=1;discard d.f{i};" for i in range(1, depth)) + "}" * depth


def results_in_loops(calls, raised):
    """A `try` of calls with a record of 1,000 fields, which no exception keeps, and a handler of its own for each exception, in the outermost of 58 loops."""
    exceptions = [f"E{i}" for i in range(raised)]
    fields = ",".join(f"f{i}:integer" for i in range(1_000))
    head = (
        f"definitions w{{{''.join(f'exception {name};' for name in exceptions)}type r=record{{{fields}}};type c=callmessage(out q:r)raises({','.join(exceptions)});"
        "type ci=inport of c;type co=outport of ci;type ri=inport of r;type t=record{o:co,i:ri};type ti=inport of t;}\n"
    )
    tried = f"try{{{'call m.o(e);' * calls}}}" + "".join(f"on {name}{{k:=1;}}" for name in exceptions)
    first = "receive m from start;k:=1;receive d from m.i;receive a from m.i;receive b from m.i;"
    return f"{head}process p(start:ti){{var m:t,d:r,a:r,b:r,e:r,k:integer;{first}{losing_loops(tried, 58)}}}\n{EMPTY_MAIN}"


def cases_in_loops():
    """100 cases of a variant of 1,000 components, in the outermost of 58 loops."""
    components = list(itertools.islice(names(), 1_000))
    fields = ",".join(f"f{i}:integer" for i in range(1_000))
    head = (
        f"definitions w{{type v=variant{{{','.join(f'{name}:integer' for name in components)}}};type r=record{{{fields}}};type ri=inport of r;type vi=inport of v;"
        "type t=record{i:ri,v:vi};type ti=inport of t;}\n"
    )
    case = f"case V{{{''.join(f'when {name}{{}}' for name in components)}}}"
    first = "receive m from start;k:=1;receive V from m.v;receive d from m.i;"
    return f"{head}process p(start:ti){{var m:t,d:r,a:r,V:v,k:integer;{first}{losing_loops(case * 100, 58)}}}\n{EMPTY_MAIN}"


def nested_records():
    """A `try` of 500 calls with 30 records, each within 25 others, of which each of 500 exceptions keeps one, and a handler of its own for each."""
    exceptions, several = [f"E{i}" for i in range(500)], [f"R{i}" for i in range(30)]
    types = "type d0=record{a:integer};" + "".join(f"type d{i}=record{{a:d{i - 1}}};" for i in range(1, 26))
    raising = ",".join(f"{name}{{full({several[i % 30]})}}" for i, name in enumerate(exceptions))
    head = (
        f"definitions w{{{''.join(f'exception {name};' for name in exceptions)}{types}type c=callmessage({','.join(f'out {name}:d25' for name in several)})raises({raising});"
        "type ci=inport of c;type co=outport of ci;type ti=inport of co;}\n"
    )
    tried = f"try{{{f'call o({chr(44).join(several)});' * 500}}}" + "".join(f"on {name}{{k:=1;}}" for name in exceptions)
    return f"{head}process p(start:ti){{var {''.join(f'{name}:d25,' for name in several)}k:integer,o:co;receive o from start;k:=1;{tried}k:=1;}}\n{EMPTY_MAIN}"


def told_apart():
    """3,000 integers, each of which is made by other ones of 24 calls, that a branch passes over; then a `try` of 400 calls with 400 handlers, and at its end the integers are read."""
    several = list(itertools.islice(names(), 3_000))
    raised = [f"E{i}" for i in range(400)]
    made = [[name for number, name in enumerate(several) if number >> bit & 1 == value] for bit in range(12) for value in (0, 1)]
    parts = [part[i : i + RESULTS] for part in made for i in range(0, len(part), RESULTS)]
    sizes = sorted({len(part) for part in parts})
    types = "".join(
        f"type c{n}=callmessage({','.join(f'out p{i}:integer' for i in range(n))});type i{n}=inport of c{n};type o{n}=outport of i{n};" for n in sizes
    )
    ports = ",".join(f"q{n}:o{n}" for n in sizes)
    head = (
        f"definitions w{{{''.join(f'exception {name};' for name in raised)}{types}type c=callmessage() raises({','.join(raised)});"
        f"type ci=inport of c;type co=outport of ci;type t=record{{{ports},o:co}};type ti=inport of t;}}\n"
    )
    calls = "".join(f"if 1<2{{call m.q{len(part)}({','.join(part)});}}" for part in parts)
    tried = f"try{{{'call m.o();' * 400}}}" + "".join(f"on {name}{{k:=1;}}" for name in raised)
    sums = "".join(f"k:={'+'.join(several[i : i + 50])};" for i in range(0, 3_000, 50))
    return f"{head}process p(start:ti){{var m:t,{','.join(f'{name}:integer' for name in several)},k:integer;receive m from start;{calls}{tried}{sums}}}\n{EMPTY_MAIN}"


def exceptions(most):
    """1,023 calls that may raise so many exceptions, or as many as the file has room for."""
    process = "process p(start:si){var o:co;receive o from start;" + "call o();" * (STATEMENTS - 1) + "}\n"
    tail = "type ci=inport of c;type co=outport of ci;type si=inport of co;}\n" + process + EMPTY_MAIN
    several, room = [], FILE_BYTES - len(tail) - 100
    for name in itertools.islice(names(), most):
        room -= len(f"exception {name};{name},")
        if room < 0:
            break
        several.append(name)
    return "definitions w{" + "".join(f"exception {name};" for name in several) + f"type c=callmessage() raises({','.join(several)});" + tail


def at_the_limits():
    """Processes of at most 1,024 statements and 4,096 paths, each in a file, by what they have much of."""
    every = lambda count: (f"{record}.f{field}" for record in itertools.cycle("abc") for field in range(count))
    reads = every(FIELDS)
    return {
        "assignments of records": records(lambda _: "b:=a;", 1_022, "receive a from m.a;"),
        "loops within each other": nested_loops(16, False),
        "the same, each losing a field": nested_loops(15, True),
        "loops that fill a record": records(lambda _: "while k<9{receive d from m.a;k:=k+1;}", 340, "new d;k:=1;"),
        "one expression": records(lambda _: "k+", FILE_BYTES, "k:=1;j:=", "k;"),
        "one expression of many fields": records(lambda _: f"{next(reads)}+", FILE_BYTES, "receive a from m.a;receive b from m.b;receive c from m.c;j:=", "a.f0;"),
        "results of calls": results(),
        "100 exceptions of calls": exceptions(100),
        "1,000 exceptions of calls": exceptions(1_000),
        "exceptions of calls": exceptions(FILE_BYTES),
        "arms that receive": arms(),
        "refusals behind arms": arms("discard a;new a;b:=a;"),
        "refusals": records(lambda _: "k:=j;", 1_023),
        "refusals in a loop": records(lambda _: "k:=j;", 1_020, "receive a from m.a;while 1<2{", "}"),
        "refusals behind receives": records(lambda _: "receive a from m.a;k:=j;", 511),
        "10,200 refusals": records(lambda _: "b:=a;", 10, "new a;"),
        "a million refusals": records(lambda _: "b:=a;", 1_022, "new a;"),
        "refusals of what was lost": records(lambda _: "b:=a;", 1_018, "receive a from m.a;if 1<2{discard a;new a;}"),
        "refusals by many paths": lost_apart(),
        "refusals before 75,000 exceptions": before_handlers(),
        "refusals behind 260,000 exceptions": handled(506, 506, "k:=1;", "x:=a;x:=b;x:=c;", records=3),
        "refusals that are told apart": told_apart(),
        "refusals of facts that parted": parted(700, 200),
        "the same behind handlers of their own": parted(380, 380, "k:=1;"),
        "cases of 1,000 components in loops": cases_in_loops(),
        "refusals after a read backwards": backwards(),
        "refusals behind calls of 270 results": results_taken(8),
        "refusals behind 250,000 that keep": handled(500, 500, "k:=1;", "x:=a;x:=b;x:=c;", records=3, kept=2),
        "8,000 exceptions beside 3,900 variables": beside_variables(1_000, 8, ""),
        "250,000 beside 3,900 variables": beside_variables(500, 500, "ZZ:=1;".replace("ZZ", "a0")),
        "250,000 that keep 512 sets of results": handled(500, 500, "k:=1;", "k:=1;", kept=9),
        "refusals behind 250,000 that keep 512": handled(500, 500, "k:=1;", "x:=a;x:=b;x:=c;", records=3, kept=9),
        "250,000 that lose 270 results": coming_back(500, 500, 270, 0, lambda i, n: False),
        "100,000 that keep 100 of 270 results": coming_back(400, 250, 270, 0, lambda i, n: (n - 7 * i) % 270 < 100),
        "250,000 that keep a record": coming_back(500, 500, 1, 980, lambda i, n: True),
        "250,000 that keep some of eight records": coming_back(500, 500, 8, 125, lambda i, n: i >> n & 1),
        "refusals behind 250,000 that lose 270": coming_back(490, 490, 270, 0, lambda i, n: False, "x:=R0;x:=R1;x:=R2;"),
        "150,000 that lose a record in loops": results_in_loops(390, 390),
        "250,000 that keep one of 30 nested records": nested_records(),
        "refusals behind 230,000 that keep 20 of 50": coming_back(480, 480, 50, 0, lambda i, n: n < 18 or (n - 18 - i) % 32 in (0, i // 32 + 1), "x:=R0;"),
        "refusals behind 250,000 that keep some": coming_back(490, 490, 8, 125, lambda i, n: i >> n & 1, "x:=R0;x:=R1;x:=R2;"),
        "260,000 exceptions": handled(510, 510, "k:=1;", "k:=1;"),
        "2,000,000 exceptions": handled(1_000, 2_000, "", "k:=1;"),
        "20,000,000 exceptions": handled(1_000, 20_000, "", "k:=1;"),
        "1,600,000 exceptions that keep 16 subsets": handled(1_000, 1_600, "", "k:=1;", kept=4),
        "1,600,000 exceptions that keep 2,048": handled(1_000, 1_600, "", "k:=1;", kept=11),
    }
