"""Texts of programs in which two long lists meet: calls and exceptions, statements and names, facts and points."""
import itertools

import texts
from texts import names


def some(count):
    """So many short names."""
    return list(itertools.islice(names(), count))


def numbered(letter, count):
    """So many names of a letter and a number."""
    return [f"{letter}{number}" for number in range(count)]


def of_type(several, of="integer"):
    """Names of parts or variables, all of one type."""
    return ",".join(f"{name}:{of}" for name in several)


def record(name, several, of="integer"):
    """A record of fields of one type."""
    return f"type {name}=record{{{of_type(several, of)}}};"


def chain(fields, depth):
    """So many records, each but the first, which has these fields, with the one before it as its one field."""
    return record("d0", fields) + "".join(record(f"d{level}", "a", f"d{level - 1}") for level in range(1, depth))


def called(results, raising=(), before="", name="c"):
    """A callmessage with these results, behind other parameters, that may raise exceptions, and its ports."""
    params = before + ",".join(f"out {result}:integer" for result in results)
    raises = f"raises({','.join(raising)})" if raising else ""
    return f"type {name}=callmessage({params}){raises};type {name}i=inport of {name};type {name}o=outport of {name}i;"


def keeping(name, results):
    """An exception that keeps these results."""
    return f"{name}{{{','.join(f'full({result})' for result in results)}}}" if results else name


def exceptions(several):
    """The declarations of exceptions."""
    return "".join(f"exception {name};" for name in several)


def tried(within, several, handler=""):
    """A `try` with a handler for each of these exceptions."""
    return f"try{{{within}}}" + "".join(f"on {name}{{{handler}}}" for name in several)


def looked_at(variable, components, within=lambda name: ""):
    """A `case` with an arm for each component."""
    return f"case {variable}{{" + "".join(f"when {name}{{{within(name)}}}" for name in components) + "}"


def read(several, fields):
    """One statement that reads each field of each record, field by field."""
    return "k:=" + "+".join(f"{name}.{field}" for field in fields for name in several) + ";"


def head(definitions, variables):
    """The definitions, and the head of a process that has a value in the first of these variables."""
    return f"definitions w{{{definitions}}}\nprocess p(start:ti){{var {variables};receive {variables.split(':')[0]} from start;"


def text(definitions, variables, statements):
    """A program with such a process, and nothing else that runs."""
    return head(definitions, variables) + statements + "}\n" + texts.EMPTY_MAIN


def repeated(begin, piece, end=""):
    """The text that begins so, with the piece as often as a file has room for."""
    tail = end + "}\n" + texts.EMPTY_MAIN
    return begin + piece * ((texts.FILE_BYTES - len(begin) - len(tail)) // len(piece)) + tail


def declared(repeats, statements):
    """Receives from a port that declares a full record of 1,000 fields, so many times."""
    types = record("q", numbered("f", texts.FIELDS - 20)) + f"type r=record{{a:q}};type ri=inport of r{{{','.join(['full(a)'] * repeats)}}};type ti=inport of ri;"
    return text(types, "i:ri,x:r", "receive x from i;" * statements)


def lost_in_turn(first, second, kept):
    """A `try` of calls, each of which loses a variable of its own where it raises, and behind its last handler one of calls whose exceptions keep one result less each."""
    results, lost, raised = some(kept), numbered("v", first), numbered("E", kept + 1)
    raising = [keeping(name, results[: kept - number]) for number, name in enumerate(raised)]
    types = exceptions(raised) + called(results, raising, "out r:integer,") + called(lost, name="d") + "type t=record{o:co,d:do};type ti=inport of t;"
    taken = ",".join(results)
    again = lambda count: tried(f"call m.o(w,{taken});" * count, raised)
    one = tried("".join(f"call m.o({name},{taken});" for name in lost), raised[:-1]) + f"on {raised[-1]}{{k:=1;}}"
    return text(types, f"m:t,k:integer,w:integer,{of_type(lost + results)}", f"call m.d({','.join(lost)});{one}{again(second)}{again(1)}k:=1;")


def cases_within_loops(cases, depth):
    """Cases of 1,000 components in the outermost of loops within each other, each of which loses a field in the first arm of a case of 17 components."""
    components, fields = some(texts.ARMS), numbered("f", texts.FIELDS - 20)
    few = components[:17]
    variant = lambda name, of: f"type {name}=variant{{{of_type(of)}}};"
    types = variant("v", components) + variant("w", few) + "type wi=inport of w;" + record("r", fields) + "type ri=inport of r;type vi=inport of v;type t=record{i:ri,v:vi,w:wi};type ti=inport of t;"
    loop = lambda number: f"while k<9{{d.f{number}:=1;" + looked_at("W", few, lambda name: f"discard d.f{number};" if name == few[0] else "")
    loops = "while k<9{" + looked_at("V", components) * cases + "".join(map(loop, range(1, depth))) + "}" * depth
    return text(types, "m:t,d:r,a:r,V:v,W:w,k:integer", f"k:=1;receive V from m.v;receive W from m.w;receive d from m.i;receive a from m.i;{loops}")


def one_variable(calls, raised):
    """Calls of which two arguments are one variable, whose exceptions keep one of two results by turns; all handlers are empty."""
    several = some(raised)
    raising = [keeping(name, "xy"[number % 2]) for number, name in enumerate(several)]
    types = exceptions(several) + called("xy", raising, "in a:integer,in b:integer,") + "type ti=inport of co;"
    return text(types, "o:co,x:integer,y:integer,k:integer", f"k:=1;{tried('call o(k,k,x,y);' * calls, several)}k:=1;")


def outer_handlers(calls, raised, depth, others):
    """Calls in `try` within each other, each with empty handlers for exceptions that are not raised; the outermost handles those that are."""
    several = some(raised + others)
    types = exceptions(several) + called([], several[:raised]) + "type ti=inport of co;"
    within = "call o();" * calls
    for _ in range(depth):
        within = tried(within, several[raised:])
    return text(types, "o:co,k:integer", f"k:=1;{tried(within, several[:raised], 'k:=1;')}k:=1;")


def last_handled(calls, raised, others):
    """Calls with handlers of their own for the last of the many exceptions that they may raise."""
    several = some(raised + others)
    types = exceptions(several) + called([], several) + "type ti=inport of co;"
    return text(types, "o:co,k:integer", f"k:=1;{tried('call o();' * calls, several[others:], 'k:=1;')}k:=1;")


def levels(calls, depth, kept):
    """Calls in `try` within each other, each with empty handlers for exceptions that keep all results, all but one and so on, and a statement behind it."""
    results = some(kept)
    raised = [[f"{name}{number:x}" for number in range(kept + 1)] for name in some(depth)]
    raising = [keeping(name, results[: kept - number]) for level in raised for number, name in enumerate(level)]
    types = "".join(map(exceptions, raised)) + called(results, raising) + "type ti=inport of co;"
    within = f"call Z({','.join(results)});" * calls
    for level in raised:
        within = tried(within, level) + "Y:=1;"
    return text(types, f"Z:co,Y:integer,{of_type(results)}", within)


def last_values(values):
    """Calls with the last name of an enumeration as each of 1,000 arguments."""
    several, width = some(values), texts.ARMS
    types = f"type T=enum{{{','.join(several)}}};type c=callmessage({','.join(f'in {name}:T' for name in some(width))});type ci=inport of c;type co=outport of ci;type ti=inport of co;"
    return repeated(head(types, "o:co"), f"call o({','.join(['T#' + several[-1]] * width)});")


def last_fields():
    """One expression of the last field of a record of 1,020."""
    several = some(texts.FIELDS)
    types = record("r", several) + "type ri=inport of r;type ti=inport of ri;"
    return repeated(head(types, "i:ri,a:r,k:integer") + "receive a from i;k:=", f"a.{several[-1]}+", "1;")


def many_handlers(handled):
    """One `try` with many handlers."""
    several = some(handled)
    return text(exceptions(several) + "type ii=inport of integer;type ti=inport of ii;", "i:ii,k:integer", tried("k:=1;", several))


def nested_results(depth):
    """Calls whose results are the fields of one record, so many records deep."""
    several = some(texts.RESULTS - depth)
    types = chain(several, depth) + called(several) + f"type ri=inport of d{depth - 1};type t=record{{o:co,i:ri}};type ti=inport of t;"
    call = f"call m.o({','.join('r' + '.a' * (depth - 1) + '.' + name for name in several)});"
    return repeated(head(types, f"m:t,r:d{depth - 1}") + "receive r from m.i;", call)


def arms_of_types(selects):
    """Selections of 900 arms that receive into four records by turns, from ports of 17 types by turns."""
    ports = texts.ARMS * 9 // 10
    types = record("q", numbered("f", texts.FIELDS * 3 // 4 - 5)) + "type r=record{a:q};" + "".join(f"type i{n}=inport of r;" for n in range(17))
    types += f"type t=record{{{','.join(f'p{n}:i{n % 17}' for n in range(ports))}}};type ti=inport of t;"
    arms = "".join(f"when m.p{n} receive {'abcd'[n % 4]}{{}}" for n in range(ports))
    return text(types, f"m:t,{of_type('abcd', 'r')}", f"select{{{arms}}}" * selects)


def records_of_chains(statements):
    """Assignments of records of 35 records that are nested 28 deep."""
    types = chain("a", 28) + record("r", numbered("f", 35), "d27") + "type ri=inport of r;type ti=inport of ri;"
    return text(types, "i:ri,a:r,b:r,c:r,d:r", "receive a from i;receive c from i;receive d from i;" + "b:=a;" * statements)


def chains(variables, statements):
    """Variables of records that are nested 29 deep, which all have values, and statements behind them."""
    several = numbered("v", variables)
    types = chain("a", 29) + "type ri=inport of d28;type ti=inport of ri;"
    return text(types, f"i:ri,k:integer,{of_type(several, 'd28')}", "".join(f"receive {name} from i;" for name in several) + "k:=1;" * statements)


def deep_fields(statements, depth, fields):
    """Assignments of records whose fields lie so deep."""
    last = f"d{depth - 1}"
    types = chain(numbered("f", fields), depth) + f"type ri=inport of {last};type ti=inport of ri;"
    return text(types, f"i:ri,{of_type('abcd', last)}", "receive a from i;" + "b:=a;" * statements)


def one_by_one(calls, raised):
    """60 records, each received on a path one hop longer than the one before it, then calls with handlers of their own, and at the end all fields are read."""
    several, raised, fields = numbered("R", 60), some(raised), some(64)
    types = exceptions(raised) + record("q", fields) + "type qi=inport of q;" + called([], raised) + "type t=record{i:qi,o:co};type ti=inport of t;"
    received = "".join(f"if 1<2{{receive {name} from m.i;}}else{{" for name in several) + "k:=1;" + "}" * 60
    return text(types, f"m:t,k:integer,{of_type(several, 'q')}", received + tried("call m.o();" * calls, raised, "k:=1;") + read(several, fields))


def selected(types, port, variable, first, walk):
    """63 records of which one `select` receives one, each by an arm of its own, then this walk, and at the end all fields are read."""
    several, ports, fields = numbered("R", 63), numbered("i", 63), some(60)
    types += record("q", fields) + f"type qi=inport of q;type t=record{{{of_type(ports, 'qi')},{port}}};type ti=inport of t;"
    arms = "".join(f"when m.{port} receive {name}{{}}" for port, name in zip(ports, several))
    return text(types, f"m:t,{variable}k:integer,{of_type(several, 'q')}", f"{first}select{{{arms}}}{walk}{read(several, fields)}")


def selected_before_calls(calls, raised):
    """Records that are selected, before calls with handlers of their own."""
    several = some(raised)
    return selected(exceptions(several) + called([], several), "o:co", "", "", tried("call m.o();" * calls, several, "k:=1;"))


def selected_before_cases(cases):
    """Records that are selected, before cases of a component with a name of 64 letters."""
    component = "x" * 64
    return selected(f"type v=variant{{{component}:integer}};type vi=inport of v;", "v:vi", "V:v,", "receive V from m.v;", looked_at("V", [component]) * cases)


def lost_groups(groups, fields, statements):
    """Three records of records, each of which is lost in a branch of its own, then a statement that reads a field of each by turns, and assignments of the three by turns."""
    fields, parts = some(fields), numbered("g", groups)
    groups = [f"{variable}.{part}" for variable in "abc" for part in parts]
    types = record("q", fields) + record("r", parts, "q") + "type ri=inport of r;type ti=inport of ri;"
    lost = "".join(f"if 1<2{{discard {group};}}" for group in groups)
    moved = "".join(f"x:={'abc'[number % 3]};" for number in range(statements))
    return text(types, "i:ri,a:r,b:r,c:r,x:r,k:integer", f"receive a from i;receive b from i;receive c from i;{lost}{read(groups, fields)}{moved}")


def read_apart(calls, raised, results, kept, others):
    """Calls whose exceptions keep some of the results, with handlers of their own, then one statement that reads each result and a few other integers behind it."""
    several, raised = some(results + others), numbered("E", raised)
    results, step = several[:results], others // results
    raising = [keeping(name, [result for n, result in enumerate(results) if (n - 7 * i) % len(results) < kept]) for i, name in enumerate(raised)]
    types = exceptions(raised) + called(results, raising) + "type ti=inport of co;"
    order = [name for n, result in enumerate(results) for name in (result, *several[len(results) + n * step :][:step])]
    return text(types, f"A:co,Z:integer,{of_type(several)}", tried(f"call A({','.join(results)});" * calls, raised, "Z:=1;") + f"Z:={'+'.join(order)};")


def where_lists_meet(less):
    """Processes in which two long lists meet, by what they have much of; the lists are so many times shorter."""
    share = lambda count: max(count // less, 1)
    return {
        "facts declared 50 times": declared(share(50), share(1_000)),
        "facts declared 10,000 times": declared(share(10_000), 0),
        "variables that are lost in turn": lost_in_turn(share(450), share(450), share(50)),
        "cases within loops of cases": cases_within_loops(share(100), 58),
        "4,000,000 of one variable twice": one_variable(share(1_000), share(4_000)),
        "220,000 within other handlers": outer_handlers(share(470), share(470), 58, share(1_900)),
        "230,000 of the last of 30,480": last_handled(share(480), share(480), share(30_000)),
        "880 calls in 58 levels of handlers": levels(share(880), 58, share(50)),
        "the last of 10,000 values": last_values(share(10_000)),
        "the last of 1,020 fields": last_fields(),
        "40,000 handlers": many_handlers(share(40_000)),
        "results in nested records": nested_results(8),
        "arms of 17 types": arms_of_types(share(20)),
        "assignments of nested records": records_of_chains(share(1_000)),
        "nested records beside statements": chains(share(134), share(880)),
        "assignments of 990 fields 29 deep": deep_fields(share(1_016), 29, share(990)),
        "refusals of facts one by one": one_by_one(share(445), share(445)),
        "refusals behind a select before calls": selected_before_calls(share(505), share(505)),
        "refusals behind a select before cases": selected_before_cases(share(1_018)),
        "refusals of what was lost in groups": lost_groups(share(20), share(48), share(890)),
        "refusals of results read apart": read_apart(share(400), share(400), share(270), share(100), share(3_600)),
    }
