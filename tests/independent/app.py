"""The program: from the words of a command line to a status and the bytes of both outputs.

FORMATS.md, "The command line" and "What is written to standard error".
"""
from .checking import Violation, check
from .command_line import USAGE, Usage, read_request
from .endless import STATUS_PHASES_SPENT, forever_text, solve_forever
from .exact import Passing, ZERO
from .flows_file import read_flows
from .ladders import ladder
from .lines import Broken, joined
from .loading import load_text
from .loads_file import read_loads
from .network import canonical_text
from .network_file import read_network
from .phases import passed_words, solve, status_of
from .quickest import PushesSpent, augment_lines, has_unbounded_walk, quick_lines, quickest_flow
from .report_file import read_report
from .reports import Report, report_text
from .resuming import resume
from .routes import routes_text
from .routes_file import read_routes
from .settling import settle_text

FILE_LIMIT = 1048576
REPORT_LIMIT = 67108864
DEFAULTS = {"phases": 10000, "patterns": 100000, "augments": 10000}
SECOND_FILES = {"check": ("report", read_report), "resume": ("report", read_report), "load": ("loads", read_loads),
                "settle": ("flows", read_flows), "routes": ("routes", read_routes)}    # the file's kind and its reader


class Refusal(Exception):
    """An answer without a text: its status, and what is written to standard error."""

    def __init__(self, status, error):
        super().__init__(status, error)
        self.status = status
        self.error = error


def run(words, files=None):
    """The status and the bytes of standard output and of standard error, given the words behind the program's name.

    `files` maps names to bytes; without it the files of the file system are read. Status 1 doesn't come: where memory is
    wanting, Python ends.
    """
    try:
        "".join(words).encode("utf-8")
    except UnicodeEncodeError:
        return 17, b"", b""
    try:
        status, output, error = answer(words, files)
    except Refusal as refusal:
        status, output, error = refusal.status, b"", refusal.error
    return status, output, error.encode()


def answer(words, files):
    """The answer to the words. Faults come in this order: words, files, the network's rules, the second file's rules."""
    try:
        request = read_request(words)
    except Usage:
        raise Refusal(2, USAGE) from None
    options = {**DEFAULTS, **request.options}
    limits = [FILE_LIMIT, REPORT_LIMIT if request.command in ("check", "resume") else FILE_LIMIT]
    texts = [fetch(name, limit, files) for name, limit in zip(request.files, limits)]
    read = []
    if texts:
        read.append(read_file("network", read_network, texts[0]))
    if len(texts) > 1:
        kind, reader = SECOND_FILES[request.command]
        read.append(read_file(kind, reader, read[0], texts[1]))
    try:
        return COMMANDS[request.command](options, *read)
    except Passing as passing:
        raise Refusal(7, stopped_line(passed_words("-", "-", passing))) from None


def fetch(name, limit, files):
    """The bytes of a file, at most `limit` of them."""
    if files is None:
        try:
            with open(name, "rb") as file:
                data = file.read(limit + 1)
        except (OSError, ValueError):
            raise Refusal(3, "nfot: shelf failed\n") from None
    elif name in files:
        data = files[name]
    else:
        raise Refusal(3, "nfot: shelf failed\n")
    if len(data) > limit:
        raise Refusal(3, "nfot: shelf too long\n")
    return data


def read_file(kind, reader, *arguments):
    """What a file says; raises Refusal with the rule that it breaks and the line."""
    try:
        return reader(*arguments)
    except Broken as broken:
        raise Refusal(4, f"nfot: {kind} line {broken.line}: {broken.rule}\n") from None


def stopped_line(cause):
    """The line on standard error for a cause."""
    return f"nfot: stopped: {cause}\n"


def stopped(solution):
    """The status of a run, and what is written to standard error."""
    status = status_of(solution.cause)
    return status, stopped_line(solution.cause) if status else ""


def answer_show(options, net):
    """`show`: the canonical text."""
    return 0, canonical_text(net), ""


def answer_solve(options, net):
    """`solve`: the report of the run to the horizon, or of the run without one."""
    if "forever" in options:
        return answer_forever(options, net)
    solution = solve(net, options["horizon"], options["phases"], options["patterns"])
    return reported(options, net, solution)


def reported(options, net, solution):
    """The answer of a run to a horizon: its report."""
    status, error = stopped(solution)
    report = Report(options["horizon"], solution.flow, solution.cause, solution.pattern)
    return status, report_text(net, report), error


def answer_forever(options, net):
    """`solve --forever`: the run until its tail."""
    solution, tail = solve_forever(net, options["phases"], options["patterns"])
    status, error = stopped(solution)
    if solution.cause.startswith("phases"):
        status = STATUS_PHASES_SPENT
    return status, forever_text(net, solution, tail), error


def answer_gen(options):
    """`gen`: the summary of a ladder's run."""
    net = ladder(options["number"], options["rungs"])
    solution = solve(net, options["horizon"], options["phases"], options["patterns"])
    status, error = stopped(solution)
    lines = [f"gen {options['number']} {options['rungs']}", f"nodes {len(net.nodes)}", f"links {len(net.links)}",
             f"phases {solution.phases}", f"reached {solution.flow.reached}", f"cause {solution.cause}",
             f"arrival {solution.flow.labels[net.sink][-1][1]}"]
    return status, joined(lines), error


def answer_load(options, net, loads):
    """`load`: queues, outflows and exits."""
    return 0, load_text(net, loads, options["horizon"]), ""


def violated(violation):
    """The answer where a flow is no equilibrium."""
    return 10, joined([violation.line()]), "nfot: no equilibrium\n"


def answer_check(options, net, report):
    """`check`: whether the report's flow is an equilibrium."""
    try:
        check(net, report.flow)
    except Violation as violation:
        return violated(violation)
    return 0, joined(["yes"]), ""


def answer_resume(options, net, report):
    """`resume`: the report of the run that goes on."""
    if options["horizon"] < report.flow.reached:
        raise Refusal(16, "nfot: earlier\n")
    try:
        solution = resume(net, report, options["horizon"], options["phases"], options["patterns"])
    except Violation as violation:
        return violated(violation)
    return reported(options, net, solution)


def answer_quick(options, net):
    """`quick`: the quickest flow of the amount, with its cut."""
    amount, augments = options["amount"], options["augments"]
    if amount > ZERO and has_unbounded_walk(net):
        raise Refusal(14, "nfot: unbounded\n")
    try:
        quickest = quickest_flow(net, amount, augments)
    except PushesSpent as spent:
        return 11, joined(augment_lines(net, spent.walks)), f"nfot: augments {augments}\n"
    return 0, joined(quick_lines(net, amount, quickest)), ""


def answer_settle(options, net, given):
    """`settle`: the thin flow without cycles, with its pattern."""
    text = settle_text(net, *given)
    if text is None:
        raise Refusal(15, "nfot: no thin flow\n")
    return 0, text, ""


def answer_routes(options, net, routes):
    """`routes`: the loading by route."""
    return 0, routes_text(net, routes, options["horizon"]), ""


COMMANDS = {"solve": answer_solve, "show": answer_show, "load": answer_load, "check": answer_check, "quick": answer_quick,
            "gen": answer_gen, "settle": answer_settle, "resume": answer_resume, "routes": answer_routes}
