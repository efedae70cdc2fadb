"""The definitions run beside the map: histories of calls are answered by the proved map, and the checker works out the answers of
`replies` (crates/history/specs/Promises.antt) for the same calls; a statement for each history says that the two lists are equal.

Called by tests/definitions, which proves and builds what answers: definitions.py PLAY BENCH JUDGE [WORD...]. Python 3.8 or newer, its
standard library alone. Exit status: 0 all equal, 1 not equal, 2 bad usage or something missing.
"""
import collections
import os
import re
import shutil
import struct
import subprocess
import sys
import tempfile

ME = "tests/definitions"
USAGE = f"usage: {ME} [--short | --selftest | RECORDS NODES CELLS]"

BENCH_POOLS = (1024, 2048)
POOL_MAX = 65536
RECORD = 12
# The checker's time grows faster than the square of a history's calls, and its steps for one statement end at 60 to 100 of them.
MOST_CALLS = 40


def stop(status, *lines):
    """Ends the command with lines on standard error."""
    for line in lines:
        print(f"{ME}: {line}", file=sys.stderr)
    sys.exit(status)


def output(words, data=b""):
    """What a program writes."""
    ran = subprocess.run(words, input=data, stdout=subprocess.PIPE)
    if ran.returncode:
        stop(2, f"{' '.join(words)} ended with status {ran.returncode}")
    return ran.stdout


# ---- calls and answers, as records and in words

OPERATIONS = ["insert", "remove", "exact", "longest", "shortest"]  # 1 to 5
Call = collections.namedtuple("Call", "operation key length value")
Answer = collections.namedtuple("Answer", "number length nodes key value")
History = collections.namedtuple("History", "name nodes cells calls answers")


def call_of(record):
    """The call of a record, or None where document 01 answers 6."""
    operation, length, zeros, key, value = struct.unpack(">BBHII", record)
    if not 1 <= operation <= len(OPERATIONS) or zeros or (operation != 1 and value):
        return None
    return Call(OPERATIONS[operation - 1], key, length, value)


def record_of(call):
    return struct.pack(">BBHII", OPERATIONS.index(call.operation) + 1, call.length, 0, call.key, call.value)


def answer_of(record):
    number, length, nodes, _, key, value = struct.unpack(">BBBBII", record)
    return Answer(number, length, nodes, key, value)


def records(data):
    return [data[at:at + RECORD] for at in range(0, len(data), RECORD)]


def call_named(text):
    """A call as the demo writes it: insert KEY/LEN VALUE, remove KEY/LEN .., KEY in hexadecimal."""
    operation, prefix, *value = text.split()
    key, length = prefix.split("/")
    return Call(operation, int(key, 16), int(length), int(value[0]) if value else 0)


def call_words(call):
    value = f" {call.value}" if call.operation == "insert" else ""
    return f"{call.operation} {call.key:08X}/{call.length}{value}"


def answer_words(call, answer):
    """An answer in words: its number where it refuses, else what was done with which rule."""
    nodes = f", {answer.nodes} nodes" if answer.nodes else ""
    if answer.number not in (0, 8):
        return f"{answer.number}{nodes}"
    done = "replaced" if answer.number == 8 else {"insert": "added", "remove": "removed"}.get(call.operation, "found")
    value = "" if done == "added" else f" {answer.value}"
    return f"{done} {answer.key:08X}/{answer.length}{value}{nodes}"


# ---- the histories

# Document 01's readings that are calls, those on each side of a mark among them, with what it says of each call.
READINGS = [
    ("the whole run of document 01", 1024, 2048, [
        ("insert 0A000113/27 7", "added 0A000100/27"), ("longest 0A000112/32", "found 0A000100/27 7, 6 nodes")]),
    ("* a fresh map", 8, 4, [("longest 0A000113/32", "2, 1 nodes")]),
    ("* 0A000100/27 alone, then 0A000113/32 added", 8, 4, [
        ("insert 0A000100/27 7", "added 0A000100/27"), ("longest 0A000100/26", "2, 6 nodes"), ("exact 0A000100/26", "2, 6 nodes"),
        ("longest 0A000100/27", "found 0A000100/27 7, 6 nodes"), ("insert 0A000113/32 9", "added 0A000113/32"),
        ("longest 0A000113/32", "found 0A000113/32 9, 7 nodes"), ("longest 0A000112/32", "found 0A000100/27 7, 7 nodes"),
        ("shortest 0A000113/32", "found 0A000100/27 7, 6 nodes")]),
    ("a first /32 in 7 nodes; lengths 32 and 33", 7, 1, [
        ("insert 00000000/32 1", "added 00000000/32"), ("insert 00000000/33 1", "1"), ("remove 00000000/33", "1"),
        ("exact 00000000/33", "1"), ("longest 00000000/255", "1"), ("shortest 00000000/33", "1")]),
    ("a first /32 in 6 nodes", 6, 1, [("insert 00000000/32 1", "4"), ("longest 00000000/32", "2, 1 nodes")]),
    ("a next /32 in 13 nodes, and gone again", 13, 2, [
        ("insert 00000000/32 1", "added 00000000/32"), ("insert 80000000/32 2", "added 80000000/32"),
        ("remove 80000000/32", "removed 80000000/32 2"), ("exact 80000000/32", "2, 1 nodes")]),
    ("a next /32 in 12 nodes", 12, 2, [
        ("insert 00000000/32 1", "added 00000000/32"), ("insert 80000000/32 2", "4"), ("exact 80000000/32", "2, 1 nodes")]),
    ("a second /32 under the same 30 bits in 3 cells", 7, 3, [
        ("insert 0A000112/32 1", "added 0A000112/32"), ("insert 0A000113/32 2", "added 0A000113/32")]),
    ("a second /32 under the same 30 bits in 2 cells", 7, 2, [
        ("insert 0A000112/32 1", "added 0A000112/32"), ("insert 0A000113/32 2", "4"), ("insert 0A000112/32 0", "replaced 0A000112/32 1")]),
    ("a removal in 4 nodes, no room for the smaller block", 4, 2048, [
        ("insert 00000000/5 1", "added 00000000/5"), ("insert 08000000/5 2", "added 08000000/5"),
        ("insert 00000000/10 3", "added 00000000/10"), ("remove 08000000/5", "4"), ("exact 08000000/5", "found 08000000/5 2, 2 nodes")]),
    ("a removal in 8 cells, no room for the smaller block", 1024, 8, [
        ("insert 00000000/0 1", "added 00000000/0"), ("insert 00000000/1 2", "added 00000000/1"), ("insert 00000000/2 3", "added 00000000/2"),
        ("insert 00000000/5 4", "added 00000000/5"), ("insert 00000000/6 5", "added 00000000/6"), ("remove 00000000/1", "4"),
        ("longest 00000000/1", "found 00000000/1 2, 1 nodes")]),
]

# Histories by seed: kind, seed, nodes, cells. Pools are chosen so that number 4 is met; a pool of the bench program's size never fills.
BY_SEED_CALLS = 30
BY_SEED_SHORT = [
    ("chain", 1, 1024, 2048), ("lengths", 23, 12, 2048), ("drain", 47, 20, 2048), ("dense", 24, 1024, 4), ("drain", 35, 14, 8)]
BY_SEED = BY_SEED_SHORT + [
    ("random", 1, 1024, 2048), ("dense", 1, 1024, 2048), ("drain", 1, 1024, 2048), ("lengths", 1, 1024, 2048),
    ("random", 34, 12, 2048), ("dense", 31, 12, 2048), ("chain", 4, 12, 2048), ("random", 50, 1024, 4), ("chain", 16, 1024, 4),
    ("dense", 4, 1024, 8), ("chain", 31, 1024, 8), ("lengths", 31, 14, 8), ("dense", 37, 24, 12), ("drain", 44, 24, 12),
    ("drain", 57, 24, 12)]


def tiers(name, prefixes, nodes, cells):
    """Rules side by side in one node, one after the other through the tiers until a pool refuses the last; then half of them go."""
    inserts = [Call("insert", key, length, at + 1) for at, (key, length) in enumerate(prefixes)]
    key, length = prefixes[len(prefixes) // 2]
    looks = [Call("exact", key, length, 0), Call("longest", key, 32, 0), Call("shortest", key, 32, 0)]
    removals = [Call("remove", key, length, 0) for key, length in prefixes[:len(prefixes) // 2]]
    said = [f"added {key:08X}/{length}" for key, length in prefixes[:-1]] + ["4"]
    return name, nodes, cells, inserts + looks + removals + looks, said


def children(count):
    """The first prefixes of length 5: each is a child of the root."""
    return [(at << 27, 5) for at in range(count)]


def root_rules(count):
    """The first prefixes of lengths 0 to 4, which live in the root."""
    return [(at << (32 - length), length) for length in range(5) for at in range(2 ** length)][:count]


def histories(short, judge):
    """Name, pools and calls of every history, and what document 01 says of its first answers where it says something."""
    made = [(name, nodes, cells, [call_named(call) for call, _ in said], [answer for _, answer in said])
            for name, nodes, cells, said in READINGS]
    top = 9 if short else 25  # the first count of tier 4, of tier 6
    blocks = {9: 1 + 2 + 4 + 8, 25: 1 + 2 + 4 + 8 + 16 + 24}[top]  # in tiers below, each met on the way
    last = {9: (16, 16), 25: (32, 31)}[top]  # the spacing of that tier, of nodes and of cells
    made.append(tiers(f"the root's children, 1 to {top}, one node short", children(top), blocks + last[0], 2048))
    made.append(tiers(f"the root's rules, 1 to {top}, one cell short", root_rules(top), 1024, blocks + last[1] - 1))
    for kind, seed, nodes, cells in BY_SEED_SHORT if short else BY_SEED:
        words = [judge, "history", "--seed", str(seed), "--kind", kind, "--count", str(BY_SEED_CALLS), "--nodes", str(nodes), "--cells", str(cells)]
        calls = [call_of(record) for record in records(output(words))]
        # a bad record is the program's to answer and never reaches the map
        made.append((f"{kind}, seed {seed}", nodes, cells, [call for call in calls if call], None))
    return made


def history_in(path, nodes, cells):
    """The history of a file of records."""
    sizes = []
    for what, text in (("NODES", nodes), ("CELLS", cells)):
        if not re.fullmatch("[0-9]{1,5}", text) or not 1 <= int(text) <= POOL_MAX:
            stop(2, f"{what} is '{text}': a pool has 1 to {POOL_MAX} of them", USAGE)
        sizes.append(int(text))
    try:
        with open(path, "rb") as file:
            data = file.read(RECORD * MOST_CALLS + 1)
    except OSError as error:
        stop(2, f"can't read {path}: {error.strerror}", USAGE)
    if not data:
        stop(2, f"{path} is empty: it is to hold records of twelve bytes (document 01, \"Bench records\")")
    if len(data) > RECORD * MOST_CALLS:
        stop(2, f"{path} has more than {MOST_CALLS} records: the checker takes too long over so many calls of one history")
    if len(data) % RECORD:
        stop(2, f"{path}: its last record is cut short, {len(data) % RECORD} bytes of {RECORD}")
    calls = [call_of(record) for record in records(data)]
    if None in calls:
        at = calls.index(None)
        stop(2, f"{path}: record {at + 1} is bad, and never reaches the map: {data[RECORD * at:RECORD * (at + 1)].hex(' ')}")
    return path, sizes[0], sizes[1], calls, None


# ---- the map's answers

def played(made, play, bench):
    """A history with the answers of the exported map; where the pools are the bench program's, it has to say the same."""
    name, nodes, cells, calls, said = made
    data = b"".join(map(record_of, calls))
    ran = output([play, str(nodes), str(cells)], data)
    answers = [answer_of(record) for record in records(ran)]
    if len(ran) != len(data):
        stop(1, f"{name}: {len(calls)} calls, {len(answers)} answers of the map")
    if (nodes, cells) == BENCH_POOLS and output([bench], data) != ran:
        stop(1, f"{name}: the bench program and the exported map answer differently")
    for call, answer, text in zip(calls, answers, said or []):
        if answer_words(call, answer) != text:
            stop(1, f"{name}: {call_words(call)}: document 01 says '{text}', the map '{answer_words(call, answer)}'")
    return History(f"{name} ({nodes} nodes, {cells} cells)", nodes, cells, calls, answers)


def node_set(rules):
    """The nodes that rules fix, by depth and leading bits, but the root."""
    return {(depth, key >> (32 - depth)) for key, length in rules for depth in range(5, length + 1, 5)}


def events(history):
    """What a history shows, a line each time."""
    rules = set()
    for call, answer in zip(history.calls, history.answers):
        did = f"{call.operation}: {answer.number}"
        if answer.number == 4:
            full = [pool for pool, size, ample in zip(("nodes", "cells"), (history.nodes, history.cells), BENCH_POOLS) if size < ample]
            did += f", no {full[0]}" if len(full) == 1 else ", no nodes or cells"
        yield did
        if answer.number in (0, 8) and call.operation == "insert":
            rules.add((answer.key, answer.length))
        if answer.number == 0 and call.operation == "remove":
            before = node_set(rules)
            rules.remove((answer.key, answer.length))
            if len(before) - len(node_set(rules)) > 1:
                yield "remove: a chain goes"
        if answer.number == 0 and call.operation in ("longest", "shortest") and answer.length < call.length:
            yield f"{call.operation}: a shorter rule"


WANTED = ["insert: 0", "insert: 8", "insert: 1", "insert: 4, no nodes", "insert: 4, no cells", "remove: 0", "remove: a chain goes",
          "remove: 1", "remove: 2", "remove: 4, no nodes", "remove: 4, no cells", "longest: a shorter rule", "shortest: a shorter rule"]
WANTED += [f"{lookup}: {number}" for lookup in ("exact", "longest", "shortest") for number in (0, 1, 2)]


def telling(all_histories):
    """All that is to be shown is shown: a change of the histories can't lose it unseen."""
    seen = collections.Counter(event for history in all_histories for event in events(history))
    lost = [event for event in WANTED if not seen[event]]
    if lost:
        stop(1, "the histories no longer show: " + "; ".join(lost))
    return seen


# ---- the statements, and the checker

# The modules whose definitions have to compute. Each `unfoldable` name in them is unfolded.
COMPUTING = [("prefix", "Prefix"), ("tiers", "Tiers"), ("rules", "Sums"), ("rules", "Rules"), ("rules", "Nodes"), ("rules", "Account"),
             ("rules", "Ledger"), ("history", "Calls"), ("history", "Promises")]
THEORY = "played"  # the scratch crate
HEAD = """use Rattle.std.specs.Prelude.{◌≡◌, refl, [], ◌∷◌}
use Rattle.store.specs.Words.{cell_as}
use Rattle.map.specs.declared.Answer.TheVariants.{Added, Replaced, Removed, Found, TooLong, Missing, NoRoom, Broken}
use Rattle.map.specs.Answers.{values_of}
use Rattle.history.specs.Calls.{insert, remove, exact, longest, shortest, reply}
use Rattle.history.specs.Promises.{ledger, edits, replies}
"""


def call_term(call):
    value = f" (cell_as {call.value})" if call.operation == "insert" else ""
    return f"{call.operation} {call.key:#x} {call.length}{value}"


def answer_term(call, answer):
    """The case of the map's `Answer` whose number and values these are (crates/map/specs/Answers.antt)."""
    rule = f"{answer.key:#x} {answer.length}"
    if answer.number == 0 and call.operation == "insert":
        return f"Added {rule}"
    done = "Removed" if call.operation == "remove" else "Found"
    nodes = f" {answer.nodes}" if done == "Found" else ""
    terms = {0: f"{done} {rule} {answer.value}{nodes}", 1: "TooLong", 2: f"Missing {answer.nodes}", 4: "NoRoom", 5: "Broken", 8: f"Replaced {rule} {answer.value}"}
    if answer.number not in terms:
        stop(1, f"{call_words(call)}: the map answers {answer.number}, which no call has after a fresh start")
    return terms[answer.number]


def listed(terms):
    """A list, the newest first."""
    return "(" + " ∷ ".join([*reversed(terms), "[]"]) + ")"


def history_statement(history):
    answers = [answer_term(call, answer) for call, answer in zip(history.calls, history.answers)]
    return f"replies {history.nodes} {history.cells} {listed([*map(call_term, history.calls)])} ≡ {listed(answers)}"


def reply_term(history, at):
    """The definitions' answer to one call of a history."""
    pools = f"{history.nodes} {history.cells}"
    return f"reply {pools} (ledger {pools} (edits {pools} {listed([*map(call_term, history.calls[:at])])})) ({call_term(history.calls[at])})"


class Checker:
    """A scratch repository: the crates that the definitions stand on as proved, the crates with no code as definitions alone, and a
    crate for the statements."""

    def __init__(self, root, folder):
        self.root, self.folder = root, folder
        lines = {}
        with open(os.path.join(root, "crates.txt"), encoding="utf-8") as file:
            for line in file:
                name, colon, _ = line.split("#")[0].partition(":")
                if colon:
                    lines[name.split()[0]] = line
        stand_on = {crate for crate, _ in COMPUTING} | {"store", "map"}
        kept, todo = {}, list(stand_on)
        os.makedirs(os.path.join(folder, "crates"))
        while todo:
            crate = todo.pop()
            if crate in kept:
                continue
            if crate not in lines:
                stop(2, f"crates.txt doesn't list {crate}, whose definitions are to be run")
            if self.has_code(crate):
                kept[crate] = lines[crate]
                self.copy(f"crates/{crate}")
                todo += lines[crate].split("#")[0].partition(":")[2].split()
            else:
                uses = sorted(self.used(crate))
                kept[crate] = f"{crate}: {' '.join(uses)}\n"
                self.copy(f"crates/{crate}/src")
                self.copy(f"crates/{crate}/specs")
                todo += uses
        with open(os.path.join(folder, "crates.txt"), "w", encoding="utf-8") as file:
            file.writelines([*kept.values(), f"{THEORY}: {' '.join(sorted(stand_on))}\n"])
        os.makedirs(os.path.join(folder, "crates", THEORY, "src"))
        os.makedirs(os.path.join(folder, "crates", THEORY, "specs"))
        self.write("src/lib.rt", "// No code.\n#![tactic(auto)]\n")
        self.write("specs/Lib.antt", "pub mod Statements\n")
        names = [(module, name) for crate, module in COMPUTING
                 for name in re.findall(r"^ *unfoldable pub (\S+)", self.read(f"crates/{crate}/specs/{module}.antt"), re.M)]
        self.head = HEAD + "".join(f"use Rattle.{crate}.specs.{module} as {module}\n" for crate, module in COMPUTING)
        self.unfolding = "unfolding " + " ".join(f"{module}.{name}" for module, name in names)

    def read(self, path):
        with open(os.path.join(self.root, path), encoding="utf-8") as file:
            return file.read()

    def write(self, path, text):
        with open(os.path.join(self.folder, "crates", THEORY, path), "w", encoding="utf-8") as file:
            file.write(text)

    def copy(self, path):
        """A folder of the repository, at the same place in the scratch one: rt reads no crate through a link."""
        shutil.copytree(os.path.join(self.root, path), os.path.join(self.folder, path), ignore=shutil.ignore_patterns("must-fail"))

    def has_code(self, crate):
        at = os.path.join(self.root, "crates", crate, "src")
        return any(re.search(r"\bfn\b|\bstruct\b|\benum\b", re.sub("//.*", "", self.read(f"crates/{crate}/src/{file}"))) for file in os.listdir(at))

    def used(self, crate):
        """The crates that a crate's definitions name."""
        at = os.path.join(self.root, "crates", crate, "specs")
        text = "".join(self.read(f"crates/{crate}/specs/{file}") for file in os.listdir(at))
        return set(re.findall(r"^use Rattle\.(?!std\b)(\w+)\.", text, re.M)) - {crate}

    def refused(self, statements):
        """The numbers of the statements, each to be proved by `refl`, that the checker refuses."""
        text = self.head
        for at, statement in enumerate(statements):
            text += f"\npub statement{at} : {statement}\n{self.unfolding}\nstatement{at} = refl\n"
        self.write("specs/Statements.antt", text)
        ran = subprocess.run(["rt", "check"], cwd=os.path.join(self.folder, "crates", THEORY), stdout=subprocess.PIPE, stderr=subprocess.STDOUT, encoding="utf-8")
        if ran.returncode == 0 and re.search(r"^logic=proved ", ran.stdout, re.M):
            return []
        at_fault = {int(at) for at in re.findall(r"Statements\.antt:\d+:\d+: error: `statement(\d+)`:", ran.stdout)}
        if ran.returncode != 1 or not at_fault:
            tail = [line[:300] for line in ran.stdout.splitlines() if not line.startswith("library ")][-12:]
            stop(2, "the checker gave no verdict on the statements; its last lines:", *tail)
        return sorted(at_fault)


# ---- the comparison

FIELDS = ("number", "len", "nodes", "key", "value")


def definitions_answer(checker, history, at):
    """What the definitions answer to a call, found by asking for each part of the answer whether it is this or that."""
    call = history.calls[at]
    masked = {call.key >> (32 - length) << (32 - length) for length in range(33)}
    values = {earlier.value for earlier in history.calls[:at]}
    guesses = [(0, 1, 2, 3, 4, 5, 8), range(33), range(8), sorted(masked | {0}), sorted(values | {0})]
    asked = [(part, guess) for part, parts in zip(FIELDS, guesses) for guess in parts]
    no = set(checker.refused([f"(values_of ({reply_term(history, at)})).{part} ≡ {guess}" for part, guess in asked]))
    held = [pair for number, pair in enumerate(asked) if number not in no]
    return Answer(*(guess for _, guess in held)) if [part for part, _ in held] == list(FIELDS) else None


def first_difference(checker, history):
    """The first call of a history where the two differ, and the definitions' answer to it, if it can be told."""
    terms = zip(history.calls, history.answers)
    differ = checker.refused([f"{reply_term(history, at)} ≡ {answer_term(call, answer)}" for at, (call, answer) in enumerate(terms)])
    return (differ[0], definitions_answer(checker, history, differ[0])) if differ else (None, None)


def difference_words(history, at, answer):
    if at is None:
        return f"{history.name}: the lists differ, though every call's answer is equal"
    call = history.calls[at]
    defined = answer_words(call, answer) if answer else "something else"
    return f"{history.name}: call {at + 1}, {call_words(call)}: the definitions say '{defined}', the map '{answer_words(call, history.answers[at])}'"


def compare(checker, all_histories):
    differ = checker.refused([*map(history_statement, all_histories)])
    if differ:
        first = all_histories[differ[0]]
        others = [f"{all_histories[at].name}: differs too" for at in differ[1:]]
        stop(1, difference_words(first, *first_difference(checker, first)), *others)


def selftest(checker, all_histories):
    """An answer changed by hand is refused, at its own statement alone, and the report names its call and gives the true answer."""
    kept = [history for history in all_histories if len(history.calls) < 10]
    spoiled, at = next((number, call) for number, history in enumerate(kept) for call, answer in enumerate(history.answers) if answer.number == 0 and answer.nodes > 6)
    true = kept[spoiled].answers[at]
    answers = list(kept[spoiled].answers)
    answers[at] = true._replace(nodes=true.nodes - 1)
    kept[spoiled] = kept[spoiled]._replace(answers=answers)
    if checker.refused([*map(history_statement, kept)]) != [spoiled]:
        stop(1, "selftest: one node count was changed, and the checker did not refuse that statement alone")
    where, answer = first_difference(checker, kept[spoiled])
    if (where, answer) != (at, true):
        stop(1, "selftest: one node count was changed, and the report is wrong:", difference_words(kept[spoiled], where, answer))
    print(f"{ME}: of {len(kept)} statements the one with a changed answer is refused, and told: {difference_words(kept[spoiled], where, answer)}")


def main():
    play, bench, judge, *words = sys.argv[1:]
    root = os.getcwd()
    short, test = words == ["--short"], words == ["--selftest"]
    if words and not short and not test and (len(words) != 3 or words[0].startswith("--")):
        stop(2, USAGE)
    made = [history_in(*words)] if len(words) == 3 else histories(short or test, judge)
    all_histories = [played(history, play, bench) for history in made]
    with tempfile.TemporaryDirectory() as folder:
        checker = Checker(root, folder)
        if test:
            return selftest(checker, all_histories)
        seen = telling(all_histories) if len(words) != 3 else collections.Counter()
        compare(checker, all_histories)
    calls = sum(len(history.calls) for history in all_histories)
    print(f"{ME}: {calls} calls in {len(all_histories)} {'history' if len(all_histories) == 1 else 'histories'}, the definitions' answers equal to the map's")
    if seen:
        print(f"{ME}: " + "; ".join(f"{event} ({seen[event]})" for event in WANTED))


main()
