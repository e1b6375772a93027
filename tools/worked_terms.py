#!/usr/bin/env python3
"""Writes the worked reports of a folder, and its broken ones, as terms of crates/rules/specs, with the functions and proofs that judge them.

usage: worked_terms.py FOLDER CRATE

FOLDER has NAME.report, broken/NAME.report and broken/verdicts.tsv; CRATE is crates/rules. Each term is one report; a broken report is the one
that it was made of, with some lines replaced."""
import difflib, json, os, sys, textwrap

FOLDER, CRATE = sys.argv[1:3]
SUBJECTS = [
    ("loads", "loads", ["one_load", "loads_side_by_side", "get_response", "endless_file", "bad_fcp", "deactivated_file", "absent",
        "other_card_within_a_load", "keeps_partial_reading", "framework_reads_anew", "refused_before_stale"]),
    ("slots", "an empty slot, a full one and a full list of armed changes", ["slot_empty", "slot_full", "arm_full"]),
    ("channels", "channels, raw commands and PINs", ["channels", "raw_on_channel", "tries", "raw_update"]),
    ("edits", "edits", ["edit_with_extension", "edit_frees_extension", "plan_full_no_record", "plan_refusals", "plan_bad_file", "needs_pin",
        "load_meets_edit", "three_sets", "removed_behind_deciding", "plans_again", "lost_answer"]),
    ("refreshes", "proactive commands and resets", ["refresh_within_a_load", "refresh_of_one_file", "refresh_with_reset", "failed_reset",
        "other_proactive_command"]),
    ("notices", "watches", ["notices", "notices_of_nothing"]),
    ("faults", "an edit with a fault at each of its calls", ["fault_at_call_%02d_%s" % (k, w) for k in range(1, 13) for w in ("acted", "lost")]),
]
RULES = ["responses", "snapshots", "edits", "channels", "rest", "answers", "verifications", "turns", "ending", "faults"]
WIDTH = 138


def quoted(text):
    if all(32 <= ord(c) < 127 for c in text):
        return '(codes "%s")' % text.replace("\\", "\\\\").replace('"', '\\"')
    return "(" + listed("%d" % b for b in text.encode()) + ")"


def listed(items):
    return "".join("%s ∷ " % i for i in items) + "[]"


def many(items):
    return "(" + listed(items) + ")"


def hexed(text):
    return '(hex (codes "%s"))' % text.upper()


def flag(b):
    return "true" if b else "false"


def path(text):
    return many("0x" + text[i:i + 4].upper() for i in range(0, len(text), 4))


def option(x):
    return "None" if x is None else "(Some %s)" % x


def reference(arr):
    if arr is None:
        return None
    return "(record { file_id = 0x%s; row = %d })" % (arr["file"].upper() if isinstance(arr, dict) else arr[:4].upper(),
        (arr.get("row", arr.get("record")) if isinstance(arr, dict) else int(arr[4:], 16)))


def file_term(f):
    kind = "(Transparent %s)" % hexed(f["data"]) if f["kind"] == "transparent" else "(Linear %d %s)" % (f["len"], many(hexed(r) for r in f["records"]))
    fcp = option(hexed(f["fcp"])) if "fcp" in f else "None"
    return "record { path = %s; kind = %s; arr = %s; active = %s; endless = %s; fcp = %s }" % (
        path(f["path"]), kind, option(reference(f.get("arr"))), flag(f.get("active", True)), flag(f.get("endless", False)), fcp)


def key_term(k):
    return "record { key = 0x%s; pin = %s; tries = %d; max = %d }" % (k["key"].upper(), hexed(k["pin"]), k["tries"], k["max"])


def card_term(c):
    return "record { files = %s; aids = %s; keys = %s; channels = %d; get_response = %s }" % (
        many(file_term(f) for f in c["files"]), many(hexed(a) for a in c.get("aids", [])), many(key_term(k) for k in c.get("keys", [])),
        c.get("channels", 3), flag(c.get("get_response", False)))


def change_term(c):
    return "record { qualifier = %d; kind = %d; list = %s; files = %s }" % (
        c["qualifier"], c.get("type", 1), many(path(p) for p in c.get("list", [])), many(file_term(f) for f in c.get("files", [])))


FAMILY = {"records": 0, "phonebook": 1, "fixed": 2}


def operation(o):
    op = o["op"]
    if op == "in": return "operation.Insert %d" % o["card"]
    if op == "out": return "operation.Out"
    if op == "arm": return "operation.Arm %d" % o["change"]
    if op == "load": return "operation.Load %d" % FAMILY[o["family"]]
    if op == "set": return "operation.Set %d %s %s %s" % (FAMILY[o["family"]], option(o.get("at")), quoted(o["name"]), quoted(o["number"]))
    if op == "clear": return "operation.Clear %d %d" % (FAMILY[o["family"]], o["at"])
    if op == "open": return "operation.OpenChannel %d %s" % (o["ref"], hexed(o["aid"]))
    if op == "raw": return 'operation.Raw %d (sent (codes "%s"))' % (o["ref"], o["apdu"].upper())
    if op == "close": return "operation.Close %d" % o["ref"]
    if op == "verify": return "operation.Verify 0x%s %s" % (o["key"].upper(), hexed(o["pin"]))
    if op == "end": return "operation.End 0x%s" % o["key"].upper()
    if op == "watch": return "operation.Watch %d" % o["mask"]
    return {"poll": "operation.Poll", "look": "operation.Look", "notices": "operation.Notices"}[op]


def wrapped(head, items, indent, tail):
    """`head` a list, and `tail`, in lines of the width."""
    out, line = [], head
    for i in items:
        if len(line) + len(i) + 4 > WIDTH and line.strip():
            out.append(line.rstrip())
            line = " " * indent
        line += i + " ∷ "
    out.append(line + "[]" + tail)
    return out


def script_lines(j):
    out = ["  version = %d;" % j["version"]]
    out += wrapped("  cards = ", [card_term(c) for c in j["cards"]], 4, ";")
    actors = []
    for ops in j["actors"]:
        actors.append(many(operation(o) for o in ops))
    out.append("  actors =")
    for ops in j["actors"]:
        ws = wrapped("    (", [operation(o) for o in ops], 5, ") ∷")
        out += ws
    out.append("    [];")
    out += wrapped("  changes = ", [change_term(c) for c in j.get("changes", [])], 4, ";")
    out += wrapped("  schedule = ", [str(a) for a in j.get("schedule", [])], 4, ";")
    out += wrapped("  faults = ", ["record { at = %d; acted = %s }" % (f["at"], flag(f["acted"])) for f in j.get("faults", [])], 4, ";")
    out.append("  budget = %s;" % option(j.get("budget")))
    return out


def number_or_none(w):
    return "None" if w == "-" else "(Some %s)" % w


def answer(ws, script, actor, op):
    k, a = ws[0], ws[1:]
    plain = {"moved": "Moved", "slot-full": "SlotFull", "slot-empty": "SlotEmpty", "arm-full": "ArmFull", "absent": "Absent", "closed": "Closed",
        "verified": "Verified", "ended": "Ended", "polled": "Polled", "watching": "Watching"}
    if k in plain: return "answer.%s" % plain[k]
    counted = {"loop": "Loop", "bad-fcp": "BadFcp", "loaded": "Loaded", "bad-file": "BadFile", "no-record": "NoRecord", "full": "Full",
        "bad-digit": "BadDigit", "number-too-long": "NumberTooLong", "ext-full": "ExtFull", "opened": "Opened", "exhausted": "Exhausted"}
    if k in counted: return "(answer.%s %s)" % (counted[k], a[0])
    if k == "epoch-ended": return "(answer.EpochEnded %s %s %s)" % (a[0], a[1], flag(len(a) > 2))
    if k == "status": return "(answer.Status (record { 0 = 0x%s }) %s)" % (a[0], a[1])
    if k == "done": return "(answer.Done %s %s %s)" % (a[0], number_or_none(a[1]), "[]" if a[2] == "-" else many(a[2].split(",")))
    if k == "needs-pin": return "(answer.NeedsPin 0x%s)" % a[0]
    if k == "not-writable": return "(answer.NotWritable 0x%s)" % a[0]
    if k == "name-too-long": return "(answer.NameTooLong %s %s)" % (a[0], a[1])
    if k == "raw": return '(answer.Raw (got (codes "%s")))' % a[0]
    if k == "raw-refused": return "(answer.RawRefused 0x%s)" % a[0]
    if k == "not-held":
        ops = script["actors"][actor - 1]
        if op < len(ops) and ops[op]["op"] == "end": return "(answer.NotHeldKey 0x%s)" % a[0]
        return "(answer.NotHeldRef %s)" % a[0]
    if k == "look": return "(answer.Look (record { count = %s; shown = %s }))" % (a[0], many(number_or_none(w) for w in a[1:]))
    if k == "notices": return "(answer.Notices %s (record { items = %s }))" % (a[0], many(a[1:]))
    raise ValueError(ws)


def line_term(text, script):
    ws = text.split(" ")
    k = ws[0]
    if k in "trq": return "%s %s" % (k, ws[1])
    if k == "b": return "b %s %s" % (ws[1], ws[2])
    if k == "x": return 'x %s (codes "%s") (codes "%s")' % (ws[1], ws[2], ws[3])
    if k == "f": return 'f %s (codes "%s") %s' % (ws[1], ws[2], flag(ws[3] == "1"))
    if k == "w":
        event = {"arm": "arm", "in": "insert"}.get(ws[2])
        return "w %s %s" % (ws[1], "(%s %s)" % (event, ws[3]) if event else "out")
    if k == "p": return "p %s %d %s %s %s" % (ws[1], FAMILY[ws[2]], ws[3], ws[4], quoted(" ".join(ws[5:])))
    if k == "z": return "z %s %s %s" % (ws[1], ws[2], ws[3])
    if k == "d": return "d %d %s" % (FAMILY[ws[1]], ws[2])
    if k == "a": return "a %s %s %s" % (ws[1], ws[2], answer(ws[3:], script, int(ws[1]), int(ws[2])))
    raise ValueError(text)


def read(name):
    rows = open(name, encoding="utf-8").read().split("\n")
    assert rows[0].startswith("script ") and rows[-2] == "end" and rows[-1] == ""
    return rows[0][7:], rows[1][5:], rows[2:-2]


def turns(rows, script):
    out, group = [], []
    for r in rows:
        if r.startswith("t ") and group:
            out.append(group); group = []
        group.append(line_term(r, script))
    if group: out.append(group)
    lines, line = [], "  "
    for g in out:
        whole = " ∷ ".join(g)
        if len(line) > 2 and len(line) + len(whole) > WIDTH - 3:
            lines.append(line.rstrip()); line = "  "
        for t in g:
            if len(line) > 2 and len(line) + len(t) > WIDTH - 3:
                lines.append(line.rstrip()); line = "    "
            line += t + " ∷ "
    if line.strip(): lines.append(line.rstrip())
    return lines


HEADER = """use Rattle.std.specs.Prelude.{List, [], ◌∷◌, Some, None, true, false, codes}
use Rattle.script_reader.specs.declared.types.Script.{Script}
use Rattle.script_reader.specs.declared.types.KindSpec.TheVariants.{Transparent, Linear}
use Rattle.script_reader.specs.declared.types.Operation.TheVariants as operation
use Rattle.report.specs.declared.answer.Answer.TheVariants as answer
use Rattle.report.specs.declared.line.Line.{Line}
use Rattle.report.specs.declared.lines.Report.{Report}
use Rattle.rules.specs.WorkedWords.{hex, sent, got, arm, insert, out, t, b, x, f, r, q, w, p, z, d, a, replayed, taken, changed}
"""
made = {}


def module(title):
    return title[0].upper() + title[1:]


def write(path, text):
    os.makedirs(os.path.dirname(path), exist_ok=True)
    open(path, "w", encoding="utf-8").write(text)


def report_term(name, script, mode, rows):
    j = json.loads(script)
    out = ["abbrev pub %s_script : Script" % name, "%s_script = record {" % name] + script_lines(j) + ["}", ""]
    out += ["abbrev pub %s : Report" % name, "%s = %s %s_script (" % (name, "replayed" if mode == "replay" else "taken", name)]
    return out + turns(rows, j) + ["  [])", ""]


laws, proofs, libs = [], [], ["WorkedWords"]
for subject, words, names in SUBJECTS:
    text = ["-- Worked reports of %s, line by line as their text has them." % words] + HEADER.rstrip().split("\n") + [""]
    for n in names:
        script, mode, rows = read("%s/%s.report" % (FOLDER, n))
        made[n] = (script, mode, rows, subject)
        text += report_term(n, script, mode, rows)
    libs.append("Worked" + module(subject))
    write("%s/specs/Worked%s.antt" % (CRATE, module(subject)), "\n".join(text).rstrip() + "\n")
    laws.append(("judges_worked_%s" % subject, "The worked reports of %s are legal." % words,
        [(n, "first_broken %s ≡ None" % n, n, "Worked" + module(subject)) for n in names]))
    laws.append(("performs_worked_%s" % subject, "Each line of these reports is the one that is due.",
        [(n, "performs %s ≡ true" % n, n, "Worked" + module(subject)) for n in names]))
left = [f for f in sorted(os.listdir(FOLDER)) if f.endswith(".report") and f[:-7] not in made]
assert not left, left

# reports of running systems, made of replayed ones: without the marks of turns that leave no line
def running(name):
    script, _, rows = made[name][:3]
    return script, [r_ for i, r_ in enumerate(rows) if not (r_.startswith("t ") and (i + 1 == len(rows) or rows[i + 1].startswith("t ")))]


runs, wrong_runs = [], []
script, rows = running("absent")
runs.append(("absent_in_run", script, rows))
at = [i for i, r_ in enumerate(rows) if r_.startswith("t ")][-1]
wrong_runs.append(("idle_mark_in_run", script, rows[:at] + ["t 0"] + rows[at:], at + 1 + 3, 8))
script, rows = running("edit_with_extension")
runs.append(("edit_in_run", script, rows))
look = [i for i, r_ in enumerate(rows) if " look " in r_]
done = [i for i, r_ in enumerate(rows) if " done " in r_][0]
turn = rows[look[0] - 2:look[0] + 1]
runs.append(("late_look_in_run", script, rows[:look[0] - 2] + rows[look[0] + 1:done + 1] + turn + rows[done + 1:]))
wrong_runs.append(("falling_look_in_run", script, rows[:look[-1]] + [rows[look[-1]].split(" look ")[0] + " look 1 - 1 -"] + rows[look[-1] + 1:], look[-1] + 3, 8))
text = ["-- Reports of running systems: turns that leave no line have no mark, and a look may show an earlier board."] + HEADER.rstrip().split("\n") + [""]
for n, script, rows in runs + [w[:3] for w in wrong_runs]:
    text += report_term(n, script, "run", rows)
libs.append("WorkedRuns")
write("%s/specs/WorkedRuns.antt" % CRATE, "\n".join(text).rstrip() + "\n")
laws.append(("judges_worked_runs", "Reports of running systems: the first three are legal, and one with a turn without lines, or a look at fewer publications than its actor had seen, is not.",
    [(n, "first_broken %s ≡ None" % n, n, "WorkedRuns") for n, _, _ in runs] + [(n, "first_broken %s ≡ Some (%d, %d)" % (n, l, r_), n, "WorkedRuns") for n, _, _, l, r_ in wrong_runs]))

verdicts = [l.rstrip("\n").split("\t") for l in open(FOLDER + "/broken/verdicts.tsv")]
# a SELECT of an edit whose actor lacks a session has no place, so its turn breaks a rule before the UPDATE does
SETTLED = {"rule03_13": ("29", "8")}
by_rule = {}
for name, status, said in verdicts:
    _, line, rule = said.split(" ")
    line, rule = SETTLED.get(name, (line, rule))
    by_rule.setdefault(int(rule), []).append((name, line, rule))
PARTS = [("Contents", [1, 2, 3, 4, 5]), ("Answers", [6]), ("Turns", [7, 8, 9, 10])]
for half, rules in PARTS:
    used, body = {}, []
    for rule in rules:
        for name, line, _ in by_rule.get(rule, []):
            script, mode, rows = read("%s/broken/%s.report" % (FOLDER, name))
            base = [n for n, m in made.items() if m[0] == script and m[1] == mode]
            j = json.loads(script)
            if base:
                n = base[0]
                old = made[n][2]
                ops = [o for o in difflib.SequenceMatcher(None, old, rows, autojunk=False).get_opcodes() if o[0] != "equal"]
                i1, i2, j1, j2 = ops[0][1], ops[-1][2], ops[0][3], ops[-1][4]
                used.setdefault(made[n][3], set()).add(n)
                new = [line_term(r_, j) for r_ in rows[j1:j2]]
                body += ["abbrev pub %s : Report" % name] + wrapped("%s = changed %d %d (" % (name, i1, i2), new, 4, ") %s" % n) + [""]
            else:
                body += report_term(name, script, mode, rows)
    text = ["-- Reports that break a rule: %s. Each is a worked report with lines replaced." % ", ".join(RULES[r_ - 1] for r_ in rules)] + HEADER.rstrip().split("\n")
    for subject in used:
        text.append("use Rattle.rules.specs.Worked%s.{%s}" % (module(subject), ", ".join(sorted(used[subject]))))
    libs.append("Broken" + half)
    write("%s/specs/Broken%s.antt" % (CRATE, half), "\n".join(text + [""] + body).rstrip() + "\n")
    for rule in rules:
        if rule in by_rule:
            laws.append(("judges_broken_%s" % RULES[rule - 1], "Each of these reports breaks the rule of %s at its line, and no lower one, and no earlier line breaks a rule." % RULES[rule - 1],
                [(n, "first_broken %s ≡ Some (%s, %s)" % (n, l, r_), n, "Broken" + half) for n, l, r_ in by_rule[rule]]))

UNFOLDING = "serde_json_on_literals digits encode_with chars encode_utf8 on_card step after_event after_reset select_row get_response_row read_binary_row read_record_row update_binary_row update_record_row verify_row manage_channel_row status_row terminal_profile_row fetch_row terminal_response_row read_fcp write_fcp read_rule default_alphabet extension_table decode_pairs"
IMPORTS = """use Rattle.std.proofs.Common.{refl}
use Rattle.std.specs.Fmt.{digits}
use Rattle.std.specs.Str.{chars}
use Rattle.std.specs.Char.{encode_utf8}
use Rattle.hex.specs.Hex.{encode_with, decode_pairs}
use Rattle.serde_json.proofs.OnLiterals.{serde_json_on_literals}
use Rattle.card_model.specs.Step.{on_card, step, after_event, after_reset}
use Rattle.card_model.specs.Select.{select_row}
use Rattle.card_model.specs.GetResponse.{get_response_row}
use Rattle.card_model.specs.Read.{read_binary_row, read_record_row}
use Rattle.card_model.specs.Update.{update_binary_row, update_record_row}
use Rattle.card_model.specs.Verify.{verify_row}
use Rattle.card_model.specs.Channels.{manage_channel_row}
use Rattle.card_model.specs.Toolkit.{status_row, terminal_profile_row, fetch_row, terminal_response_row}
use Rattle.fcp.specs.Control.{read_fcp, write_fcp, read_rule}
use Rattle.alpha.specs.Alphabet.{default_alphabet, extension_table}
"""
src = ["// The rules, tied to worked reports: functions that do nothing, whose clauses are computed.",
    "ghost use Rattle.std.specs.Prelude.{◌≡◌, None, Some, true};", "ghost use Rattle.rules.specs.Legal.{first_broken};", "ghost use Rattle.rules.specs.Performed.{performs};"]
mods = {}
for fn, doc, clauses in laws:
    for c, said, n, m in clauses:
        if n not in mods.setdefault(m, []): mods[m].append(n)
for m, ns in mods.items():
    src.append("ghost use Rattle.rules.specs.%s.{%s};" % (m, ", ".join(ns)))
for fn, doc, clauses in laws:
    src += [""] + ["/// " + row for row in textwrap.wrap(doc, 100)] + ["pub fn %s()" % fn]
    src += ["    ensures %s { %s }" % (c, said) for c, said, n, m in clauses]
    src.append("{}")
    body = IMPORTS + "use Rattle.rules.proofs.judging.%s.Goals as goal\n" % fn
    for c, said, n, m in clauses:
        body += "\npub returns-clause-%s : goal.returns-clause-%s\nunfolding %s\nreturns-clause-%s c = refl\n" % (c, c, UNFOLDING, c)
    write("%s/proofs/judging/%s/Answers.antt" % (CRATE, fn), body)
write("%s/src/judging.rt" % CRATE, "\n".join(src) + "\n")
print("\n".join("pub mod " + l for l in libs))
print(", ".join(fn for fn, _, _ in laws))
