#!/usr/bin/env python3
"""corners.py [--check]: writes the specs of crates corners, the runs of oracle/corners.txt as theorems on the definitions.

The questions, points, ends and lent places are what `oracle expect` prints, which runs the Rust files unchanged. Left out are calls that
lend other places than the start's (`lend`), lines of ready-made sets, which are of no run, and runs with lines of another form, of more than 12
places or of more than 80 lines.
oracle/build.sh comes first. --check writes nothing and fails where a stored file differs."""
import re
import sys

from by_hand import TOP, expect, number, word

STARTS = ("inner", "loop", "psi", "d_psi")
SETS = ("sets", "box", "ball", "onto", "show_onto")
MOST_PLACES, MOST_LINES = 12, 80


def bits(text):
    """A float of corners.txt as 16 hexadecimal digits."""
    if re.fullmatch(r"[0-9a-f]{16}", text):
        return text
    return "7ff8000000000000" if text == "nan" else word(float(text))


def plain(line):
    """A line of corners.txt in the form of the transcript."""
    out = []
    for token in line.split("#")[0].split():
        token, _, times = token.partition("*")
        is_float = re.fullmatch(r"-?\d+\.\d*(e-?\d+)?|nan|-?inf|[0-9a-f]{16}", token)
        out += [bits(token) if is_float else token] * (int(times) if times else 1)
    return " ".join(out)


def runs():
    """The heading of each run with its lines, a start and its answers."""
    heading, found = "", []
    for line in (TOP / "oracle" / "corners.txt").read_text().splitlines():
        if line.startswith("# ----"):
            heading = line[7:]
        elif line and not line.startswith("#"):
            text = plain(line) if not line.startswith("! ") else line
            if text.split(" ")[0] in STARTS:
                found.append((heading, [text]))
            elif found and text.removeprefix("! ").split(" ")[0] not in ("show", *SETS):
                found[-1][1].append(text)
    return found


def lent_right(lines):
    """A run without the calls that lend other places than the start's, which the definitions say elsewhere (Refusals: lentAt)."""
    kind, *rest = lines[0].split(" ")
    at = {"inner": 5, "loop": 15, "psi": 4, "d_psi": 4}[kind]
    us = len(rest) - at if kind == "inner" else int(rest[at - 1])
    lengths = {"inner": (us, 0), "d_psi": (int(rest[0]), 0), "psi": None}.get(kind, (us, len(rest) - at - us))
    kept, right = [], True
    for line in lines:
        if line.startswith("lend "):
            right = lengths is None or tuple(int(x) for x in line.split(" ")[1:]) == lengths
        elif right:
            kept.append(line)
    return kept


def fits(lines):
    kinds = {line.split(" ")[0] for line in lines}
    floats = max(len(re.findall(r"\b[0-9a-f]{16}\b", line)) for line in lines)
    return kinds <= {*STARTS, "number", "vector", "yes", "no", "failure"} and len(lines) <= MOST_LINES and floats <= MOST_PLACES + 7


def real(text):
    """A float in the words of model's Script."""
    x = number(text)
    if x != x:
        return "nan"
    if x in (float("inf"), float("-inf")):
        return "inf true" if x < 0 else "inf false"
    if text[0] in "89abcdef":
        return f"neg ({real(word(-x))})"
    if x == 0.0:
        return "null"
    top, bottom = x.as_integer_ratio()
    if bottom > 1:
        return f"{top} /2^ {bottom.bit_length() - 1}"
    twos = (top & -top).bit_length() - 1
    return f"{top >> twos} ·2^ {twos}" if twos else f"int {top}"


def atom(text):
    written = real(text)
    return f"({written})" if " " in written else written


def vector(texts):
    if len(texts) == 1:
        return f"(only {atom(texts[0])})"
    return "(" + " ∷ ".join([real(x) for x in texts] + ["[]"]) + ")" if texts else "[]"


def answer(line):
    kind, *rest = line.split(" ")
    return {
        "number": lambda: f"number {atom(rest[0])}",
        "vector": lambda: f"vector {vector(rest)}",
        "yes": lambda: "answer_yes",
        "no": lambda: "answer_no",
        "failure": lambda: f"failure {rest[0]}",
    }[kind]()


def split(rest, at):
    return rest[: rest.index(at)], rest[rest.index(at) + 1 :]


def inner_question(kind, rest):
    if kind == "direction":
        residual, u = split(rest[1:], "u")
        return f"direction {'true' if rest[0] == '1' else 'false'} {vector(residual)} {vector(u)}"
    return "time" if kind == "time" else f"{kind} {vector(rest)}"


def psi_question(kind, rest):
    if kind in ("jf1t", "jf2t"):
        u, d = split(rest, "d")
        return f"{kind} {vector(u)} {vector(d)}"
    return f"{kind} {vector(rest)}"


class Loop:
    """The questions of a loop; those of an inner solve carry the xi of its first COST, which the transcript does not repeat."""

    def __init__(self):
        self.xi, self.before = "[]", ""

    def question(self, kind, rest, last):
        former, self.before = self.before, kind
        if kind in ("cost", "gradient"):
            u, xi = split(rest, "xi")
            if last or (xi and number(xi[0]) == 0.0):
                return f"Asks.LoopQuestion.cost {vector(u)} {vector(xi)}"
            self.xi = vector(xi)
            return f"Asks.inner {self.xi} (Asks.Question.{kind} {vector(u)})"
        if kind in ("project", "direction") or (kind == "time" and former == "project"):
            asked = inner_question(kind, rest)
            return f"Asks.inner {self.xi} " + (f"(Asks.Question.{asked})" if " " in asked else f"Asks.Question.{asked}")
        if kind == "time":
            return "Asks.LoopQuestion.time"
        return f"Asks.LoopQuestion.{kind} {vector(rest)}"


STATUS = {"Converged": "converged", "NotConvergedIterations": "not_converged_iterations", "NotConvergedOutOfTime": "not_converged_out_of_time"}


def handed(kind, rest, u, xi):
    if kind == "psi":
        return atom(rest[0])
    if kind == "d_psi":
        return vector(u)
    if kind == "inner":
        return f"(record {{ plan = {vector(u)}; status = {STATUS[rest[0]]}; iterations = {rest[1]}; norm = {real(rest[2])}; cost = {real(rest[3])} }})"
    norm, cost, c, delta, f2 = (real(x) for x in rest[3:])
    return (
        f"(record {{ plan = {vector(u)}; multipliers = {vector(xi[1:])}; penalty = {c}; status = {STATUS[rest[0]]}; outer = {rest[1]}; "
        f"inner = {rest[2]}; norm = {norm}; delta_y = {delta}; f2 = {f2}; cost = {cost} }})"
    )


def said(kind, lines, lent):
    """The lines of a run in the words of model's Play and Script."""
    u, xi = split(lent.split(" ")[1:], "xi")
    loop, out, over = Loop(), [], False
    for i, line in enumerate(lines):
        word1, *rest = line.split(" ")
        last = kind == "loop" and i + 1 < len(lines) and lines[i + 1].startswith("ended")
        if word1 == "ended":
            out.append(f"ended (handed {handed(kind, rest, u, xi)})")
        elif word1 == "refused" and rest[0] == "9":
            out.append(f"ended (failed {rest[1]})")
        elif word1 == "refused":
            final = int(rest[0]) not in (6, 7, 8)
            out.append(f"ended (refused {rest[0]})" if final else f"turned {rest[0]}")
        elif kind == "inner":
            out.append(f"asked (Asks.Question.{inner_question(word1, rest)})" if word1 != "time" else "asked Asks.Question.time")
        elif kind == "loop":
            asked = loop.question(word1, rest, last)
            out.append(f"asked ({asked})" if " " in asked else f"asked {asked}")
        else:
            out.append(f"asked (Asks.PsiQuestion.{psi_question(word1, rest)})")
    return out


def boolean(text):
    return "true" if text == "1" else "false"


def start(line):
    kind, *rest = line.split(" ")
    if kind == "inner":
        n, m, limited, tolerance, akkt, *u = rest
        akkt = "none" if akkt == "-" else f"some {atom(akkt)}"
        settings = f"record {{ n = {n}; limit = {m}; limited = {boolean(limited)}; tolerance = {real(tolerance)}; akkt = {akkt} }}"
        return f"start_inner binary64 ({settings}) {vector(u)}"
    if kind == "loop":
        n, n1, n2, y, m, k, limited, *rest = rest
        names = ["tolerance", "epsilon", "delta", "akkt", "penalty_factor", "epsilon_factor", "coefficient"]
        reals = "; ".join(f"{name} = {real(x)}" for name, x in zip(names, rest))
        u, xi = rest[8 : 8 + int(rest[7])], rest[8 + int(rest[7]) :]
        settings = f"record {{ n = {n}; n1 = {n1}; n2 = {n2}; set_y = {boolean(y)}; limit = {m}; outer = {k}; limited = {boolean(limited)}; {reals} }}"
        return f"start_loop binary64 ({settings}) {vector(u)} {vector(xi)}"
    n, n1, n2, us, *rest = rest
    u, xi = rest[: int(us)], rest[int(us) :]
    return f"{'start_psi' if kind == 'psi' else 'start_d_psi'} binary64 (record {{ n = {n}; n1 = {n1}; n2 = {n2} }}) {vector(u)} {vector(xi)}"


def slug(title):
    """A theorem's name from a heading: its words up to the first comma or semicolon."""
    words = re.findall(r"[A-Za-z0-9]+", re.split(r"[,;]", title)[0].replace("|", ""))
    words = [re.sub(r"([a-z])([A-Z])", r"\1_\2", word.replace("NaN", "nan")).lower() for word in words]
    return "_".join(["at"] * words[0].isdigit() + words)


def theorem(name, lines):
    kind = lines[0].split(" ")[0]
    *printed, lent = expect(lines + ["show"])
    written = said(kind, printed, lent)
    entries = [f"{w} ▷ {answer(a)}" for w, a in zip(written, lines[1:])] + [f"says ({written[-1]})"]
    body = "(" + "\n    ∷ ".join(entries + ["[])"])
    unfolds = {"inner": "all_inner", "loop": "all_loop"}.get(kind, "all_psi")
    return f"pub {name} :\n    Shows ({start(lines[0])})\n    {body}\nunfolding {unfolds} Shows spoken\n{name} = refl\n"


HEAD = """-- Corners of document 01, whole, as the Rust plays them (tests/corners.py wrote this file): {what}. Assumes nothing.
use Rattle.std.specs.Prelude.{{refl, true, false, [], ◌∷◌}}
use Rattle.std.proofs.Math.Option.{{none, some}}
use Rattle.std.specs.Float.{{nan, inf, binary64}}
use Rattle.std.specs.Float.Ieee.{{neg}}
use Rattle.ieee.specs.Numbers.{{null}}
use Rattle.model.specs.Process as Asks
use Rattle.model.specs.Process.{{handed, refused, failed, converged, not_converged_iterations, not_converged_out_of_time}}
use Rattle.model.specs.Refusals.{{start_inner, start_loop, start_psi, start_d_psi}}
use Rattle.model.specs.Play.{{asked, ended, turned}}
use Rattle.model.specs.Script.{{int, ◌·2^◌, ◌/2^◌, only, number, vector, answer_yes, answer_no, failure, says, ◌▷◌, all_inner, all_loop, all_psi}}
use Rattle.corners.specs.Shown.{{Shows, spoken}}
"""


def head(what, text):
    """The file's first lines, which bring in what its runs name."""
    code = "\n".join(line for line in text.splitlines() if not line.startswith("--"))
    words = set(re.findall(r"[^\s(){}.;,]+", code)) | {"[]"}
    named = lambda item: all(part in words for part in item.split("◌") if part)
    out = []
    for line in HEAD.format(what=what).splitlines():
        path, _, items = line.partition("{")
        if items:
            items = [item for item in items.rstrip("}").split(", ") if named(item)]
            line = f"{path}{{{', '.join(items)}}}" if items else None
        out += [line] if line else []
    return "\n".join(out) + "\n"


FILES = {
    "inner": ("corners", "InnerCorners", "inner solves"),
    "loop": ("corners", "LoopCorners", "the loop"),
    "psi": ("corners", "PsiCorners", "psi"),
    "d_psi": ("corners", "DPsiCorners", "d_psi"),
}


def main():
    texts, heading, places, count = {k: "" for k in STARTS}, {}, {}, 0
    for title, lines in runs():
        kind, lines = lines[0].split(" ")[0], lent_right(lines)
        if not fits(lines):
            continue
        count += 1
        if heading.get(kind) != title:
            texts[kind] += f"\n-- ---- {title}\n"
            heading[kind] = title
        places[title] = places.get(title, 0) + 1
        texts[kind] += "\n" + theorem(f"{slug(title)}_{places[title]}", lines)
    for kind, (crate, name, what) in FILES.items():
        path, text = TOP / "crates" / crate / "specs" / f"{name}.antt", head(what, texts[kind]) + texts[kind]
        if "--check" not in sys.argv[1:]:
            path.write_text(text)
        elif path.read_text() != text:
            sys.exit(f"crates/{crate}/specs/{name}.antt is not what tests/corners.py makes")
    print(f"corners: {count} runs of the Rust")


main()
