"""What solve_by_hand.py and loop_by_hand.py share: floats by their bits, what the Rust prints for a script (`oracle expect`), and the parts of the stdout of crate by_hand."""
import pathlib
import struct
import subprocess
import sys

TOP = pathlib.Path(__file__).resolve().parent.parent
STDOUT = TOP / "crates" / "by_hand" / "stdout"
HEADS = ["inner solve", "loop", "psi", "d_psi"]
ORACLE = TOP / "oracle" / "target" / "release" / "oracle"


def word(x):
    return struct.pack(">d", x).hex()


def number(text):
    return struct.unpack(">d", bytes.fromhex(text))[0]


def words(xs):
    return " ".join(word(x) for x in xs)


def numbers(texts):
    return [number(x) for x in texts]


def expect(script):
    """What the Rust prints for each line of a script."""
    text = "".join(line + "\n" for line in script)
    run = subprocess.run([ORACLE, "expect"], input=text, capture_output=True, text=True, check=True)
    lines = run.stdout.splitlines()
    assert len(lines) == len(script)
    return lines


def play(start, answer):
    """The lines of a run that begins with a start line and takes its answers from a function, and the lent places after it."""
    script = [start]
    while (reply := answer(expect(script)[-1])) is not None:
        script.append(reply)
    *lines, lent = expect(script + ["show"])
    return lines, lent


def parts(text):
    """The lines of each part of the stdout, by its head."""
    found, lines = {}, None
    for line in text.splitlines():
        if line.startswith("# "):
            lines = found[line[2:]] = []
        else:
            lines.append(line)
    return found


def hold(made):
    """Writes the parts that are made, lines by their heads, into the stdout of crate by_hand; with --check fails where it has other lines."""
    stored = STDOUT.read_text() if STDOUT.exists() else ""
    found = {**parts(stored), **made}
    text = "".join(line + "\n" for head in HEADS if head in found for line in ["# " + head, *found[head]])
    if "--check" not in sys.argv[1:]:
        STDOUT.write_text(text)
    elif stored != text:
        sys.exit(f"{STDOUT.relative_to(TOP)} is not what tests/{pathlib.Path(sys.argv[0]).name} makes")
    for head, lines in made.items():
        print(f"by_hand, {head}: {len(lines)} lines of the Rust's run")
