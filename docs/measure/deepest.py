#!/usr/bin/env python3
"""Asks the built program the deepest texts that the limits allow, and prints the least stack, in KiB, under which each is
answered; a program has 8,192 KiB where nothing else was said.

    python3 docs/measure/deepest.py [--program FILE]

It asks the program that `rt run` or `rt ci` left in crates/sq_cli/out over examples/corpus.sq. Chains nest as deep as they are
long, everything else at most 64 levels. The status is 1 where a text isn't answered at all.
"""
import os, resource, subprocess, sys

TOP = os.path.join(os.path.dirname(os.path.abspath(__file__)), "..", "..")
PROGRAM = os.path.join(TOP, "crates", "sq_cli", "out", "sq_cli")
LEAST, MOST = 256, 65_536      # KiB; below, the words themselves may have no room

ONE, NONE = "total 1\nitem 2 score 20\n", "total 0\n"

# What it is, words, and what is written.
TEXTS = [
    ("one word", ["ask", "Ann", "kql", "debt"], ONE),
    ("2,560 operands of ONEAR", ["ask", "Ann", "kql", "a ONEAR " * 2559 + "a"], NONE),
    ("the same, lowered", ["lower", "a ONEAR " * 2559 + "a"], "onear(" * 2559 + 'string("a")' + ',string("a"),N=8)' * 2559 + "\n"),
    ("2,926 operands of NEAR", ["ask", "Ann", "kql", "a NEAR " * 2925 + "a"], NONE),
    ("2,048 operands of NEAR, all found", ["ask", "Ann", "kql", "debt NEAR " * 2047 + "debt"], ONE),
    ("1,205 operands of XRANK, all found", ["ask", "Ann", "kql", "debt XRANK(cb=1) " * 1204 + "debt"], "total 1\nitem 2 score 1224\n"),
    ("64 groups behind signs", ["ask", "Ann", "kql", "-(" * 64 + "debt" + ")" * 64], ONE),
    ("64 levels of `not`", ["ask", "Ann", "fql", "not(" * 64 + "debt" + ")" * 64], ONE),
    ("64 levels of `near`", ["ask", "Ann", "fql", "near(debt," * 64 + "debt" + ")" * 64], ONE),
    ("64 levels of `xrank`", ["ask", "Ann", "fql", "xrank(" * 64 + "debt" + ",debt,cb=1)" * 64], "total 1\nitem 2 score 84\n"),
    ("4,095 operands of `near`, all found", ["ask", "Ann", "fql", "near(" + "debt," * 4094 + "debt)"], ONE),
]


def is_answered(program, words, text, stack):
    """Whether a program with so many KiB of stack answers."""
    hard = resource.getrlimit(resource.RLIMIT_STACK)[1]
    folder = os.path.join(TOP, "examples")

    def limit():
        resource.setrlimit(resource.RLIMIT_CORE, (0, 0))
        resource.setrlimit(resource.RLIMIT_STACK, (stack * 1024, hard))

    run = subprocess.run([program, *words], cwd=folder, preexec_fn=limit, capture_output=True, timeout=600)
    return run.returncode == 0 and run.stdout == text.encode()


def least(program, words, text):
    """The least stack under which the text is answered, to 16 KiB. None where the greatest isn't enough."""
    low, high = LEAST, MOST
    if not is_answered(program, words, text, high):
        return None
    if is_answered(program, words, text, low):
        return low
    while high - low > 16:
        middle = (low + high) // 2
        if is_answered(program, words, text, middle):
            high = middle
        else:
            low = middle
    return high


def main():
    words = sys.argv[1:]
    program = words[1] if words[:1] == ["--program"] and len(words) == 2 else PROGRAM
    if not os.path.isfile(program):
        sys.exit(f"{program} isn't there: build it by `rt run` in crates/sq_cli")
    print("| Text | Bytes | Least stack, KiB |\n|---|---|---|")
    missing = False
    for name, asked, text in TEXTS:
        stack = least(os.path.realpath(program), asked, text)
        missing = missing or stack is None
        print(f"| {name} | {len(asked[-1]):,} | {'not answered' if stack is None else f'{stack:,}'} |", flush=True)
    sys.exit(1 if missing else 0)


main()
