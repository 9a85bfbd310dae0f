#!/usr/bin/env python3
"""Runs the built program with the Nth growth of its memory refused, for N from 1 until a run meets no refusal, once for each
row of a table, and prints how many growths the row has, how many of these runs gave the row's answer, how many ended with status
7 and wrote nothing, and how many did anything else, of which there must be none (else the status is 1).

    python3 docs/measure/growths.py [--program FILE] [WORD]

It asks the program that `rt run` or `rt ci` left in crates/sq_cli/out over examples/corpus.sq; with WORD, only the rows whose
name has it. A growth is a call of `malloc` or `realloc`: a few lines of C, compiled by `cc` and put before the C library by
LD_PRELOAD, count them and refuse one. The last row serves a connection, so nothing else may use the port 8971 meanwhile.
There an answer may also be some first replies, and behind them the text of 503.
"""
import ctypes, os, re, socket, subprocess, sys, tempfile, time

TOP = os.path.join(os.path.dirname(os.path.abspath(__file__)), "..", "..")
PROGRAM = os.path.join(TOP, "crates", "sq_cli", "out", "sq_cli")
EXAMPLES = os.path.join(TOP, "examples")
MOST = 100_000      # growths of a row, so that the script ends

REFUSES = r"""
#include <errno.h>
#include <fcntl.h>
#include <stdlib.h>
#include <sys/mman.h>

void *__libc_malloc(size_t);
void *__libc_realloc(void *, size_t);

static volatile unsigned long *count, refused;

__attribute__((constructor)) static void begin(void) {
    int file = open(getenv("GROWTHS"), O_RDWR);
    void *shared = mmap(0, sizeof *count, PROT_READ | PROT_WRITE, MAP_SHARED, file, 0);
    refused = strtoul(getenv("REFUSED"), 0, 10);
    if (file >= 0 && shared != MAP_FAILED) count = shared;
}

static int refuses(void) {
    if (!count || ++*count != refused) return 0;
    errno = ENOMEM;
    return 1;
}

void *malloc(size_t size) { return refuses() ? 0 : __libc_malloc(size); }
void *realloc(void *old, size_t size) { return refuses() ? 0 : __libc_realloc(old, size); }
"""

LONG = '(merger OR takeover) author:"ann smith" filetype:docx size>=5 -draft'
BOTH = "total 2\nitem 2 score 20\nitem 3 score 20\n"

# Name, words, status and text; no text where a run without a refusal says what it is.
ROWS = [
    ("check", ["check"], 0, "ok 7 properties 2 callers 3 items\n"),
    ("ask, KQL: a word", ["ask", "Ann", "kql", "debt"], 0, "total 1\nitem 2 score 20\n"),
    ("ask, KQL: a near of ors", ["ask", "Bob", "kql", "(merger OR acquisition) NEAR(n=2) (bank OR debt)"], 0, BOTH),
    ("ask, KQL: restrictions", ["ask", "Ann", "kql", LONG], 0, "total 1\nitem 1 score 10\n"),
    ("ask, KQL: refused", ["ask", "Ann", "kql", "debt AND"], 1, "fault 104 at 8\n"),
    ("ask, FQL: a near", ["ask", "Bob", "fql", 'near(or("old bank",merger),new,N=2)'], 0, "total 1\nitem 1 score 10\n"),
    ("ask, FQL: a boost", ["ask", "Bob", "fql", "xrank(debt,before,acquisition,cb=5)"], 0, BOTH.replace("20", "25")),
    ("lower", ["lower", "title:debt title:board"], 0, 'or(title:string("debt"),title:string("board"))\n'),
    ("packet", ["packet", "Bob"], 0, None),
    ("rehearse", ["rehearse", "12"], 0, None),
    ("serve", ["serve", "1"], 0, None),
]
NO_MEMORY = b"HTTP/1.1 503 Service Unavailable\r\nContent-Length: 0\r\nConnection: close\r\n\r\n"


def requests():
    """Two requests, the first of which is refused by its target."""
    with open(os.path.join(EXAMPLES, "packet.xml"), "rb") as file:
        body = file.read()
    head = f"POST /query HTTP/1.1\r\nX-Search-Caller: Bob\r\nContent-Length: {len(body)}\r\nConnection: close\r\n\r\n"
    return b"GET /x HTTP/1.1\r\n\r\n" + head.encode() + body


def connection(run):
    """A connection to the server. None where it ended before it listened."""
    while run.poll() is None:
        try:
            return socket.create_connection(("127.0.0.1", 8971), timeout=60)
        except ConnectionRefusedError:
            time.sleep(0.005)
    return None


def talk(run):
    """What the server sends on one connection."""
    wire, sent = connection(run), b""
    if wire is None:
        return sent
    with wire:
        try:
            wire.sendall(requests())
            wire.shutdown(socket.SHUT_WR)
            while piece := wire.recv(65536):
                sent += piece
        except ConnectionError:
            pass        # closed by the server; what came until then counts
    return sent


def run_once(program, shim, words, refused, counter):
    """The status, what was written or sent, and how many growths were asked for."""
    with open(counter, "wb") as file:
        file.write(bytes(ctypes.sizeof(ctypes.c_ulong)))
    how = {**os.environ, "LD_PRELOAD": shim, "REFUSED": str(refused), "GROWTHS": counter}
    with open(os.path.join(EXAMPLES, "packet.xml"), "rb") as packet:
        pipes = {"stdin": packet, "stdout": subprocess.PIPE, "stderr": subprocess.DEVNULL}
        with subprocess.Popen([program, *words], cwd=EXAMPLES, env=how, **pipes) as run:
            sent = talk(run) if words[0] == "serve" else b""
            try:
                written, _ = run.communicate(timeout=60)
            except subprocess.TimeoutExpired:
                run.kill()      # counts as anything else, by its status
                written, _ = run.communicate()
    with open(counter, "rb") as file:
        return run.returncode, sent + written, int.from_bytes(file.read(), sys.byteorder)


def is_cut_short(whole, given):
    """Whether these are some first replies of the whole, and then that of want of memory."""
    begins = [match.start() for match in re.finditer(b"HTTP/1.1 ", whole)]
    return any(given == whole[:begin] + NO_MEMORY for begin in begins)


def sweep(program, shim, counter, name, words, status, text):
    """Runs a row until no growth is refused, and counts the runs by what they gave."""
    whole = run_once(program, shim, words, 0, counter)[:2]
    wanted = (status, whole[1] if text is None else text.encode())
    if whole != wanted:
        sys.exit(f"{name}: without a refusal status {whole[0]} and {whole[1]!r}")
    answers = refusals = others = 0
    for refused in range(1, MOST):
        *given, growths = run_once(program, shim, words, refused, counter)
        if growths < refused:
            return refused - 1, answers, refusals, others
        if tuple(given) == wanted or words[0] == "serve" and given[0] == 0 and is_cut_short(whole[1], given[1]):
            answers += 1
        elif given == [7, b""]:
            refusals += 1
        else:
            others += 1
            print(f"{name}, growth {refused}: status {given[0]}, {given[1][:200]!r}", file=sys.stderr)
    sys.exit(f"{name}: more than {MOST} growths")


def main():
    words = sys.argv[1:]
    program = PROGRAM
    if words[:1] == ["--program"] and len(words) > 1:
        program, words = words[1], words[2:]
    if len(words) > 1 or words[:1] == ["--help"] or not os.path.isfile(program):
        sys.exit(__doc__ if os.path.isfile(program) else f"{program} isn't there: build it by `rt run` in crates/sq_cli")
    chosen = [row for row in ROWS if words == [] or words[0] in row[0]]
    wrong = 0
    with tempfile.TemporaryDirectory() as folder:
        source, shim, counter = (os.path.join(folder, name) for name in ("refuses.c", "refuses.so", "growths"))
        with open(source, "w", encoding="utf-8") as file:
            file.write(REFUSES)
        subprocess.run([os.environ.get("CC", "cc"), "-O1", "-fPIC", "-fno-builtin", "-shared", "-o", shim, source], check=True)
        print("| Row | Growths | Its answer | Status 7, nothing written | Anything else |\n|---|---|---|---|---|")
        for row in chosen:
            counts = sweep(os.path.realpath(program), shim, counter, *row)
            wrong += counts[3]
            print(f"| {row[0]} | " + " | ".join(map(str, counts)) + " |", flush=True)
    sys.exit(1 if wrong else 0)


main()
