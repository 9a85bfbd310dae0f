#!/usr/bin/env python3
"""Measures the built program beside peers, over a corpus text with the properties `title` and `body`, in one run:
seconds and memory of loading beside `wc -w`, and of each query below the median and the worst of ten requests over one
HTTP connection, beside SQLite's FTS5, and beside Xapian where its module for Python is installed.

    python3 docs/measure/queries.py CORPUS CALLER [CALLER ..]

It asks the program that `rt run` or `rt ci` left in crates/sq_cli/out, for each of these callers of the corpus. The
words are those of a made corpus: two frequent ones, a rare one, a beginning that most items have.
"""
import os, socket, sqlite3, statistics, subprocess, sys, tempfile, time

PROGRAM = os.path.join(os.path.dirname(os.path.abspath(__file__)), "..", "..", "crates", "sq_cli", "out", "sq_cli")
TIMES = 10
OR = 'or("ba re",gor)'
QUERIES = [
    # what, language, text, the same for FTS5, the same for Xapian
    ("a rare word", "KQL", "gor", "gor", "gor"),
    ("a frequent word", "KQL", "ba", "ba", "ba"),
    ("two words", "KQL", "ba re", "ba re", "ba AND re"),
    ("a rare and a frequent word", "KQL", "gor ba", "gor ba", "gor AND ba"),
    ("a phrase", "KQL", '"ba re"', '"ba re"', '"ba re"'),
    ("a near of two words", "KQL", "ba NEAR(n=3) re", "NEAR(ba re, 3)", "ba NEAR/3 re"),
    ("a beginning", "KQL", "ka*", "ka*", "ka*"),
    ("a range", "KQL", "size>=500000 size<=500500", None, None),
    ("nothing found", "KQL", "nothingatall", "nothingatall", "nothingatall"),
    ("a near of four ors", "FQL", "near(%s,N=3)" % ",".join([OR] * 4), None, None),
    ("a near of eight ors", "FQL", "near(%s,N=3)" % ",".join([OR] * 8), None, None),
]


def packet(language, text, count):
    kind = ' type="FQL"' if language == "FQL" else ""
    text = text.replace("&", "&amp;").replace("<", "&lt;").replace(">", "&gt;")
    return (
        '<?xml version="1.0" encoding="utf-8"?><QueryPacket xmlns="urn:Microsoft.Search.Query"><Query>'
        f"<Context><QueryText{kind}>{text}</QueryText></Context>"
        f"<Range><StartAt>1</StartAt><Count>{count}</Count></Range></Query></QueryPacket>"
    ).encode()


def timed(call):
    times, given = [], None
    for _ in range(TIMES):
        start = time.perf_counter()
        given = call()
        times.append((time.perf_counter() - start) * 1000)
    return f"{statistics.median(times):9.2f} {max(times):9.2f}", given


def memory(pid, name):
    with open(f"/proc/{pid}/status") as file:
        return next(int(line.split()[1]) for line in file if line.startswith(name + ":")) // 1024


def total(answer):
    begin, end = b"<TotalAvailable>", b"</TotalAvailable>"
    if begin in answer:
        return int(answer.split(begin)[1].split(end)[0])
    return 0 if b"ERROR_NO_RESULTS_FOUND" in answer else answer[:200].decode(errors="replace")


def ask(connection, caller, body):
    """The response to a packet. The request goes out by one write, so that little but the server's own time is timed."""
    head = f"POST /query HTTP/1.1\r\nHost: localhost\r\nX-Search-Caller: {caller}\r\nContent-Length: {len(body)}\r\n\r\n"
    connection.sendall(head.encode() + body)
    given = b""
    while b"\r\n\r\n" not in given:
        given += connection.recv(65536)
    head, _, rest = given.partition(b"\r\n\r\n")
    length = int(next(line.split(b":")[1] for line in head.split(b"\r\n") if line.startswith(b"Content-Length")))
    while len(rest) < length:
        rest += connection.recv(65536)
    return rest


def serve(path, callers):
    with tempfile.TemporaryDirectory() as folder:
        os.symlink(os.path.abspath(path), os.path.join(folder, "corpus.sq"))
        start = time.perf_counter()
        server = subprocess.Popen([os.path.realpath(PROGRAM), "serve", "1000"], cwd=folder, stderr=subprocess.PIPE)
        print(server.stderr.readline().decode().strip(), f"after {time.perf_counter() - start:.2f} s")
        server.stderr.readline()
        print(f"resident {memory(server.pid, 'VmRSS')} MB, at the peak {memory(server.pid, 'VmHWM')} MB,", f"the text {os.path.getsize(path) // 2**20} MB")
        print(f"{'':28} {'caller':>8} {'hits':>8} {'median ms':>9} {'worst ms':>9}")
        for what, language, text, _, _ in QUERIES:
            for caller in callers:
                connection = socket.create_connection(("127.0.0.1", 8971))
                body = packet(language, text, 10)
                times, answer = timed(lambda: ask(connection, caller, body))
                print(f"{what:28} {caller:>8} {total(answer):>8} {times}")
                connection.close()
        server.kill()
        server.wait()


def items(path):
    number, title, body = None, [], []
    with open(path, encoding="utf-8", newline="\n") as file:
        for line in file:
            fields = line[:-1].split("\t")
            if fields[0] == "item":
                if number is not None:
                    yield number, " ".join(title), " ".join(body)
                number, title, body = int(fields[1]), [], []
            elif fields[0] == "value" and fields[1] in ("title", "body"):
                (title if fields[1] == "title" else body).append(fields[2])
    if number is not None:
        yield number, " ".join(title), " ".join(body)


def fts5(path):
    start = time.perf_counter()
    base = sqlite3.connect(":memory:")
    base.execute("create virtual table texts using fts5(title, body, tokenize='unicode61')")
    base.executemany("insert into texts(rowid, title, body) values (?, ?, ?)", items(path))
    print(f"FTS5 has its index after {time.perf_counter() - start:.2f} s, reading the text in Python included")
    for what, _, _, text, _ in QUERIES:
        if text:
            times, count = timed(lambda: base.execute("select count(*) from texts where texts match ?", (text,)).fetchone()[0])
            print(f"{what:28} {'FTS5':>8} {count:>8} {times}")


def xapian(path):
    try:
        import xapian as peer
    except ImportError:
        print("no module of Xapian for this Python")
        return
    with tempfile.TemporaryDirectory() as folder:
        start = time.perf_counter()
        base = peer.WritableDatabase(folder, peer.DB_CREATE_OR_OVERWRITE)
        words = peer.TermGenerator()
        for _, title, body in items(path):
            document = peer.Document()
            words.set_document(document)
            words.index_text(title)
            words.increase_termpos(100)
            words.index_text(body)
            base.add_document(document)
        base.commit()
        print(f"Xapian has its index after {time.perf_counter() - start:.2f} s, reading the text in Python included")
        parser = peer.QueryParser()
        parser.set_database(base)
        flags = peer.QueryParser.FLAG_PHRASE | peer.QueryParser.FLAG_BOOLEAN | peer.QueryParser.FLAG_WILDCARD

        def find(text):
            enquire = peer.Enquire(base)
            enquire.set_query(parser.parse_query(text, flags))
            return enquire.get_mset(0, 10, 10**9).get_matches_estimated()

        for what, _, _, _, text in QUERIES:
            if text:
                times, count = timed(lambda: find(text))
                print(f"{what:28} {'Xapian':>8} {count:>8} {times}")


def main():
    if len(sys.argv) < 3:
        sys.exit(__doc__)
    path = sys.argv[1]
    start = time.perf_counter()
    subprocess.run(["wc", "-w", path], stdout=subprocess.DEVNULL, check=True)
    print(f"wc -w takes {time.perf_counter() - start:.2f} s")
    serve(path, sys.argv[2:])
    fts5(path)
    xapian(path)


main()
