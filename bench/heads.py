#!/usr/bin/env python3
"""Heads beside the toolchain's own reader of requests, and what heads and bodies cost.

    bench/heads.py [SEED [COUNT]]
    bench/heads.py times PROGRAM         PROGRAM is a built crates/ask_leaves/out/ask_leaves

The first writes a small program into a temporary folder, beside copies of the crates that it stands on, and runs
it by `rt try`, which proves nothing. COUNT random requests, most of them well formed, are read by
`read_request` and `request_body`, and by the `Server` of the toolchain's crate `http1`. Heads of which both
say the same are counted; each other one is given the rule that explains it, and those without a rule are
printed. The second tells the times of a head of 20 fields, read by `httparse` alone, read and
written, and of chunked bodies, unit by unit: the least processor time of
several runs.
"""
import collections
import os
import random
import re
import resource
import shutil
import subprocess
import sys
import tempfile

HERE = os.path.dirname(os.path.dirname(os.path.abspath(__file__)))
CRATES = ["px_bytes", "seg_buffer", "http_heads", "http_frames"]
FIELDS = 20
RUNS = 7
AT_ONCE = 2500

PROGRAM = r"""//! Heads beside another reader.
#![tactic(auto)]

use http1::{BodySize, Event, Limits, ReadError, Server};
use http_frames::{Body, request_body};
use http_heads::read_request;
use httparse::spans::EMPTY_HEADER_SPAN;
use std::alloc::{AllocError, Global};
use std::io::{self, BufRead, BufReader, BufWriter, ErrorKind, Write};

fn main(rt: HostRuntime) -> io::Result<()> {
    let alloc = rt.alloc();
    let mut out = BufWriter::new(alloc, io::writer(&rt))?;
    for line in BufReader::new(alloc, rt.reader())?.lines(alloc) {
        let line = line?;
        let Ok(bytes) = hex::decode(alloc, &line) else {
            return Err(io::Error::from(ErrorKind::InvalidData));
        };
        let Ok(answer) = both(alloc, &bytes) else {
            return Err(io::Error::from(ErrorKind::OutOfMemory));
        };
        out.write_all(answer.as_bytes())?;
        out.write_all(b"\n")?;
    }
    out.flush()
}

fn both(alloc: Global, bytes: &[u8]) -> Result<String, AllocError> {
    let ours = ours(alloc, bytes)?;
    let theirs = theirs(alloc, bytes)?;
    if ours == theirs {
        return format!(in alloc; "alike");
    }
    format!(in alloc; "{ours};{theirs}")
}

fn ours(alloc: Global, bytes: &[u8]) -> Result<String, AllocError> {
    let Ok(head) = read_request(alloc, bytes) else {
        return format!(in alloc; "fault head");
    };
    let mut text = match request_body(&head) {
        Ok(Body::Length(size)) => format!(in alloc; "length {size}")?,
        Ok(Body::Chunked) => format!(in alloc; "chunked")?,
        Ok(Body::None | Body::ToEnd) => format!(in alloc; "length 0")?,
        Err(_) => return format!(in alloc; "fault framing"),
    };
    add(alloc, &mut text, head.method.as_bytes())?;
    add(alloc, &mut text, head.target.as_bytes())?;
    add(alloc, &mut text, &[head.version.minor()])?;
    for field in head.fields.as_slice() {
        add(alloc, &mut text, field.0.as_bytes())?;
        add(alloc, &mut text, field.1.as_bytes())?;
    }
    Ok(text)
}

fn theirs(alloc: Global, bytes: &[u8]) -> Result<String, AllocError> {
    let limits = Limits {
        max_head_len: 1_000_000,
        max_extensions_len: 1000,
        max_trailers_len: 1000,
    };
    let mut server = Server::new(limits);
    let mut headers = [EMPTY_HEADER_SPAN; 100];
    let (head, used) = match server.read(bytes, &mut headers) {
        Ok(read) => match read.event {
            Event::Head(head) => (head, read.consumed),
            _ => return format!(in alloc; "fault partial"),
        },
        Err(ReadError::Framing(f)) => return format!(in alloc; "fault {f:?}"),
        Err(e) => return format!(in alloc; "fault {e:?}"),
    };
    if used != bytes.len() {
        return format!(in alloc; "fault behind");
    }
    let mut text = match server.unread_size() {
        BodySize::Known(size) => format!(in alloc; "length {size}")?,
        BodySize::Unknown => format!(in alloc; "chunked")?,
        BodySize::Empty => format!(in alloc; "length 0")?,
    };
    add(alloc, &mut text, head.method.of(bytes))?;
    add(alloc, &mut text, head.path.of(bytes))?;
    add(alloc, &mut text, &[head.version])?;
    for span in &headers[..head.headers] {
        add(alloc, &mut text, span.name.of(bytes))?;
        add(alloc, &mut text, span.value.of(bytes))?;
    }
    Ok(text)
}

fn add(alloc: Global, text: &mut String, bytes: &[u8]) -> Result<(), AllocError> {
    text.push_str(" ")?;
    let word = hex::encode(alloc, bytes)?;
    text.push_str(&word)?;
    Ok(())
}
"""


def run(folder, questions):
    given = "\n".join(questions) + "\n"
    done = subprocess.run(["rt", "try"], cwd=folder, input=given.encode(), capture_output=True)
    lines = done.stdout.decode("latin-1").split("\n")[:-1]
    if len(lines) != len(questions):
        sys.exit(f"{len(lines)} answers to {len(questions)} questions:\n{done.stderr.decode()[-3000:]}")
    return lines


def place(top):
    """The program, in a repository of its own."""
    rows = [line for line in open(f"{HERE}/crates.txt") if line.split(":")[0] in CRATES]
    rows.append("heads_beside: px_bytes http_heads http_frames http1 httparse hex\n")
    for name in CRATES:
        shutil.copytree(f"{HERE}/crates/{name}", f"{top}/crates/{name}",
                        ignore=shutil.ignore_patterns("out"))
    os.makedirs(f"{top}/crates/heads_beside/src")
    with open(f"{top}/crates.txt", "w") as f:
        f.writelines(rows)
    with open(f"{top}/crates/heads_beside/src/main.rt", "w") as f:
        f.write(PROGRAM)
    return f"{top}/crates/heads_beside"


def head_of(dice):
    """A random request, most of its parts right."""
    rare = lambda share, odd, usual: dice.choice(odd) if dice.random() < share else dice.choice(usual)
    method = rare(0.02, ["g t", "", "G\x01", "CONNECT", "M-SEARCH", "*"], ["GET", "POST", "HEAD", "PUT"])
    target = rare(0.02, ["", "/a b", "/\x7f", "/\xc3\xa9", "/\xe9", "*"], ["/", "/a/b?c=1", "http://h/x"])
    version = rare(0.02, ["HTTP/1.2", "HTTP/2.0", "http/1.1", "HTTP/1.10"], ["HTTP/1.1"] * 4 + ["HTTP/1.0"])
    fields = []
    for _ in range(rare(0.02, [0, 20, 99, 100, 101], [1, 2, 3, 5, 8])):
        name = rare(0.006, ["a b", "", "a\x00", "x:y", "\xe9", "(a)"], ["x-a", "Accept", "Cookie", "VIA", "te"])
        value = rare(0.01, ["a\x00b", "\x7f", "a\rb", "\xe9", "\t v \t", "\x01"], ["", "1", "a, b", "x y", "q" * 40])
        fields.append((name, value))
    for _ in range(rare(0.1, [0, 2], [1])):
        fields.insert(dice.randrange(len(fields) + 1), ("Host", rare(0.05, ["", "a b"], ["h", "h:80"])))
    if dice.random() < 0.3:
        for _ in range(rare(0.3, [2, 3], [1])):
            size = rare(0.2, ["", "+5", "5, 5", "0x5", "1" * 18, "1" * 19, "05", "5.", "99999999999999999999"],
                        ["5"] * 5 + ["0", "6"])
            fields.append((dice.choice(["Content-Length", "content-length"]), size))
    if dice.random() < 0.25:
        for _ in range(rare(0.1, [2], [1])):
            coding = rare(0.3, ["gzip", "gzip, chunked", "chunked, chunked", "chunked;q=1", "", ", chunked",
                                "chunked,", "identity", "x y"], ["chunked", "Chunked"])
            fields.append(("Transfer-Encoding", coding))
    ends = lambda: "\n" if dice.random() < lone else "\r\n"
    lone = dice.choice([0, 0, 0, 0, 0, 0, 0, 0.1])
    text = rare(0.03, ["\r\n", "\n", "\r\n\r\n", "\r"], [""]) + f"{method} {target} {version}" + ends()
    for name, value in fields:
        text += name + rare(0.01, [" :", ": \t", ""], [":", ": "]) + value + rare(0.03, [" ", "\t"], [""]) + ends()
    text = list(text + ends())
    if dice.random() < 0.02:
        del text[dice.randrange(len(text))]
    if dice.random() < 0.02:
        text.insert(dice.randrange(len(text)), dice.choice(["\r", "\n", "\r\n", "\x00", " ", ":"]))
    return "".join(text).encode("latin-1")


def values(head, name):
    """The values of the fields of a name."""
    lines = re.split(rb"\r?\n", head)
    return [line.split(b":", 1)[1].strip(b" \t") for line in lines if line.lower().startswith(name + b":")]


def reason(head, ours, theirs):
    """The rule that explains two answers, or none."""
    lengths, codings = values(head, b"content-length"), values(head, b"transfer-encoding")
    if not ours.startswith("fault"):
        if theirs == "fault BareLineFeed":
            return "a line ends in LF alone: read here, refused there"
        if theirs == "fault Host":
            return "not one Host field: judged of the connection here, of the head there"
        if theirs == "fault ConnectWithContent":
            return "CONNECT with content: answered 501 here, refused there"
        return None
    if ours == "fault framing" and not theirs.startswith("fault"):
        if any(c.lower() != b"chunked" for c in codings) or len(codings) > 1:
            return "Transfer-Encoding that isn't one `chunked`: refused here, read there"
        if any(len(n) > 18 for n in lengths):
            return "Content-Length of more than 18 digits: refused here, read there"
    return None


def compare(folder, seed, count):
    dice = random.Random(seed)
    heads = [head_of(dice) for _ in range(count)]
    same, rules, left = collections.Counter(), collections.Counter(), []
    lines = []
    for at in range(0, count, AT_ONCE):
        lines += run(folder, [head.hex() for head in heads[at:at + AT_ONCE]])
    for head, line in zip(heads, lines):
        ours, theirs = line.split(";") if line != "alike" else (line, line)
        if ours == theirs:
            same["read alike"] += 1
        elif ours.startswith("fault") and theirs.startswith("fault"):
            same["refused by both, here for its " + ("framing" if "framing" in ours else "grammar")] += 1
        elif rule := reason(head, ours, theirs):
            rules[rule] += 1
        else:
            left.append((head, ours, theirs))
    for kind, many in list(same.items()) + rules.most_common():
        print(f"{many:6} {kind}")
    print(f"{len(left):6} without a rule")
    for head, ours, theirs in left[:20]:
        print(repr(head), ours, theirs, sep="\n    ")
    return not left


def times(program):
    """Times by the questions `cost` of ask_leaves: what so many calls take more than one."""
    head = b"GET /index.html?q=1 HTTP/1.1\r\nHost: www.example.com\r\n"
    head += b"".join(b"X-Field-%02d: some value of a field\r\n" % k for k in range(FIELDS - 1)) + b"\r\n"
    rows = [("httparse alone", "parse", head, FIELDS, 100000), ("a head read", "read", head, FIELDS, 100000),
            ("a head written", "write", head, len(head), 100000)]
    for size in (16, 1024):
        for kib in (64, 128, 256):
            body = (b"%x\r\n" % size + b"x" * size + b"\r\n") * (kib * 1024 // size) + b"0\r\n\r\n"
            rows.append((f"the units of {kib} KiB in chunks of {size} bytes", "units", body, len(body), 125 * size))
    found = {}
    for name, call, data, due, many in rows:
        found[name] = (least(program, call, data, due, many) - least(program, call, data, due, 1)) / (many - 1)
        print(f"{found[name]:10.2f} us  {name}")
    print(f"{found['a head read'] / found['httparse alone']:10.2f}     a head read to httparse alone")


def least(program, call, data, due, many):
    """The least processor time of the runs, in microseconds."""
    line = f"cost {many} {call} {data.hex()}\n".encode()
    best = None
    for _ in range(RUNS):
        start = resource.getrusage(resource.RUSAGE_CHILDREN).ru_utime
        out = subprocess.run([program], input=line, capture_output=True, check=True).stdout
        spent = 1e6 * (resource.getrusage(resource.RUSAGE_CHILDREN).ru_utime - start)
        if out != b"%d\n" % (due * many):
            sys.exit(f"{call}: {out!r} where {due * many} is due")
        best = spent if best is None else min(best, spent)
    return best


def main():
    if sys.argv[1:2] == ["times"]:
        times(sys.argv[2])
        return
    seed = int(sys.argv[1]) if len(sys.argv) > 1 else 1
    count = int(sys.argv[2]) if len(sys.argv) > 2 else 10000
    with tempfile.TemporaryDirectory() as top:
        well = compare(place(top), seed, count)
    sys.exit(0 if well else 1)


if __name__ == "__main__":
    main()
