#!/usr/bin/env python3
"""Random chunked bodies beside the procedure of RFC 9112, 7.1.3, whole and cut into fragments.

    bench/chunks.py PROGRAM [SEED [COUNT]]      PROGRAM is a built crates/ask_leaves/out/ask_leaves

COUNT bodies with extensions and trailers are decoded by the procedure of the RFC and by `units`: the same
content and the same number of bytes. Then bodies of which most have a fault are asked whole and in random
fragments: the same answer.
"""
import random
import subprocess
import sys


def line(stream):
    """The bytes up to the next CRLF, and what stands behind it."""
    at = stream.index(b"\r\n")
    return stream[:at], stream[at + 2:]


def decode(stream):
    """The content, and how many bytes are left, by RFC 9112, 7.1.3."""
    content = b""
    text, rest = line(stream)
    size = int(text.split(b";")[0], 16)
    while size > 0:
        content += rest[:size]
        text, rest = line(rest[size:])
        assert text == b""
        text, rest = line(rest)
        size = int(text.split(b";")[0], 16)
    trailer, rest = line(rest)
    while trailer:
        trailer, rest = line(rest)
    return content, len(rest)


def body(dice):
    text = b""
    extension = lambda: dice.choice([b"", b"", b";a=1", b";", b';q="x y"'])
    for _ in range(dice.choice([0, 1, 1, 2, 3, 5])):
        data = bytes(dice.choice(b"abc\r\n0;") for _ in range(dice.choice([1, 2, 9, 10, 15, 16, 40])))
        size = dice.choice([b"%x", b"%X", b"0%x"]) % len(data)
        text += size + extension() + b"\r\n" + data + b"\r\n"
    text += dice.choice([b"0", b"00"]) + extension() + b"\r\n"
    for _ in range(dice.choice([0, 0, 0, 1, 2])):
        text += dice.choice([b"A: b", b"X-Y:", b"T: 1\r"]) + b"\r\n"
    return text + b"\r\n" + dice.choice([b"", b"", b"GET / HTTP/1.1\r\n"])


def cut(dice, text):
    fragments, at = [], 0
    while at < len(text):
        size = dice.choice([0, 1, 1, 2, 3, 5, 8, 40])
        fragments.append(text[at:at + size])
        at += size
    return fragments or [b""]


def ask(program, questions):
    given = "\n".join(questions) + "\n"
    out = subprocess.run([program], input=given.encode(), capture_output=True, check=True).stdout
    return out.decode().split("\n")[:-1]


def units(fragments, end):
    return f"units first_line {end} " + " ".join(f.hex() or "-" for f in fragments)


def content_of(answer):
    """The bytes of the pieces, and the bytes that the units take."""
    words, content, taken = answer.split(), b"", 0
    while words:
        word = words.pop(0)
        if word == "piece":
            piece = bytes.fromhex(words.pop(0))
            content, taken = content + piece, taken + len(piece)
        elif word == "line":
            taken += int(words.pop(0))
            words.pop(0)
        elif word == "finished":
            return content, taken + int(words.pop(0))
        else:
            return None
    return None


def main():
    program = sys.argv[1]
    dice = random.Random(int(sys.argv[2]) if len(sys.argv) > 2 else 1)
    count = int(sys.argv[3]) if len(sys.argv) > 3 else 5000
    bodies = [body(dice) for _ in range(count)]
    answers = ask(program, [units(cut(dice, text), "more") for text in bodies])
    wrong = 0
    for text, answer in zip(bodies, answers):
        content, left = decode(text)
        if content_of(answer) != (content, len(text) - left):
            wrong += 1
            print(text, answer)
    print(f"{count - wrong} of {count} bodies are decoded as RFC 9112, 7.1.3 has it")
    streams, faults = [], 0
    for text in bodies:
        broken = bytearray(text)
        for _ in range(dice.choice([0, 1, 1, 2])):
            at = dice.randrange(len(broken))
            broken[at:at + dice.choice([0, 1])] = bytes([dice.choice(b"\r\n0;gx5")])
        streams.append((bytes(broken[:dice.choice([len(broken)] * 3 + [len(broken) // 2])]), dice.choice(["more", "ended"])))
    whole = ask(program, [units([text], end) for text, end in streams])
    pieces = ask(program, [units(cut(dice, text), end) for text, end in streams])
    differ = [row for row in zip(streams, whole, pieces) if row[1] != row[2]]
    faults = sum("fault" in answer for answer in whole)
    for row in differ[:20]:
        print(*row, sep="\n    ")
    print(f"{count - len(differ)} of {count} streams have the same units whole and cut, {faults} of them end in a fault")
    sys.exit(1 if wrong or differ else 0)


if __name__ == "__main__":
    main()
