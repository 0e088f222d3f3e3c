#!/usr/bin/env python3
"""Inputs of the bench, with the answers of the oracle's bench (docs/ORACLE.md); needs the oracle built.

    crates/bench_vectors/inputs.py make                      data/inputs, data/long, data/wrong, and stdout with their counts
    crates/bench_vectors/inputs.py gap                       data/gap: inputs in mode G
    crates/bench_vectors/inputs.py blocks                    stdin and stdout of the program bench, its edges of blocks cutting what they can
    crates/bench_vectors/inputs.py compare SEED COUNT BENCH  random inputs through BENCH too, byte for byte
    crates/bench_vectors/inputs.py speed REPEATS BENCH       lines a second of both on large inputs, medians

An input is made by hand, by `vectors bench SEED COUNT`, or at random from a seed: settings of every kind, calls, damage and rubbish. In
a file of data it stands behind a line with its length and the length of its output, and in front of its output.
"""
import os
import random
import statistics
import subprocess
import sys
import tempfile

HERE = os.path.dirname(os.path.abspath(__file__))
TOOLS = os.path.join(HERE, "..", "..", "oracle", "target", "release")
SAMPLE = b"set\tS\t0\t1\t1\t10\t20\t0000000000000000\t3f800000\nwgt\t3f800000\ns\n"
HEAD = b"set\tS\t4\t1\t2\t1\t20\t0000000000000000\t3f800000\nwgt\t3f800000\n"
BAD = [b"", b"x", b"d\t", b"s\t1", b"p", b"l\t", b"P\t1", b"p\t01\t3f800000", b"l\t1\t7fc00001", b"p\t18446744073709551616\t3f800000", b"d ", b"s\r", b"p\t1\t3F800000", b"l\t-1\t3f800000", b"p\t1\t3f800000\t", b"l\t1 3f800000", b"set", b"wgt", b"wgt\t3f800000", b"l\t1\t3f80000", b"p\t1\t3f8000000", b"l\t\t3f800000"]


def oracle(text):
    return run([os.path.join(TOOLS, "oracle_bench")], text)


def vectors(seed, count, kind="bench"):
    return run([os.path.join(TOOLS, "vectors"), kind, str(seed), str(count)], b"")


def run(command, text):
    return subprocess.run(command, input=text, stdout=subprocess.PIPE, check=True).stdout


def set_line(mode=b"S", method=b"4", d=b"1", k=b"2", start=b"1", stop=b"20", decay=b"0000000000000000", time=b"3f800000"):
    return b"\t".join([b"set", mode, method, d, k, start, stop, decay, time]) + b"\n"


def singles(n, word=b"3f800000"):
    return (b"\t" + word) * n


def heads():
    """Rows 2 to 9 and 20 of the settings, their order, and their forms."""
    one = b"wgt\t3f800000\n"
    calls = b"p\t1\t3f800000\ns\n"
    for line in [
        set_line(d=b"0"), set_line(k=b"0"), set_line(d=b"17"), set_line(k=b"65"), set_line(d=b"2"), set_line(decay=b"3ff0000000000000"),
        set_line(decay=b"bfb999999999999a"), set_line(decay=b"7ff8000000000000"), set_line(decay=b"8000000000000000"), set_line(start=b"5", stop=b"4"),
        set_line(start=b"2000", stop=b"3000"), set_line(start=b"1999", stop=b"3000"), set_line(start=b"501", stop=b"501"), set_line(start=b"500", stop=b"500"),
        set_line(start=b"18446744073709551615", stop=b"18446744073709551615"), set_line(stop=b"18446744073709551616"), set_line(k=b"64"), set_line(d=b"0", k=b"0"),
        set_line(mode=b"I"), set_line(mode=b"s"), set_line(mode=b""), set_line(mode=b"T"), set_line(method=b"6"), set_line(method=b"05"), set_line(method=b""),
        set_line(d=b"01"), set_line(d=b"+1"), set_line(d=b" 1"), set_line(decay=b"0"), set_line(decay=b"3FB999999999999A"), set_line(decay=b"7ff8000000000001"),
        set_line(time=b"7fc00000"), set_line(time=b"7fc00001"), set_line(time=b"3f8"), set_line(time=b"3f800000\t1"), set_line()[:-10] + b"\n", b"set\n", b"\n", b"SET" + set_line()[3:],
    ]:
        yield line + one + calls
    for d in [2, 3, 4, 5, 16]:
        yield set_line(d=b"%d" % d) + b"wgt" + singles(d) + b"\np\t1" + singles(d) + b"\ns\n"
    for weights in [b"", b"\t40000000", b"\t7fc00000", b"\t7f800000", b"\t80000000", b"\t3f800000\t3f800000", b"\t", b"\tx", b" 3f800000", b"\t3f800000\r", singles(17)]:
        yield set_line(method=b"0") + b"wgt" + weights + b"\n" + calls
        yield set_line(method=b"1") + b"wgt" + weights + b"\n" + calls
    yield set_line(d=b"0") + b"wgt\tx\n"
    yield set_line(d=b"0") + b"wgt\n"
    yield set_line()
    yield set_line()[:-1]
    yield set_line() + b"wgt\t3f800000"
    yield set_line() + b"\n"
    yield set_line() + set_line() + one


def calls():
    """Every row and form of a call line, and the ends of the input."""
    one = b"3f800000"
    yield HEAD
    for line in BAD:
        yield HEAD + line + b"\ns\n"
        yield HEAD + line
    for name in [b"p", b"l"]:
        for more in [b"", b"\t5", b"\t5\t7fc00000", b"\t5\t7f800000", b"\t5\tff800000", b"\t5\t7f7fffff", b"\t5\t80000000", b"\t18446744073709551615\t" + one, b"\t0\t00000001", b"\t1\t" + one + b"\t" + one, b"\t1" + singles(17), b"\t" + b"1" * 5000 + b"\t" + one]:
            yield HEAD + name + more + b"\ns\n"
    yield HEAD + b"p\t1\t3f800000\nl\t1\t3f800000\np\t2\t40000000\nl\t2\t40000000\nd\nl\t1\t3f800000\nx\ns\n"
    yield HEAD + b"l\t10\t3f800000\nl\t9\t3f800000\nl\t10\t3f800000\np\t9\t3f800000\ns\n"
    yield HEAD + b"l\t10\t3f800000\nd\nd\ns\n"
    yield HEAD + b"l\t1\t3f800000\nl\t2\t40000000\np\t3\t40400000\np\t4\t7fc00000\nl\t3\t40400000\ns\n"
    yield set_line(method=b"0", start=b"2") + b"wgt\t3f800000\nl\t1\t3f800000\nd\nl\t2\t3f800000\nd\nl\t3\t3f800000\nd\ns\n"
    yield set_line(start=b"0") + b"wgt\t3f800000\nd\nl\t1\t3f800000\nd\ns\n"
    yield set_line(start=b"500", stop=b"500") + b"wgt\t3f800000\n" + b"".join(b"l\t%d\t%08x\n" % (i, 0x3F800000 + i * 999) for i in range(500)) + b"d\np\t500\t3f800000\nl\t500\t3f800000\n"


def long_lines():
    """Lines of 10,000 fields."""
    calls = b"\np\t1\t3f800000\ns\n"
    yield set_line() + b"wgt" + singles(10000) + calls
    yield set_line() + b"wgt" + singles(9999) + b"\tzz" + calls
    yield HEAD + b"p\t1" + singles(9999) + calls
    yield HEAD + b"l\t1" + singles(9998) + b"\tzz" + calls
    yield HEAD + b"p\t1" + singles(9998, b"7fc00000") + b"\t7fc00001"


def rubbish(r):
    n = r.choice([1, 2, 10, 100, 1000, 3000])
    noise = bytes(r.randrange(256) for _ in range(n))
    return r.choice([noise, HEAD + noise, HEAD + b"p\t1\t" + noise + b"\ns\n", noise + HEAD, HEAD + noise.replace(b"\n", b"\t") + b"\nd\n"])


def f32(r):
    v = r.choice([0, 0x80000000, 1, 0x7F7FFFFF, 0x3F800000, 0x7F800000, 0x7FC00000, r.getrandbits(32), r.getrandbits(32)]) if r.random() < 0.12 else r.randrange(0x3D000000, 0x45000000)
    return b"%08x" % v


def random_head(r):
    d, k = r.choice([1, 1, 2, 2, 3, 4]), r.choice([1, 2, 3, 8, 17, 64])
    start = r.choice([0, 1, 2, 3, 5, 9, 30])
    stop = start + r.choice([0, 1, 3, 10, 1000])
    method = r.randrange(6)
    decay = r.choice([0, 0x3FB999999999999A, 0x3F50624DD2F1A9FC, 0x3FE0000000000000, 0x3FEFFFFFFFFFFFFF, 0x8000000000000000])
    weights = d
    if r.random() < 0.1:
        d, weights = r.choice([(0, 0), (0, 1), (17, 17), (5, 5), (16, 16), (d + 1, d), (d, d + 1), (d, d)])
        k = r.choice([k, k, 0, 65])
        start, stop = r.choice([(start, stop), (500, 500), (501, 900), (1999, 2000), (2000, 2000), (9, 8), (2**64 - 1, 2**64 - 1)])
        decay = r.choice([decay, decay, 0x3FF0000000000000, 0xBFB999999999999A, 0x7FF8000000000000, 0x7FF0000000000000])
    plain = method == 0 and r.random() < 0.95
    words = [b"3f800000" if plain else r.choice([b"3f800000", b"40000000", b"3e99999a", b"bf800000", f32(r)]) for _ in range(weights)]
    time = r.choice([b"3f800000", b"40000000", b"3dcccccd", f32(r)])
    line = set_line(r.choice([b"S", b"T", b"G"]), b"%d" % method, b"%d" % d, b"%d" % k, b"%d" % start, b"%d" % stop, b"%016x" % decay, time)
    return d, line + b"wgt" + b"".join(b"\t" + w for w in words) + b"\n"


def random_calls(r, d, count):
    time = r.choice([0, 0, 5, 1700000000, 2**63, 2**64 - 200])
    point = True
    for _ in range(count):
        time = min(2**64 - 1, time + r.choice([0, 1, 1, 2, 60]))
        t = max(0, time - r.randrange(9)) if r.random() < 0.06 else time
        n = r.choice([0, 1, d + 1, 17, 40]) if r.random() < 0.04 else d
        values = b"".join(b"\t" + f32(r) for _ in range(n))
        x = r.random()
        if x < 0.08:
            yield r.choice([b"d", b"d", b"s"])
        elif x < 0.12:
            yield r.choice(BAD)
        else:
            yield (b"p" if point else b"l") + b"\t%d" % t + values
            point = not point if r.random() < 0.9 else point


def damaged(r, text):
    """Some bytes changed, lost or doubled; half the texts stay as they are."""
    for _ in range(r.choice([0, 0, 0, 1, 2, 5])):
        i = r.randrange(len(text) + 1)
        text = r.choice([
            text[:i] + bytes([r.randrange(256)]) + text[i + 1:], text[:i] + text[i + 1:], text[:i] + r.choice([b"\t", b"\n", b"0", b"\r", b" "]) + text[i:],
            text[:i], text[:i] + text[max(0, i - 30):],
        ])
    return text


def random_input(seed):
    r = random.Random(seed)
    kind = r.random()
    if kind < 0.1:
        return rubbish(r)
    if kind < 0.4:
        return vectors(seed, r.choice([0, 3, 30, 120]), r.choice(["bench", "bench_gap"]))
    d, head = random_head(r)
    return damaged(r, head + b"".join(line + b"\n" for line in random_calls(r, d, r.choice([0, 1, 5, 20, 60, 150]))))


def write(name, inputs):
    with open(os.path.join(HERE, "data", name), "wb") as f:
        for text in inputs:
            answer = oracle(text)
            f.write(b"%d %d\n" % (len(text), len(answer)) + text + answer)
    return f"{name}: agree {len(inputs)}, differ 0\n"


def make():
    inputs = [b"", b"\n", SAMPLE, SAMPLE[:-1], *heads(), *calls()]
    inputs += [rubbish(random.Random(seed)) for seed in range(1, 21)]
    inputs += [vectors(seed, 24) for seed in range(1, 101)]
    lines = write("inputs", inputs) + write("long", list(long_lines())) + wrong()
    with open(os.path.join(HERE, "stdout"), "w") as f:
        f.write(lines)


def gap():
    """Row 28 of `p` while readings wait, after they were let in, and later; weights of the time of every kind; times up to the last."""
    calls = b"p\t5\t3f800000\nl\t9\t3f800000\np\t8\t3f800000\np\t9\t3f800000\nl\t14\t40000000\np\t13\t3f800000\np\t20\t40400000\ns\np\t13\t3f800000\nl\t20\t40400000\np\t19\t7f800000\np\t19\np\t20\t3f800000\nl\t18446744073709551615\t3f800000\np\t18446744073709551614\t3f800000\np\t18446744073709551615\t3f800000\nd\ns\n"
    inputs = []
    for method in range(6):
        for time in [b"3f800000", b"40000000", b"00000000", b"80000000", b"c0000000", b"7f800000", b"7fc00000"][method % 2::2]:
            weight = b"wgt\t3f800000\n" if method == 0 else b"wgt\t40000000\n"
            inputs.append(set_line(mode=b"G", method=b"%d" % method, start=b"2", decay=b"3fb999999999999a", time=time) + weight + calls)
    inputs += [set_line(mode=b"G", d=b"5") + b"wgt" + singles(5) + b"\ns\n", set_line(mode=b"G", start=b"501", stop=b"501") + b"wgt\t3f800000\ns\n", set_line(mode=b"G", d=b"0") + b"wgt\n", set_line(mode=b"g") + b"wgt\t3f800000\n", set_line(mode=b"GG") + b"wgt\t3f800000\n"]
    inputs += [vectors(seed, 24, "bench_gap") for seed in range(1, 31)]
    return write("gap", inputs)


def wrong():
    """The sample with its answer, and once more with one digit of the answer changed: the replaying program must report that one."""
    answer = oracle(SAMPLE)
    at = answer.index(b"cnt\t0\t0\t0") + 6
    with open(os.path.join(HERE, "data", "wrong"), "wb") as f:
        for said in [answer, answer[:at] + b"1" + answer[at + 1:]]:
            f.write(b"%d %d\n" % (len(SAMPLE), len(said)) + SAMPLE + said)
    return "wrong: agree 1, differ 1\n"


# ---- the input of the program bench, which reads blocks

BLOCK = 131072  # bytes of the program's text
LONGEST = 24  # bytes that it keeps of a cell


def edges(text):
    """Where the program's reads end, of an input that comes as fast as it is read."""
    at, kept = 0, 0
    while at < len(text):
        at = min(len(text), at + BLOCK - kept)
        yield at
        kept = min(LONGEST, at - 1 - max(text.rfind(b"\t", 0, at), text.rfind(b"\n", 0, at)))


def kinds(r, time):
    """Readings of 4 values, calls of every kind and refusals of every row, from a time on that is 20 digits long."""
    reading = b"\t%d" % time + b"".join(b"\t%08x" % r.randrange(0x3F000000, 0x43000000) for _ in range(4))
    x = r.random()
    if x < 0.02:
        return r.choice([b"d", b"set\tS", b"wgt\t3f800000", b"p" + reading + b"\t3f800000", b"l\t%d\t3f800000" % time, b"l\t9" + reading[21:], b"l" + reading[:-8] + b"7f800000", b"p" + reading[:-8] + b"7fc00000"])
    if x < 0.04:
        return r.choice(BAD)
    return b"l" + reading


def block_input():
    """More than 400 KB: d 4, k 64, mode T, start 500; edges of blocks in a time, behind a line, before a tab, behind a tab, in a name and in a long cell."""
    r = random.Random(113)
    time = 10**19
    text = set_line(mode=b"T", method=b"5", d=b"4", k=b"64", start=b"500", stop=b"100000", decay=b"3f847ae147ae147b", time=b"3f000000")
    text += b"wgt\t3f800000\t40000000\tbf800000\t3e800000\n"
    # what the edge cuts, and how many bytes of it stand before the edge
    reading = lambda line: b"%d" % time + line[22:]
    cuts = [
        (lambda line: b"l\t" + reading(line), 14), (lambda line: b"wgt\t3f800000\n", 0), (lambda line: b"p\t" + reading(line), 22),
        (lambda line: b"l\t" + reading(line), 23), (lambda line: b"wgt\t3f800000\n", 2), (lambda line: b"l\t" + b"7" * 900 + b"\n", 302),
    ]
    learnt, stage = 0, 0
    for cut, lead in cuts:
        edge = next(e for e in edges(text + b"\n" * 2 * BLOCK) if e >= len(text))
        while edge - len(text) > 700:
            time += r.randrange(3)
            line = kinds(r, time) + b"\n"
            learnt += line[:2] == b"l\t"
            text += line
            if stage == 0 and learnt == 250:
                text += b"p" + line[1:] + b"s\nd\n"
                stage = 1
            if stage == 1 and learnt > 560:
                # the start is met: an `s` shows the readings that wait, they are let in, and a second `d` is refused
                text += b"s\nd\nd\np" + line[1:] + b"s\n"
                stage = 2
            if stage == 2 and learnt > 2500:
                # more output than the program has room for in one turn
                for _ in range(85):
                    time += 1
                    text += b"p\t" + reading(line) + b"l\t" + reading(line)
                text += b"s\n"
                stage = 3
            edge = next(e for e in edges(text + b"\n" * 2 * BLOCK) if e >= len(text))
        # a line of no form fills the place up to the line that the edge cuts
        text += b"x" * (edge - len(text) - lead - 1) + b"\n" + cut(line)
    return text + b"s\nl\t%d" % time


def blocks():
    text = block_input()
    for name, what in [("stdin", text), ("stdout", oracle(text))]:
        with open(os.path.join(HERE, "..", "bench", name), "wb") as f:
            f.write(what)
    for e in edges(text):
        print(e, text[max(0, e - 30):e], text[e:e + 10])
    print(len(text), "bytes in")


def compare(seed, count, bench):
    differ, rows, lines = 0, {}, 0
    for n in range(seed, seed + count):
        text = random_input(n)
        answer = oracle(text)
        lines += text.count(b"\n")
        for word in answer.split(b"\n"):
            if word.startswith(b"no\t"):
                rows[int(word[3:])] = rows.get(int(word[3:]), 0) + 1
        if run([bench], text) != answer:
            differ += 1
            print("differs: seed", n)
    print(f"seeds {seed} to {seed + count - 1}: {count} inputs, {lines} lines, {differ} differ; rows met: {dict(sorted(rows.items()))}")


def large(d, k, method, count):
    """`p` and `l` in turn, of the same reading."""
    r = random.Random(1)
    parts = [set_line(method=b"%d" % method, d=b"%d" % d, k=b"%d" % k, start=b"10", stop=b"1000000", decay=b"3f847ae147ae147b"), b"wgt" + singles(d) + b"\n"]
    for i in range(count):
        reading = b"\t%d" % i + b"".join(b"\t%08x" % r.randrange(0x3F000000, 0x43000000) for _ in range(d)) + b"\n"
        parts += [b"p" + reading, b"l" + reading]
    return b"".join(parts)


def seconds(bench, path):
    """Processor time of one run."""
    with open(path, "rb") as given:
        child = subprocess.Popen([bench], stdin=given, stdout=subprocess.DEVNULL)
        used = os.wait4(child.pid, 0)[2]
    return used.ru_utime + used.ru_stime


def speed(repeats, bench):
    benches = {"bench": bench, "oracle_bench": os.path.join(TOOLS, "oracle_bench")}
    for name, text in [("vectors bench 7 300000", vectors(7, 300000)), ("p and l, d 1, k 8, method 0", large(1, 8, 0, 500000)), ("p and l, d 4, k 8, method 5", large(4, 8, 5, 500000))]:
        with tempfile.NamedTemporaryFile() as f:
            f.write(text)
            f.flush()
            runs = [{b: seconds(exe, f.name) for b, exe in benches.items()} for _ in range(repeats)]
        for b in benches:
            median = statistics.median(run[b] for run in runs)
            print(f"{name}: {b}: {text.count(10)} lines in {median:.3f} s of processor time, {text.count(10) / median / 1e6:.2f} million a second")


if __name__ == "__main__":
    if sys.argv[1:] == ["make"]:
        make()
    elif sys.argv[1:] == ["gap"]:
        print(gap(), end="")
    elif sys.argv[1:] == ["blocks"]:
        blocks()
    elif len(sys.argv) == 5 and sys.argv[1] == "compare":
        compare(int(sys.argv[2]), int(sys.argv[3]), sys.argv[4])
    elif len(sys.argv) == 4 and sys.argv[1] == "speed":
        speed(int(sys.argv[2]), sys.argv[3])
    else:
        sys.exit(__doc__)
