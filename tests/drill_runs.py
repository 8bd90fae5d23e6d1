"""Runs of bin/drill, and what the tests of it share: tests/drills, drill_streams.py and drill_builds.py."""
import os, random, re, signal, subprocess

TOP = os.path.dirname(os.path.dirname(os.path.abspath(__file__)))
DRILL = os.path.join(TOP, "bin", "drill")
PROGRAM = os.environ.get("DPR_DRILL") or os.path.join(TOP, "crates", "drill", "out", "drill")
LIMIT = 20  # seconds for one run
MOST = 60000
# what bin/drill says behind the name of an input
LONG = ": more than 60,000 bytes; only the first 60,000 (10,000 events) are run"
TEXT = ": this looks like text, and is run as raw bytes; -x reads text"
LONE = "a hexadecimal digit that has no second one"
MARK = "a byte order mark; save the text as ASCII, or as UTF-8 without it"
NO_SITES = b"0 0 0 0\n" * 9  # the lines of the sites where nothing was opened and nothing forced
failures = []


def expect(label, got, wanted):
    if got == wanted:
        return
    if isinstance(got, bytes) and isinstance(wanted, bytes):  # the first line that differs
        lines = got.splitlines(True) + [b""], wanted.splitlines(True) + [b""]
        at = next(i for i, (a, b) in enumerate(zip(*lines)) if a != b)
        label, got, wanted = f"{label}, line {at + 1}", lines[0][at], lines[1][at]
    failures.append(f"{label}: {got!r} instead of {wanted!r}")


def text_of(path):
    with open(path, "rb") as f:
        return f.read()


def drill(*words, given=b"", limit=LIMIT, **more):
    """One run: exit status, standard output, standard error."""
    try:
        run = subprocess.run([DRILL, *words], input=given, capture_output=True, timeout=limit, **more)
    except subprocess.TimeoutExpired:
        return "no end", b"", b""
    return run.returncode, run.stdout, run.stderr


def printed(label, *words, said=b"", **more):
    status, out, err = drill(*words, **more)
    expect(f"{label}: status and messages", (status, err), (0, said))
    return out


def message(what, name="standard input"):
    return f"bin/drill: {name}{what}\n".encode()


def broken(line, size):
    return message(f", line {line}: {size}, no whole number of events (an event is six bytes)")


def straight(given):
    """What the program prints without bin/drill."""
    return subprocess.run([PROGRAM], input=given, capture_output=True, timeout=LIMIT).stdout


def executable(path, text):
    with open(path, "w") as f:
        f.write(text)
    os.chmod(path, 0o755)
    return path


def stoppable():
    """In a process that is started: Ctrl-C ends it, also where the tests are run in the background, where a shell has it ignored."""
    signal.signal(signal.SIGINT, signal.SIG_DFL)


def raw(text):
    return bytes.fromhex(re.sub(rb"#[^\r\n]*|[\s;]", b"", text).decode())


def events(count, seed):
    """Events of which most are well formed, so that a long list gets far."""
    rng = random.Random(seed)
    codes = [0, 1, 1, 2, 2, 2, 2, 2, 2, 3, 4, 5, 5, 6, 7, 7, 8, 255]
    out = bytearray()
    for _ in range(count):
        code, x, y, z = rng.choice(codes), rng.randrange(8), 0, 0
        if code == 0:
            y = rng.choice([1, 3, 7, 255])
            z = y & rng.randrange(256)
        elif code == 2:
            y, z = rng.randrange(1, 4), rng.randrange(8)
        elif code in (3, 5):
            y = rng.randrange(4)
        elif code in (4, 6, 7):
            x, y = 0, rng.randrange(4)
        elif code == 8:
            y = rng.randrange(1, 4)
        cut = rng.randrange(4) if code in (1, 2, 3) and rng.random() < 0.05 else 255
        out += bytes([code, x, y, z, cut, 0])
    return bytes(out)


def site_lines(given, lines):
    """The lines of the sites that a list of whole events asks for, by its lines of events: forces, handovers, quotient, remainder."""
    forces, opened = [0] * 9, [0] * 9
    for at, line in zip(range(0, len(given) - 5, 6), lines):
        code, _, y, z, _, _ = given[at : at + 6]
        _, answer, _, forced, _ = map(int, line.split())
        if answer == 0 and code == 0:
            opened = [n + (site == 0 or y >> (site - 1) & 1) for site, n in enumerate(opened)]
        elif answer == 0:
            forces[y if code in (3, 4, 7) or code == 2 and z in (0, 3, 4) else 0] += forced
    return [" ".join(map(str, (n, by, *(divmod(n, by) if by else (0, n))))) for n, by in zip(forces, opened)]


def unheard(*words, given):
    """A run whose messages go into a pipe that nobody reads: status and standard output."""
    reader, writer = os.pipe()
    os.close(reader)
    run = subprocess.run([*words], input=given, stdout=subprocess.PIPE, stderr=writer, timeout=LIMIT)
    os.close(writer)
    return run.returncode, run.stdout
