"""How bin/drill reads and writes: input in pieces, a terminal, Ctrl-C, output that nobody reads, descriptors that are closed."""
import fcntl, glob, os, pty, random, select, signal, subprocess, termios, threading, time
from drill_runs import DRILL, LIMIT, MOST, NO_SITES, TEXT, TOP, broken, events, executable, expect, failures, message, printed, raw, stoppable, straight, text_of, unheard


def in_pieces(data, words, seed, **more):
    """The drill's output and messages where its input comes in pieces of 1 to 7 bytes."""
    rng = random.Random(seed)
    run = subprocess.Popen([DRILL, *words], stdin=subprocess.PIPE, stdout=subprocess.PIPE, stderr=subprocess.PIPE, **more)
    got = []
    reader = threading.Thread(target=lambda: got.append((run.stdout.read(), run.stderr.read())))
    reader.start()
    try:
        while data:
            n = rng.randrange(1, 8)
            run.stdin.write(data[:n])
            run.stdin.flush()
            data = data[n:]
            time.sleep(rng.choice([0, 0.0005, 0.002]))
        run.stdin.close()
        run.wait(LIMIT)
    except (BrokenPipeError, subprocess.TimeoutExpired) as error:
        run.kill()
        got.insert(0, type(error).__name__)
    reader.join()
    return got[0]


def on_pieces(folder):
    """Input through a pipe in small pieces."""
    some = events(300, 3) + b"\x00\x07"
    wanted = printed("a list at once", given=some)
    for seed in range(3):
        expect(f"raw pieces, {seed}", in_pieces(some, [], seed), (wanted, b""))
    expect("pieces of text", in_pieces(some.hex(" ").encode(), ["-x"], 4), (wanted, broken(1, "1802 bytes")))
    # what reaches the program
    shown = dict(os.environ, DPR_DRILL=executable(os.path.join(folder, "shown"), "#!/bin/sh\nexec cat\n"))
    every = bytes(range(256)) * 4
    expect("every byte in pieces", in_pieces(every, [], 5, env=shown), (every, b""))
    expect("every byte as text in pieces", in_pieces(every.hex().encode(), ["-x"], 6, env=shown), (every, broken(1, "1024 bytes")))
    most = (every * 59)[:MOST]
    expect("60,000 bytes", printed("60,000 bytes", given=most, env=shown), most)
    return "input in pieces of 1 to 7 bytes, every byte"


def at_terminal(*words, typed=b""):
    """A run with a terminal as standard input: what it says before anything is typed, its status, output and what else it says."""
    ours, its = pty.openpty()
    run = subprocess.Popen([DRILL, *words], stdin=its, stdout=subprocess.PIPE, stderr=subprocess.PIPE, start_new_session=True)
    first = b""
    if select.select([run.stderr], [], [], LIMIT)[0]:
        first = os.read(run.stderr.fileno(), 1000)
    os.write(ours, typed)
    try:
        out, err = run.communicate(timeout=LIMIT)
    except subprocess.TimeoutExpired:
        os.killpg(run.pid, signal.SIGKILL)  # the group of this run alone
        out, err = run.communicate()
    os.close(ours)
    os.close(its)
    return first, run.returncode, out, err


def stopped(folder, *words):
    """A run that Ctrl-C stops while it reads: its status, output, messages, and the files that it leaves."""
    its, ours = os.pipe()
    env = dict(os.environ, TMPDIR=folder)
    run = subprocess.Popen([DRILL, *words], stdin=its, stdout=subprocess.PIPE, stderr=subprocess.PIPE, env=env, start_new_session=True, preexec_fn=stoppable)
    os.write(ours, b"00 ")
    late = time.monotonic() + LIMIT
    while any(fcntl.ioctl(its, termios.FIONREAD, bytes(4))) and time.monotonic() < late:
        time.sleep(0.01)  # until it has read these
    os.killpg(run.pid, signal.SIGINT)  # the group of this run alone
    os.close(ours)
    os.close(its)
    out, err = run.communicate(timeout=LIMIT)
    return run.returncode, out, err, glob.glob(os.path.join(folder, "tmp.*"))


def on_terminal(folder):
    """Standard input that is a terminal, and Ctrl-C."""
    path = os.path.join(TOP, "drills", "K1.txt")
    typed, wanted = raw(text_of(path)).hex(" ").encode() + b"\n\x04", text_of(path[:-4] + ".out")
    waits = b"bin/drill: waiting for standard input; end it with Ctrl-D\n"
    for words in (["-x"], ["-x", "-"]):
        expect(f"{words}", at_terminal(*words, typed=typed), (waits, 0, wanted, b""))
    expect("raw", at_terminal(typed=b"00\n\x04"), (waits, 0, b"1 1 0 0 0\n" + NO_SITES, message(TEXT)))
    expect("nothing typed", at_terminal(typed=b"\x04"), (waits, 0, NO_SITES, b""))
    expect("a file", at_terminal("-x", path), (b"", 0, wanted, b""))
    for words in ([], ["-x"]):
        expect(f"{words}, Ctrl-C", stopped(folder, *words), (-signal.SIGINT, b"", b"", []))
    return "standard input that is a terminal, Ctrl-C"


def ends(label, command, **more):
    """A run in a shell that has to end by itself, and to say little. Nothing is asked of its status."""
    run = subprocess.Popen(["bash", "-c", command, "bash", DRILL], stdin=subprocess.DEVNULL, stdout=subprocess.PIPE, stderr=subprocess.PIPE, start_new_session=True, **more)
    try:
        out, err = run.communicate(timeout=LIMIT)
    except subprocess.TimeoutExpired:
        os.killpg(run.pid, signal.SIGKILL)  # the group of this run alone
        run.communicate()
        failures.append(f"{label}: no end")
        return b""
    expect(f"{label}: lines of messages", err.count(b"\n") <= 2, True)
    return out


def on_closed(folder):
    """Output that nobody reads, with SIGPIPE as usual and ignored; descriptors that are closed."""
    path = os.path.join(folder, "closed")
    with open(path, "wb") as f:
        f.write(events(MOST // 6, 1))
    first = printed("the first line", path).split(b"\n")[0] + b"\n"
    for more in ({"restore_signals": True}, {"restore_signals": False}):
        for form in ("", "-x "):
            name = path
            if form:
                name = path + ".txt"
                with open(name, "w") as f:
                    f.write(text_of(path).hex(" "))
            ends(f"{form}>&-, {more}", f'"$1" {form}"{name}" >&-', **more)
            expect(f"{form}| head -n 1, {more}", ends(f"{form}| head -n 1, {more}", f'"$1" {form}"{name}" | head -n 1', **more), first)
            expect(f"{form}| true, {more}", ends(f"{form}| true, {more}", f'"$1" {form}"{name}" | true', **more), b"")
            expect(f"{form}>/dev/full, {more}", ends(f"{form}>/dev/full, {more}", f'"$1" {form}"{name}" >/dev/full', **more), b"")
    text = os.path.join(TOP, "drills", "K1.txt")
    expect("K1, <&-", ends("K1, <&-", f'"$1" -x "{text}" <&-'), text_of(text[:-4] + ".out"))
    expect("no input, <&-", ends("no input, <&-", '"$1" -x <&-'), NO_SITES)
    expect("2>&-", ends("2>&-", f'"$1" -x "{text}" 2>&-'), text_of(text[:-4] + ".out"))
    for form, said in {"": NO_SITES + b"0\n", "-x": b"2\n"}.items():
        expect(f"{form} input that cannot be read", ends(f"{form} input that cannot be read", f'"$1" {form} 0>"{path}.none"; echo $?'), said)
    for where in ("2>&-", "2>/dev/full"):
        expect(f"a hint {where}", ends(f"a hint {where}", f'"$1" "{text}" {where}'), straight(text_of(text)))
        expect(f"a warning {where}", ends(f"a warning {where}", f'echo 00 | "$1" -x {where}'), b"1 1 0 0 0\n" + NO_SITES)
        expect(f"a refusal {where}", ends(f"a refusal {where}", f'echo 0 | "$1" -x {where}; echo $?'), b"2\n")
    expect("a hint that nobody reads", unheard(DRILL, text, given=b""), (0, straight(text_of(text))))
    expect("a warning that nobody reads", unheard(DRILL, "-x", given=b"00"), (0, b"1 1 0 0 0\n" + NO_SITES))
    return "output that nobody reads, descriptors that are closed"
