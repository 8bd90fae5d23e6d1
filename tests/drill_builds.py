"""When bin/drill builds the drill, and what it says then."""
import os, re, select, signal, subprocess, time
from drill_runs import DRILL, LIMIT, executable, expect, stoppable, text_of, unheard


def on_builds(folder):
    """When bin/drill builds, and what it says then: in a repository of its own, with an rt that counts."""
    place = os.path.join(folder, "repository")
    names = ["codec", "site", "joint", "drill_text", "drill"]
    for name in ("bin", "path", *(f"crates/{name}/src" for name in names)):
        os.makedirs(os.path.join(place, name))
    copy = executable(os.path.join(place, "bin", "drill"), text_of(DRILL).decode())
    sources = {name: os.path.join(place, "crates", name, "src", "lib.rt") for name in names}
    calls, fail, wait, slow = (os.path.join(place, name) for name in ("calls", "fail", "wait", "slow"))
    # a crate is proved where its source or that of one before it has changed; rt's lines come on standard error, and the program that it runs writes too
    executable(os.path.join(place, "path", "rt"), f'''#!/bin/sh
echo "$PWD $*" >>"{calls}"
cat
if [ -e "{fail}" ]; then i=0; while [ $i -lt 99 ]; do i=$((i + 1)); echo "line $i" >&2; done; exit 1; fi
cd ../..
mkdir -p crates/drill/out stamp
all=
for name in {" ".join(names)}; do
  all="$all $(cat crates/$name/src/lib.rt)"
  [ "$all" != "$(cat stamp/$name 2>&1)" ] || [ $name = drill -a ! -e crates/drill/out/drill ] || continue
  [ $name != joint -o ! -e "{slow}" ] || sleep 2
  if [ $name = drill ]; then printf '#!/bin/sh\\necho built; cat\\n' >crates/drill/out/drill; chmod +x crates/drill/out/drill; fi
  echo "$all" >stamp/$name
  printf '%s\\n' "rt: chose --jobs 2 for $name" "fn $name::f: proved" "library core: modules loaded=1 checked=0" "crate $name: modules loaded=1 checked=1" "logic=proved functions=1" >&2
  while [ -e "{wait}" ]; do sleep 0.05; done
done
echo "rt: running out/drill" >&2
crates/drill/out/drill
''')
    with open(os.path.join(place, "crates.txt"), "w") as f:
        f.write("# drill: other\nother:\ncodec:\ncodec_cases: codec check\ncodec_c staticlib: codec\nsite: codec\njoint: site codec\ndrill_text: joint\ndrill: drill_text io\n")
    for path in sources.values():
        with open(path, "w") as f:
            f.write("one\n")
    env = {name: value for name, value in os.environ.items() if name != "DPR_DRILL"}
    env["PATH"] = os.path.join(place, "path") + os.pathsep + env["PATH"]
    begins = "bin/drill: proving and building the drill; the first time this takes minutes\n"
    right = (0, b"built\nABCDEF")

    def proved(first, last=5):
        return begins + "".join(f"bin/drill: proved {names[i - 1]} in N s ({i} of 5)\n" for i in range(first, last + 1))

    def untimed(said):
        return re.sub(r" in \d+ s ", " in N s ", said.decode())

    def run(label, builds, said, wanted=right):
        with open(calls, "w"):
            pass
        got = subprocess.run([copy, "-x"], input=b"41 42 43 44 45 46", capture_output=True, timeout=LIMIT, env=env, cwd="/")
        expect(f"{label}: output", (got.returncode, got.stdout), wanted)
        expect(f"{label}: builds", text_of(calls).decode(), f"{place}/crates/drill run\n" * builds)
        expect(f"{label}: messages", untimed(got.stderr), said)
        return [int(seconds) for seconds in re.findall(r" in (\d+) s ", got.stderr.decode())]

    def touch(path, seconds):
        os.utime(path, (time.time() + seconds, time.time() + seconds))

    def change(name):
        with open(sources[name], "a") as f:
            f.write("more\n")
        touch(os.path.join(place, "target", "drill.mark"), -5)

    with open(slow, "w"):
        pass
    seconds = run("first", 1, proved(1))
    expect("first: seconds of joint, of which it sleeps two", len(seconds) == 5 and 2 <= seconds[2] < LIMIT, True)
    os.remove(slow)
    run("again", 0, "")
    change("drill")
    run("the last source changed", 1, proved(5))
    change("joint")
    run("a source changed", 1, proved(3))
    run("again", 0, "")
    touch(sources["drill"], 5)
    run("a source that is newer and the same", 1, begins)
    touch(sources["drill"], -5)
    run("a source that is older", 0, "")
    os.remove(os.path.join(place, "crates", "drill", "out", "drill"))
    run("a program that is missing", 1, proved(5))
    run("again", 0, "")

    # while it waits behind the first crate, its line is there; a build that is stopped is none
    change("codec")
    with open(wait, "w"):
        pass
    halted = subprocess.Popen([copy], stdin=subprocess.DEVNULL, stdout=subprocess.PIPE, stderr=subprocess.PIPE, env=env, start_new_session=True, preexec_fn=stoppable)
    said, late = b"", time.monotonic() + LIMIT
    while said.count(b"\n") < 2 and select.select([halted.stderr], [], [], max(0, late - time.monotonic()))[0]:
        more = os.read(halted.stderr.fileno(), 1000)
        if not more:
            break
        said += more
    os.killpg(halted.pid, signal.SIGINT)  # the group of this run alone
    os.remove(wait)
    out, _ = halted.communicate(timeout=LIMIT)
    expect("a build that is stopped: messages so far", untimed(said), proved(1, 1))
    expect("a build that is stopped: status and output", (halted.returncode != 0, out), (True, b""))
    run("behind a build that was stopped", 1, proved(2))

    for label, command in {"2>&-": '"$1" 2>&-', "2>/dev/full": '"$1" 2>/dev/full'}.items():
        change("site")
        got = subprocess.run(["bash", "-c", command, "bash", copy], stdin=subprocess.DEVNULL, stdout=subprocess.PIPE, stderr=subprocess.DEVNULL, timeout=LIMIT, env=env)
        expect(f"a build {label}", (got.returncode, got.stdout), (0, b"built\n"))
        run(f"behind a build {label}", 0, "")
    change("site")
    expect("a build whose messages nobody reads", unheard("env", "PATH=" + env["PATH"], "DPR_DRILL=", copy, given=b""), (0, b"built\n"))
    run("behind a build whose messages nobody reads", 0, "")

    touch(os.path.join(place, "target", "drill.mark"), -50)
    with open(fail, "w"):
        pass
    told = begins + "".join(f"line {i}\n" for i in range(80, 100)) + "bin/drill: 'rt run' in crates/drill failed; target/drill.log has what it said\n"
    run("a build that fails", 1, told, (1, b""))
    run("it fails again", 1, told, (1, b""))
    os.remove(fail)
    run("it does not fail", 1, begins)
    return "builds: the first, a newer source, a missing program, one that is stopped, a failure, and what is said"
