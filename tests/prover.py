"""The definitions of specs/ in a repository of their own, outside of this one: with equations that the prover accepts or refuses, or with a proof of joint."""
import atexit, os, re, shutil, subprocess, tempfile

TOP = os.path.dirname(os.path.dirname(os.path.abspath(__file__)))
# 'rt ci' refuses another repository's files anywhere below this one
OUT = tempfile.mkdtemp(prefix="definitions-")
atexit.register(shutil.rmtree, OUT, True)
CRATES = {
    "codec": ["Lists", "Sets", "Records", "Image", "Messages"],
    "site": ["Presumption", "Cohort", "Step", "Coordinator", "Participant", "Numbers"],
    "joint": ["State", "Event", "Refusals", "Plan", "Run", "Safety", "Totals", "Bill", "Drill", "Screen"],
}
# the types and constructors that the equations' support names
TYPES = {
    "Image": ["Reading", "accepted", "refused", "Written"],
    "Records": ["LogRecord"],
    "Presumption": ["Outcome", "commit", "abort"],
    "Cohort": ["Cohort"],
    "Coordinator": ["CoordinatorPhase", "initial", "collecting", "awaiting_acks"],
    "State": ["Run"],
    "Run": ["Answer"],
    "Step": ["force"],
    "Safety": ["Moment", "Safe"],
    "Bill": ["Bill"],
    "Screen": ["Screen"],
}
HEAD = """use Rattle.std.specs.Prelude.{ℕ, zero, suc, ◌≡◌, refl, Bool, true, false, cond, not, ◌&&◌, ◌||◌, T, eqb, List, [], ◌∷◌, ◌++◌, map, length, get_or, take, drop, replicate}
use Rattle.std.proofs.Common.{ap, subst}
"""


def nums(values):
    return "(" + "".join(f"{v} ∷ " for v in values) + "[])"


def rows(lists):
    return "(" + "".join(nums(r) + " ∷ " for r in lists) + "[])"


def hexed(text):
    return [int(x, 16) for x in text.replace(";", " ").split()]


def source(path):
    return open(os.path.join(TOP, path), encoding="utf-8").read()


def put(out, path, text):
    path = os.path.join(out, path)
    os.makedirs(os.path.dirname(path), exist_ok=True)
    with open(path, "w", encoding="utf-8") as f:
        f.write(text)


def opening(crate):
    """What a theorem by computation opens to unfold the crate's definitions: the one declaration of its module Open, which stands in specs/ or in proofs/."""
    paths = [f"crates/{crate}/{part}/Open.antt" for part in ("specs", "proofs")]
    return re.search(r"^unfoldable pub (\S+) : Unit", next(source(p) for p in paths if os.path.exists(os.path.join(TOP, p))), re.M)[1]


def definitions(name, edit):
    """A repository of that name below OUT of the definitions' modules alone, with one edit if there is one; gives its folder, and the lines that bring
    the definitions' names. In each crate the module Open unfolds them all."""
    out = os.path.join(OUT, name)
    shutil.rmtree(out, ignore_errors=True)
    uses, edited = "", 0
    for crate, modules in CRATES.items():
        put(out, f"crates/{crate}/src/lib.rt", "// Definitions alone.\n#![tactic(auto)]\n")
        brought, names = "", []
        for module in modules:
            path = f"crates/{crate}/specs/{module}.antt"
            text = source(path)
            if edit and edit["file"] == path:
                edited += text.count(edit["old"])
                text = text.replace(edit["old"], edit["new"])
            put(out, path, text)
            found = re.findall(r"^\s*unfoldable pub (\S+)", text, re.M)
            uses += f"use Rattle.{crate}.specs.{module}.{{{', '.join(found + TYPES.get(module, []))}}}\n"
            brought += f"use Rattle.{crate}.specs.{module}.{{{', '.join(found)}}}\n" if found else ""
            names += found
        if crate == "codec":
            brought, names = brought + "use mathlib.Core.List.{flatten}\n", ["flatten"] + names
        opens = opening(crate)
        put(out, f"crates/{crate}/specs/Open.antt", f"{brought}\nunfoldable pub {opens} : Unit {{0}}\nunfolding {' '.join(names)}\n{opens} = tt\n")
        uses += f"use Rattle.{crate}.specs.Open.{{{opens}}}\n"
    if edit and edited != 1:
        raise SystemExit(f"{edit['file']}: the text to edit stands there {edited} times: {edit['old']}")
    return out, uses


def check(out, crates):
    """Declares the modules that stand in each folder, and checks the crates, each over those before it: whether all are proved, and what is printed."""
    for crate in crates:
        for part in ("specs", "proofs"):
            top = os.path.join(out, "crates", crate, part)
            for folder, folders, files in os.walk(top):
                root = "Lib" if folder == top else os.path.relpath(folder, top)
                modules = {f.removesuffix(".antt") for f in files if f != "Lib.antt"}.union(folders)
                if modules:
                    put(top, root + ".antt", "".join(f"pub mod {m}\n" for m in sorted(modules)))
    put(out, "crates.txt", "".join(f"{crate}: {' '.join(crates[:i])}\n" for i, crate in enumerate(crates)))
    run = subprocess.run(["rt", "all", "check", "--jobs", "1"], cwd=out, capture_output=True, text=True, timeout=600)
    printed = run.stdout + run.stderr
    return run.returncode == 0 and f"{len(crates)} of {len(crates)} crates ok" in printed, printed


def stop(printed):
    """Ends with what the prover said from its first error on."""
    raise SystemExit(printed[max(printed.find(": error: ") - 100, 0) :][:3000])


def refused(support, equations, edit=None, name="equations"):
    """The labels of the claims that the prover refuses: each is a label, a type and its proof; `support` are definitions that they use."""
    out, uses = definitions(name, edit)
    root = HEAD + uses + support
    opened = " ".join(re.findall(r"^(\w+) :", support, re.M))
    labels = {}
    for label, claim, proof in equations:
        said = "v" + re.sub(r"\W", "-", label)
        root += f"\n{said} : {claim}\nunfolding {' '.join(map(opening, CRATES))} {opened}\n{said} = {proof}\n"
        labels[str(root.count("\n")), said] = label
    put(out, "crates/vectors/src/lib.rt", "// Equations alone.\n#![tactic(auto)]\n")
    put(out, "crates/vectors/specs/Lib.antt", root)
    proved, printed = check(out, list(CRATES) + ["vectors"])
    if proved:
        return []
    # a proof of another type than its claim's; a claim that cannot be read, or that no steps are left for, is not a refused one
    said = re.findall(r"^\./specs/Lib\.antt:(\d+):\d+: error: `([^`]+)`: (.*\n(?:  .*\n)*)", printed, re.M)
    found = [labels.get((line, name)) for line, name, why in said if "expected type `" in why]
    if not found or None in found or len(found) != printed.count(": error: ") or "\n== vectors\n" not in printed:
        stop(printed)
    return sorted(set(found))


def bring(out, path):
    """Puts a module's file there, unless one stands there or there is none, and the files of the modules that its `use` lines name."""
    if os.path.exists(os.path.join(out, path)) or not os.path.exists(os.path.join(TOP, path)):
        return
    put(out, path, source(path))
    for crate, part, module in re.findall(r"^(?:pub )?use Rattle\.(\w+)\.(specs|proofs)\.([\w.]*\w)", source(path), re.M):
        bring(out, f"crates/{crate}/{part}/{module.replace('.', '/')}.antt")


def proof_refused(claims, edit=None, name="proof"):
    """What the prover refuses of claims, each a file of joint's proofs/ or a file and a declaration in it, and in the files that they use, over the definitions and no
    program: the declarations that are refused for themselves, and not for one that they use, each with its file, in the prover's order; and those that are claims and are
    not proved."""
    out, _ = definitions(name, edit)
    for number, claim in enumerate(claims):
        path, _, word = claim.partition(" ")
        bring(out, f"crates/joint/proofs/{path}")
        # Of the declarations that rest on a refused one the prover names the first three of a file: here each claim has a file
        module = path.removesuffix(".antt").replace("/", ".")
        if word:
            put(out, f"crates/joint/proofs/Wanted/Claim{number}.antt", f"use Rattle.joint.proofs.{module}.{{{word}}}\n\nwanted : Unit {{0}}\nwanted = let claim = {word} in tt\n")
    proved, printed = check(out, list(CRATES))
    if proved:
        return [], []
    own = re.findall(r"^\./proofs/(\S+\.antt):\d+:\d+: error: `([^`]+)`: ", printed, re.M)
    behind = re.findall(r"^\./proofs/(\S+\.antt):\d+:\d+: error: \d+ declarations? that depends? on `", printed, re.M)
    # the definitions themselves are accepted
    if not own or len(own) + len(behind) != printed.count(": error: ") or "\n== joint\n" not in printed:
        stop(printed)
    return [f"{path} {word}" for path, word in own], [claim for number, claim in enumerate(claims) if claim in map(" ".join, own) or f"Wanted/Claim{number}.antt" in behind]
