#!/usr/bin/env python3
"""tools/respell.py: brings the names of this repository's own definitions, lemmas and modules to one spelling, once, right behind the kit's port.py (docs/PORT.md).

Words are in snake case, types and modules in upper camel case. A dash stays where it joins the names of two definitions; a lemma that would have its definition's name ends in
_lem. Names of src/, of generated modules and of the library stay. Text outside crates/ is turned too, where it names a definition by its old name. Run it at the top, on the
commit of port.py: tools/respell.py [FILE]; FILE gets each old name with the new one."""
import collections, os, re, subprocess, sys

TOP = os.getcwd()
CRATES = "codec|codec_cases|site|site_cases|joint|drill_text|drill"
TOKEN = re.compile(r"[^\W\d](?:[\w'-])*")
USE = re.compile(r"^\s*(?:unfoldable )?(?:pub )?(?:ghost )?use ([^\s{;]+?)(?:\.\{([^}]*)\})?(?: as ([\w-]+))?;?$", re.M)
SIGNATURE = re.compile(r"^\s*(?:unfoldable )?(?:abbrev )?(?:unfoldable )?(?:pub )?(?:record |data )?([^\s:()=]+) (?:\([^=]*\) )?:(?: |$)", re.M)
MODULES = {"specs/laws": "specs/Laws"} | {f"proofs/{m}": f"proofs/{m.capitalize()}" for m in ("logs", "base", "engine", "view", "clean", "safety")}
MODULES |= {"proofs/Safety/coordinator": "proofs/Safety/Coordinator", "proofs/Safety/participant": "proofs/Safety/Participant"}
# a fact that was spelled as a word, in this crate
FACTS = {("joint", "isMember"): "IsMember"}
# names that stand several in a line, or before a level, and that SIGNATURE does not read
MORE = "voteYes voteNo presumedAbort presumedCommit offVoted allFirst allSurvivors".split()
# what port.py turned in crates/ because the library has a name of that spelling, or a word of the library itself
TURNED = """
add-at add-nothing adds-none after-kept alike-all alike-same all-map all-of-map all-rest all-up allOf and-both and-left and-right answerIn answerOf any-append any-found
any-last any-snoc any-step as-row as-written asks-none at-code at-first at-most at-stage below-at bit-at both-ways by-last byte-at byte-next bytes-next bytes-of
bytes-take bytesAt bytesOf calls-spec classOf count-law count-spec countOf counted-next counted-start cut-at cut-keeps cut-spec cutAt cutOf done-next down-by drop-own
dueAt each-append each-at each-back each-chosen each-map each-of each-on each-take edge-at edge-same effectOf enter-spec enteredIn entry-at entry-other entry-seen entryOf
enum-told field-next fields-split fieldsAt fieldsOf filled-next filled-none finish-spec first-done first-of first-one first-round first-run fits-cut fits-in follows-is
from-at from-bytes from-member from-past front-of full-put getD-past goes-on goes-to going-next has-either has-one has-room head-of held-all held-bytes held-carried
held-cut held-first held-none high-bits holds-at holds-more in-between in-left in-order inTurn index-below inputOf is-false is-later is-member is-one is-row is-up
is-whole is-within isYes kept-next kept-then kindOf known-as last-bit last-snoc lastOr left-end left-out left-up length-most length-pairs length-spec lengthOf letter-at
line-plain lineAt lines-end lines-next lines-start linesFrom linesOf local-same low-again low-parts ltb-next mark-spec maskOf masksAt mul-at named-table new-spec
next-fits next-last no-abort no-both no-end no-fields no-kind no-member no-record no-row no-zero noHeld noRow noSite none-apart none-below none-done none-in none-left
none-of none-yet not-first not-none not-opened not-own not-yet number-is number-word numberOf of-cut of-spec one-bit one-down one-less one-more one-of one-of-two only-at
only-below onlyIf open-after open-none open-spec opening-of opens-by or-cases or-comm or-left or-map or-right orElse ordered-at other-edge outOf pair-is pair-small
part-none part-of parts-again partsIn passed-none perform-kept pick-spec place-at place-same put-some put-spec putAt quiet-calm read-as read-back read-is read-of
read-spec readOnly record-is refused-as return-kept room-snoc roomFor row-apart row-cut row-done row-fits row-kept row-next row-seen rowOf said-of same-at same-bytes
same-kept same-length same-log same-move same-numbers same-outcome same-self seen-apart seen-other sends-run set-below set-front settle-other sitesOf soFar some-left
some-same start-is start-spec stays-up step-keeps step-left step-of step-other step-room step-spec stepped-kept stopped-none store-spec stored-there sub-read sum-alike
sum-both sum-fits sum-more sum-one sum-row tableOf take-none take-own taken-next takes-part textOf too-short true-of two-fields upTo update-here update-other update-same
update-twice upto-next walk-ends way-down whole-run with-none with-two within-all within-first word-number wordAt getD
""".split()


def snake(word):
    return re.sub(r"(?<=[a-z0-9])([A-Z])(?![A-Z0-9]|$)", lambda m: "_" + m.group(1).lower(), word) if re.match("[a-z]", word) else word


def sources():
    for folder, folders, files in os.walk(os.path.join(TOP, "crates")):
        folders[:] = sorted(f for f in folders if f != "out")
        for f in sorted(files):
            if f.endswith((".antt", ".rt")):
                yield os.path.join(folder, f)


def read(path):
    with open(path, encoding="utf-8") as f:
        return f.read()


def write(path, text):
    with open(path, "w", encoding="utf-8") as f:
        f.write(text)


def move_modules():
    for old, new in MODULES.items():
        for crate in CRATES.split("|"):
            for end in (".antt", ""):
                a, b = (os.path.join("crates", crate, p + end) for p in (old, new))
                if os.path.exists(a):
                    subprocess.run(["git", "mv", a, b], check=True)


def modules(text):
    for old, new in MODULES.items():
        dotted = old.replace("/", "."), new.replace("/", ".")
        text = re.sub(rf"(Rattle\.(?:{CRATES})\.){re.escape(dotted[0])}(?=\.)", rf"\g<1>{dotted[1]}", text)
        text = re.sub(rf"^((?:pub )?mod ){old.split('/')[-1]}$", rf"\g<1>{new.split('/')[-1]}", text, flags=re.M)
    return text


def paths(text):
    for old, new in MODULES.items():
        text = re.sub(rf"(?<![\w/]){old}(?=[./]|\b)", new, text)
        text = re.sub(rf"(crates/\w+/){old}(?=[./]|\b)", rf"\g<1>{new}", text)
    # a folder of joint/proofs by itself
    text = re.sub(r"(?<![\w/.-])(safety/)(coordinator|participant)(?=/)", lambda m: m[1] + m[2].capitalize(), text)
    return re.sub(r"(?<![\w/.-])(logs|base|engine|view|clean|safety)(?=/)", lambda m: m[1].capitalize(), text)


def names(found):
    foreign, defined, plain = set(), set(), set()
    walked = {os.path.dirname(p) for p in found if p.endswith("/Proof.antt")}
    for path, text in found.items():
        for module, items, alias in USE.findall(text):
            if not re.match(rf"Rattle\.({CRATES})\.(specs|proofs)\.(?!declared)", module):
                foreign |= {i.strip() for i in (items or module.split(".")[-1]).split(",")}
        if path.endswith(".antt") and not any(path.startswith(w + "/") for w in walked):
            defined |= set(SIGNATURE.findall(text))
            if "/specs/" in path and "/Laws/" not in path:
                plain |= set(SIGNATURE.findall(text))
    parts = {snake(w) for w in plain if "-" not in w} | {w for w in foreign if "-" not in w and w.islower()}
    new, taken = {}, collections.defaultdict(list)
    for word in sorted((defined | set(MORE)) - foreign, key=lambda w: ("-" in w, w)):
        old = [snake(p) for p in word.split("-")]
        said = old[0]
        for a, b in zip(old, old[1:]):
            said += ("-" if a in parts and b in parts else "_") + b
        if taken[said]:
            said += "_lem"
        if taken[said]:
            sys.exit(f"{word} and {taken[said]} fall together as {said}")
        taken[said].append(word)
        if said != word:
            new[word] = said
    for word, said in new.items():
        if said in foreign:
            print(f"look: {word} is now {said}, and the library has that name")
    return new, walked


def main():
    move_modules()
    found = {p: modules(read(p)) for p in sources()}
    new, walked = names(found)
    camel = {w: s for w, s in new.items() if "-" not in w}
    for path, text in found.items():
        inside = any(path.startswith(w + "/") for w in walked)

        crate = path[len(TOP) :].split("/")[2]

        def turn(m):
            # a name of the program's stays: it has no dash and no capital
            if path.endswith(".rt") and m.group() == m.group().lower():
                return m.group()
            # what a walk of the code calls its steps stays
            if inside and "-" in m.group() and text[: m.start()].endswith("."):
                return m.group()
            return FACTS.get((crate, m.group())) or new.get(m.group(), m.group())

        write(path, TOKEN.sub(turn, text))
    said = dict(new)
    for word in TURNED:
        turned = re.sub("^getD", "get_or", word)
        turned = "_".join(snake(p) for p in turned.split("-"))
        said.setdefault(word, new.get(turned, turned))
    for path in subprocess.run(["git", "ls-files", "README.md", "docs", "tests", "crates/*/must-fail", "bin", "bench"], capture_output=True, text=True, check=True).stdout.split():
        if path.endswith((".rs", ".c", ".txt", ".out", ".lock", ".toml")):
            continue
        text = read(path)
        turned = paths(modules(text))
        if path.endswith(".md"):
            # prose has words with dashes of its own: there a name stands in back quotes
            turned = re.sub(r"`[^`\n]+`|[^\W\d][\w'-]*", lambda m: TOKEN.sub(lambda w: said.get(w.group(), w.group()), m.group()) if "`" in m.group() or "-" not in m.group() and m.group() != m.group().lower() else m.group(), turned)
        else:
            turned = TOKEN.sub(lambda m: said.get(m.group(), m.group()), turned)
        if turned != text:
            write(path, turned)
    if len(sys.argv) > 1:
        write(sys.argv[1], "".join(f"{a}\t{b}\n" for a, b in sorted(said.items())))
    print(f"{len(new)} names")


main()
