"""The vectors of tests/vectors: what their lines mean is said at the top of each file."""


def event_lists(path):
    """(name, events in hexadecimal, [(word, rest)]) for each list of events."""
    found = []
    for line in open(path, encoding="utf-8"):
        line = line.rstrip("\n")
        if not line.strip() or line.startswith("#"):
            continue
        if not line.startswith(" "):
            found.append((line.strip(), None, []))
            continue
        word, _, rest = line.strip().partition(" ")
        name, events, claims = found[-1]
        if word == "in":
            found[-1] = (name, rest, claims)
        else:
            claims.append((word, rest))
    return found


def line_vectors(path):
    """(label, words before '=', words after it) for each line."""
    found = []
    for line in open(path, encoding="utf-8"):
        line = line.strip()
        if line and not line.startswith("#"):
            left, _, right = line.partition(" =")
            label, *words = left.split()
            found.append((label, words, right.split()))
    return found


def has_events(path):
    return path.rsplit("/", 1)[-1].startswith("events")
