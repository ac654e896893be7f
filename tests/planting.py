"""Sources that are made at random, in which offences of known kinds and places are planted.

A source is a list of tokens, marks, sites and lists of such parts. `random_names` and `random_types` make them.
"""


class Mark:
    """The place of an offence of a kind, which is that of the next token."""

    def __init__(self, kind):
        self.kind = kind


class Site:
    """A part of a source, and for each kind of offence that can be planted there what makes the part from its mark."""

    def __init__(self, normal, plants):
        self.normal, self.chosen = [normal], None
        self.plants = {kind: plant for kind, plant in plants.items() if plant}


def apart(items):
    """Parts with commas between them."""
    return [part for item in items for part in (",", item)][1:]


def applied(name, arguments, brackets="()"):
    """A name with arguments; brackets around none are left out."""
    return [name, brackets[0], *apart(arguments), brackets[1]] if arguments else [name]


def call(name, arguments):
    """A name with arguments between parentheses."""
    return [name, "(", *apart(arguments), ")"]


def planting(text):
    """What plants the tokens of a text, with the mark in the place of §."""
    return lambda mark: [mark if token == "§" else token for token in text.split()]


def sites_of(items):
    """All sites of a program, those inside others too."""
    for item in items:
        if isinstance(item, Site):
            yield item
        if isinstance(item, (Site, list)):
            yield from sites_of(item.normal if isinstance(item, Site) else item)


def tokens_of(items):
    """The tokens of a program, and the marks before them."""
    for item in items:
        if isinstance(item, Site):
            item = item.normal if item.chosen is None else item.chosen
        if isinstance(item, list):
            yield from tokens_of(item)
        else:
            yield item


def space_between(last, token, rng):
    """What is written between two tokens."""
    if rng.random() < 0.02:
        return rng.choice([" /* é */ ", "\n    ", " // { new\n"])
    if last in ("{", "}", ";"):
        return rng.choice(["\n", "\n  ", "\r\n\t", " "])
    return rng.choice(["", " "]) if last in "()," or token in "(){},;" else " "


def laid_out(program, rng):
    """The source of a program, on several lines, and its offences in order: their lines, columns and kinds."""
    lines, offences, marks, last = [""], [], [], ";"
    for token in tokens_of(program):
        if isinstance(token, Mark):
            marks.append(token)
            continue
        ended, *begun = space_between(last, token, rng).split("\n")
        lines[-1] += ended
        lines += begun
        offences += [(len(lines), len(lines[-1].encode()) + 1, mark.kind) for mark in marks]
        lines[-1], marks, last = lines[-1] + token, [], token
    return "\n".join([*lines, ""]), sorted(offences, key=lambda offence: (*offence[:2], offence[2][:2]))
