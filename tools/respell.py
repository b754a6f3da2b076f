"""Respells the repository's own names in clauses, definitions and proofs as Rattle spells them since the port: words in snake case,
types and modules in camel case. Run once, at the top, after Rattle's own port.py. `--collisions` prints what would fall together."""
import glob, re, sys

# A name, or the part of a name that a dash sets off; a quoted text is skipped whole.
TEXT = r'b?"(?:\\.|[^"\\])*"'
WORD = r"[A-Za-z_][A-Za-z0-9_]*"
PIECE = re.compile(TEXT + r"|--[^\n]*|//[^\n]*|" + WORD)
# Words whose plain respelling would fall together with another name.
ELSEWHERE = {"getD": "get_or", "asRecorded": "as_recorded_lem", "bFactor": "b_factor_node"}
# Lemmas that port.py gave the name that the definition they are about has from now on.
LEMMAS = "at_position found_below good_length in_order little_endian part_end store_step too_wide".split()
LEMMA = re.compile(r"(?<![\w.\-])(" + "|".join(LEMMAS) + r")(?![\w\-.])")


def snake(word):
    """`layOut` as `lay_out`; a name that begins with a capital is a type and stays."""
    if word in ELSEWHERE:
        return ELSEWHERE[word]
    if not word[0].islower() or not re.search(r"[a-z0-9][A-Z]", word):
        return word
    return re.sub(r"(?<=[a-z0-9])(?=[A-Z])", "_", word).lower()


def sources():
    found = []
    for kind in ("specs/**/*.antt", "proofs/**/*.antt", "src/**/*.rt"):
        found += glob.glob("crates/*/" + kind, recursive=True)
    return sorted(found)


def pages():
    return ["README.md", "CONTRIBUTING.md"] + sorted(glob.glob("docs/**/*.md", recursive=True))


def own_names(paths):
    """The words that antt files name outside comments and texts."""
    words = set()
    for path in paths:
        if path.endswith(".antt"):
            for piece in PIECE.findall(open(path, encoding="utf-8").read()):
                if piece[0] not in '"b-/' or re.fullmatch(WORD, piece):
                    words.add(piece)
    return words


def respelled(text, names, is_source):
    def one(match):
        piece = match.group(0)
        if is_source and (piece.startswith('"') or piece.startswith('b"')):
            return piece
        if piece.startswith("--") or piece.startswith("//"):
            return re.sub(r"\b" + WORD, lambda m: snake(m.group(0)) if m.group(0) in names else m.group(0), piece)
        return snake(piece) if piece in names else piece

    if is_source:
        return PIECE.sub(one, text)
    return re.sub(r"(?<![\w./])" + WORD + r"(?![\w(])", one, text)


def main():
    paths = sources()
    words = own_names(paths)
    names = {word for word in words if snake(word) != word}
    if sys.argv[1:] == ["--collisions"]:
        together = [name for name in sorted(names) if snake(name) in words]
        print("".join(f"{name} {snake(name)}\n" for name in together), end="")
        return
    for path in paths + pages():
        text = open(path, encoding="utf-8").read()
        new = LEMMA.sub(r"\1_lem", text) if path.endswith(".antt") else text
        new = respelled(new, names, not path.endswith(".md"))
        if new != text:
            open(path, "w", encoding="utf-8").write(new)


main()
