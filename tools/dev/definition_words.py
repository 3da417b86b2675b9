#!/usr/bin/env python3
"""What definitions say, in the words that stand above each in its file: the tables of docs/definitions.md that begin with `<!-- words_.. -->`.

    definition_words.py --write    puts them into the page
    definition_words.py --check    fails where the page has others, or a definition that it names has no words

Of a definition the comment right above it is taken, of a file its first one.
"""
import glob
import os
import re
import sys

TOP = os.path.dirname(os.path.dirname(os.path.dirname(os.path.realpath(__file__))))
PAGE = "docs/definitions.md"
BLOCK = re.compile(r"(<!-- words_(\w+) -->\n\n)(.*?)(\n\n<!-- end -->)", re.S)
# By block: crates with definitions of theirs; then, of two blocks, crates with files.
DEFINITIONS = {
    "greater": (
        ("curve_loads", "held load Stays IsFront"), ("curve_fresh", "stale_from stale_in fresh_finds fresh_bytes"),
        ("curve_held", "last_asked oldest puts_out full_at"), ("curve_timed", "until marks_of IsSoFar"),
        ("tier_served", "IsSeenAs IsUniform IsPlain"), ("tier_loads", "AreAlike weight_in"), ("tier_pairs", "RunsTwo AreComparable AreFound"),
    ),
    "threads": (
        ("tier_recorded", "note_of records_of HasTurns IsReplay FirstDiffer Opens IsTurn DiffersAt ShowsOne IsReplayed Appends Refuses AppendsAll "
                          "KeepsAll RefusesAll IsClosed hit_calls MatchMade"),
        ("tier_shared", "IsCounted Counts"),
    ),
}
MODEL = (("tier_model", "State Checks Answers Step After Histories Locks Reads Reports Started Past"), ("cache_changes", "Changes"))
FILES = (
    ("cache_words", "Key Variance Blake Forms Pack Reading Time"), ("cache_entries", "EntryText RowText"),
    ("cache_heads", "FreshUntil Verdict Stale Requests"), ("head_directives", "Reads Keeps Seconds Listed Lifetime Known"),
    ("head_parse", "Response"), ("request_puts", "Put"), ("cache_store", "StoreState Answers Agree"), ("cache_lock", "Changes Waits Answers"),
    ("lru_core", "Cores"), ("lru_actors", "Worlds"), ("lru_files", "Save Load"), ("trace_lines", "Lines Texts"), ("trace_replay", "Replays Restarts"),
)


def specs(crate):
    return sorted(glob.glob(f"{TOP}/crates/{crate}/specs/**/*.antt", recursive=True))


def lines_of(path):
    with open(path, encoding="utf-8") as file:
        return file.read().splitlines()


def words_of(crate, name):
    """What stands above a definition of a crate, or nothing."""
    begins = re.compile(rf"(?:abbrev |unfoldable )?pub (?:record |data )?{re.escape(name)}(?= )")
    for path in specs(crate):
        above = []
        for line in lines_of(path):
            if begins.match(line) and above:
                return " ".join(above)
            above = above + [line[3:]] if line.startswith("-- ") else []
    return ""


def first_words(crate, name):
    """The comment at the front of a file of a crate, or nothing."""
    path = next((it for it in specs(crate) if os.path.basename(it) == f"{name}.antt"), None)
    words = []
    for line in lines_of(path) if path else ():
        if not line.startswith("-- "):
            break
        words.append(line[3:])
    return " ".join(words)


def table(head, crates, says):
    rows = [(name, crate, says(crate, name)) for crate, names in crates for name in names.split()]
    lines = [f"| {head} | of | Says |", "|---|---|---|", *(f"| `{name}` | `{crate}` | {words.rstrip('.').replace('|', chr(92) + '|')} |" for name, crate, words in rows)]
    return "\n".join(lines), [f"{crate}: {name} has no words above it" for name, crate, words in rows if not words]


def main(words):
    if words not in (["--write"], ["--check"]):
        print(__doc__.strip(), file=sys.stderr)
        return 2
    made = {name: table("Definition", crates, words_of) for name, crates in DEFINITIONS.items()}
    made |= {"model": table("File", MODEL, first_words), "files": table("File", FILES, first_words)}
    with open(os.path.join(TOP, PAGE), encoding="utf-8") as file:
        page = file.read()
    faults = [fault for _, lacking in made.values() for fault in lacking]
    faults += [f"{PAGE}: it has no place for words_{it}" for it in made if f"<!-- words_{it} -->" not in page]
    text = BLOCK.sub(lambda it: it[1] + made[it[2]][0] + it[4], page)
    if words == ["--write"]:
        with open(os.path.join(TOP, PAGE), "w", encoding="utf-8") as file:
            file.write(text)
    elif text != page:
        faults.append(f"{PAGE} has other words than the definitions: run tools/dev/definition_words.py --write")
    print("\n".join(faults) or f"{PAGE}: {len(made)} tables with the definitions' own words")
    return int(bool(faults))


if __name__ == "__main__":
    sys.exit(main(sys.argv[1:]))
