#!/usr/bin/env python3
"""Respells the repository's own definitions and lemmas: words in snake case, facts and types in upper camel case.

usage: python3 tools/respell.py [--list]     at the top of the repository, once, after port.py; --list prints the names and writes nothing

A definition whose result is `Type 0` is a fact: `subHolds` becomes `SubHolds`. Every other word becomes snake case: `subTells` becomes `sub_tells`.
A dash in a lemma's name stays, and each part of the name is respelled as the definition that it names. Names of src/, strings, inputs and outputs
keep their spelling. What stands for a name that would fall together with another is listed below.
"""

import glob
import re
import sys

# Names that the rule would not spell well, and names that it does not reach: of records, and of a variable.
CHOSEN = {
    "decT": "dec-T",
    "thenO": "option_then",
    "Lists-round": "ListsRound",
    "Numbers-round": "NumbersRound",
    "Rows-round": "RowsRound",
    "Round-trips": "RoundTrips",
    "cutLimit": "cut_limit",
}

# Lemmas and laws of which port.py turned the dash, since a library has a word of the same spelling: they keep it, as the others do.
DASHED = """
    all_but_last all_join all_none all_of all_rest all_same all_sound and_both and_fact and_left and_right any_order as_long as_one at_all
    at_cut at_dead at_each at_low at_none at_only at_other at_reads at_rest at_same bit_inj body_is both_some both_ways both_word cell_same
    cells_fit count_same cut_at end_same eq_test filled_more first_part first_some found_first found_inside free_one from_end from_fields
    from_more from_parts from_start has_above has_one held_first held_one held_two high_bits if_none if_some in_either in_item in_left
    in_one in_right inside_both is_true item_in known_some last_of last_some left_is lent_same lines_cut list_same low_bit low_digit
    map_last named_here named_more narrowing_one no_cells no_longer no_more no_second none_from none_in none_is not_named not_none
    nothing_left of_none of_some one_free one_line one_way one_word ones_none or_cases or_left or_right others_same part_same parts_cut
    parts_whole picked_same place_end put_back read_back read_one reads_on right_is row_of rows_same running_more same_numbers same_word
    second_none set_is set_other set_past set_same set_twice single_more some_is some_or_none sub_of sub_word table_more tailed_none
    take_same taken_out then_ok three_said to_none to_some told_back told_is told_none two_digits two_said union_assoc union_left
    union_right whole_part writing_pass written_at written_back written_none zero_or
""".split()

# Names that have another meaning elsewhere, by the folder where they are respelled: constructors, and a lemma whose name a definition takes.
WITHIN = {
    "crates/words/": {
        "Empty": "no_places",
        "SA": "sure_a",
        "PA": "possible_a",
        "SB": "sure_b",
        "PB": "possible_b",
        "SC": "sure_c",
        "PC": "possible_c",
        "told_at": "over-told_sets",
    },
}

WORD = r"[^\s(){}\[\];.,«»@|λ∷\"]"
DEFINES = re.compile(r"^(\s*)(?:abbrev |unfoldable )?(?:pub )?(?:(record|data|ruleset|mod|abbrev|unfoldable)\s+)?(" + WORD + r"+)\s+(.*)$")


def antt():
    return sorted(glob.glob("crates/*/specs/**/*.antt", recursive=True) + glob.glob("crates/*/proofs/**/*.antt", recursive=True))


def signatures():
    """Each name that a file of specs/ or proofs/ declares, with its kind and its type as far as its lines go."""
    for path in antt():
        with open(path) as f:
            lines = f.read().split("\n")
        for i, line in enumerate(lines):
            found = DEFINES.match(line)
            if not found or line.lstrip().startswith(("use ", "--", "let ", "in ", "λ")):
                continue
            indent, kind, name, rest = found.groups()
            if kind in ("mod", "record", "data"):
                continue
            if not rest.startswith(":") or (indent and not re.match(r"^\s+(pub )?" + WORD + r"+ : ", line)):
                continue
            whole = rest
            for more in lines[i + 1:]:
                if not more.startswith(" ") or not whole.rstrip().endswith(("→", ":", "×", ")")) or indent:
                    break
                whole += " " + more.strip()
            yield name, bool(indent), whole.strip()


def snake(word):
    return re.sub(r"(?<=[a-z0-9])([A-Z])", lambda m: "_" + m.group(1).lower(), word)


def respelled(name, facts):
    if name in CHOSEN:
        return CHOSEN[name]
    parts = []
    for part in name.split("-"):
        if part in facts:
            part = part[0].upper() + part[1:]
        elif part and part[0].islower():
            part = snake(part)
        parts.append(part)
    return "-".join(parts)


def table():
    """What each name becomes. Empty where no definition has its old spelling any more: a second run must not turn what the first one made."""
    declared = list(signatures())
    facts = {n for n, inner, t in declared if not inner and re.search(r"(^: |→ )Type (0|\{)", t) and re.search(r"Type 0$", t) and n[0].islower() and re.search(r"[a-z0-9][A-Z]", n)}
    local = {n for more in WITHIN.values() for n in more}
    plain = {n: respelled(n, facts) for n, _, _ in declared if n not in local and respelled(n, facts) != n}
    return CHOSEN | {n: n.replace("_", "-") for n in DASHED} | plain if plain else {}


def turn(text, names, comments):
    """The text with each whole word of `names` respelled, but in strings."""
    def word(found):
        return names.get(found.group(0), found.group(0))

    out = []
    for piece in re.split(r'("(?:[^"\\\n]|\\.)*")', text) if comments else [text]:
        out.append(piece if piece.startswith('"') and comments else re.sub(WORD + "+", word, piece))
    return "".join(out)


def main(argv):
    names = table()
    if "--list" in argv:
        for old, new in sorted(names.items()):
            print(old, new)
        return 0
    if not names:
        return 0
    files = [(p, True) for p in antt() + sorted(glob.glob("crates/*/src/**/*.rt", recursive=True))]
    for path, strings in files:
        with open(path) as f:
            text = f.read()
        here = {old: new for folder, more in WITHIN.items() if path.startswith(folder) for old, new in more.items()}
        new = turn(text, names | here, strings)
        if new != text:
            with open(path, "w") as f:
                f.write(new)
    return 0


if __name__ == "__main__":
    raise SystemExit(main(sys.argv[1:]))
