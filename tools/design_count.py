"""Counts the places that docs/DESIGN-PASS.md speaks of, point by point, in the tree that is given or in this one, and names each with -v.
Usage: python3 tools/design_count.py [-v] [TREE]"""

import collections
import glob
import os
import re
import sys

SHAPED = "PieceFault|BodyFault|Reading|Writing|Found|Turn|Swept"
NONES = "indicator|decimal|value_end|format_at|tag_end|piece_end|end_of_06|element_end|field_end|behind_last|sweep_value|given_up"
NONES += "|compose|lay_out|put_mark|put_marks|row_from|row_there|no_row|byte_at|digit_at|find|nowhere"
TWINS = "print_one|print_two|print_three|print_five|put_number|put_all|segment_03|segment_04|wide|widened|offset_of|refusal|refused"
TWINS += "|refused_for|raised_at|raised_by|read_many|read_full|sweep_pieces|sweep_fields|tally_few|put_each|put_numbers|within|copy_row"
TWINS += "|put_row|put_note|first_fault|pieces_hold|in_limits|field_holds|field_reason"
HAND = "wide|widened|offset_of|narrow|number_of|write_number_of|worth|digit|kind_of|put_number|put_all|decimal"


def lines(tree):
    for path in sorted(glob.glob(f"{tree}/crates/*/src/**/*.rt", recursive=True)):
        with open(path, encoding="utf-8") as file:
            for number, line in enumerate(file, 1):
                yield f"{os.path.relpath(path, tree)}:{number}", line.split("//")[0].rstrip()


def found(tree, pattern):
    rule = re.compile(pattern)
    return [f"{at}: {line.strip()}" for at, line in lines(tree) if rule.search(line)]


def contracts(tree):
    """The facts of `requires` that stand in three contracts or more, and the functions with five parameters or more."""
    facts, wide = collections.Counter(), []
    for path in sorted(glob.glob(f"{tree}/crates/*/src/**/*.rt", recursive=True)):
        with open(path, encoding="utf-8") as file:
            text = file.read()
        for clause in re.findall(r"requires (?:\w+ )?\{ (.*) \}", text):
            facts.update(fact.strip("() ") for fact in clause.split(" × "))
        for name, given in re.findall(r"fn (\w+)(?:<[^>]*>)?\(([^)]*)\)", text):
            if len([word for word in given.split(",") if word.strip()]) > 4:
                wide.append(f"{os.path.relpath(path, tree)}: {name}")
    often = [f"{count} times: {fact}" for fact, count in facts.most_common() if count > 2]
    return often, wide


def counted(tree):
    number = r"(usize|u8|u16|u32|Passed|Given|Marks|Stretch)"
    often, wide = contracts(tree)
    yield "1 enums of the shape of Option or Result", found(tree, rf"\benum ({SHAPED})\b")
    yield "1 numbers for none", found(tree, rf"\bfn ({NONES})\b.*-> {number}$")
    yield "1 versions as numbers", found(tree, r"\b(row|version): usize\b.*-> (Limit|bool|Reason)$")
    yield "1 numbers of refusals and kinds, arm by arm", found(tree, r"\b(Reason|Stage)::\w+ => \d+,$")
    yield "2 twins", found(tree, rf"\bfn ({TWINS})\b")
    yield "3 while and loop", found(tree, r"^\s*(while|loop)\b")
    yield "3 for over a range", found(tree, r"^\s*for \w+ in .*\.\.")
    yield "4 casts", found(tree, r"\bas (u8|u16|u32|u64|usize)\b")
    yield "4 conversions and printing by hand", found(tree, rf"\bfn ({HAND})\(")
    yield "5 facts in three contracts or more", often
    yield "5 functions with five parameters or more", wide
    yield "6 buffers with an index or a length beside them", found(tree, r"out: &mut \[u8\]|notes: &mut \[u16\]|count: usize,$|bytes: \[u8")
    yield "7 switches on which step to run", found(tree, r"\bTrial\b")


def main():
    words = [word for word in sys.argv[1:] if word != "-v"]
    for name, places in counted(words[0] if words else os.path.dirname(os.path.dirname(os.path.abspath(__file__)))):
        print(f"{len(places):4} {name}")
        if "-v" in sys.argv[1:]:
            print("".join(f"       {place}\n" for place in places), end="")


main()
