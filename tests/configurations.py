#!/usr/bin/env python3
"""Writes the configurations that the program `routes` is run on, and what it must write.

  configurations.py   writes data/, args and stdout of crates/program_routes

What must be written stands here beside each text, from the paper's words and not from
the program: a fault as (line, fault), an accepted text as its rows, each with the links
that SLS 0, 1, .. take in turn.
"""

from pathlib import Path

CRATE = Path(__file__).resolve().parent.parent / "crates" / "program_routes"
NODE = "node 2 2\n"
SETS = NODE + "set 0 1\nset 1 3\n"
LINKS = SETS + "link 0 0 0\nlink 1 0 1\nlink 4 1 0\n"
EIGHT = SETS + "".join(f"link {n} 0 {n}\n" for n in range(8))
DESTINATIONS = "".join(f"route {100 + n} 0 0\n" for n in range(64))

# name, text (blanks stand for tabs), faulty (line, fault) or rows {destination: links in turn, "-" for none}
CASES = [
    # "Node 2, set 0 to point 1, links 0 and 1 with SLC 0 and 1, one route, both open"
    ("paper", NODE + "set 0 1\nlink 0 0 0\nlink 1 0 1\nroute 1 0 0\n", {1: [0, 1]}),
    ("node_alone", NODE, {}),
    # the largest numbers, and 0 for the smallest
    ("largest", "node 16383 3\nset 7 16382\nlink 31 7 15\nroute 16381 7 3\n", {16381: [31]}),
    ("smallest", "node 0 0\nset 0 1\nlink 0 0 0\nroute 1 0 0\n", {1: [0]}),
    # "Links of a set stand in SLC order", whatever their numbers
    ("slc_order", SETS + "link 5 0 9\nlink 2 0 15\nlink 7 0 0\nroute 1 0 0\n", {1: [7, 5, 2]}),
    ("eight_links", EIGHT + "route 1 0 0\n", {1: [0, 1, 2, 3, 4, 5, 6, 7]}),
    # "a line a destination, ascending"
    ("ascending", LINKS + "route 9 0 0\nroute 1 0 0\nroute 3 1 0\nroute 16383 1 0\nroute 0 0 0\n",
     {0: [0, 1], 1: [0, 1], 3: [4], 9: [0, 1], 16383: [4]}),
    # "its usable route of best rank"
    ("best_rank", LINKS + "route 9 0 1\nroute 9 1 0\n", {9: [4]}),
    ("rank_without_links", NODE + "set 0 1\nset 1 3\nlink 4 1 0\nroute 9 0 0\nroute 9 1 3\n", {9: [4]}),
    # a set with no links is allowed, and its route never usable
    ("no_links", SETS + "route 9 0 0\nroute 9 1 1\n", {9: ["-"]}),
    # links may stand after the routes that use their set
    ("links_after_routes", NODE + "set 0 1\nroute 9 0 0\nlink 3 0 0\n", {9: [3]}),
    # the same SLC in different sets
    ("same_slc", LINKS + "route 9 1 0\n", {9: [4]}),
    ("sixty_four_destinations", LINKS + DESTINATIONS, {100 + n: [0, 1] for n in range(64)}),
    # "25 the first word of line 1 isn't `node`, or there is no text (line 1)"
    ("no_text", "", (1, 25)),
    ("empty_line", "\n", (1, 25)),
    ("set_first", "set 0 1\n", (1, 25)),
    ("other_word_without_end", "nodes 2 2", (1, 25)),
    ("capital_node", "NODE 2 2\n", (1, 25)),
    # "20 wrong word, field count or no LF"
    ("node_without_end", "node 2 2", (1, 20)),
    ("node_field_missing", "node 2\n", (1, 20)),
    ("node_field_too_many", "node 2 2 2\n", (1, 20)),
    ("node_word_alone", "node\n", (1, 20)),
    ("wrong_word", SETS + "links 0 0 0\n", (4, 20)),
    ("empty_line_later", NODE + "\n", (2, 20)),
    ("set_fields", NODE + "set 0\n", (2, 20)),
    ("link_fields", SETS + "link 0 0\n", (4, 20)),
    ("route_fields", SETS + "route 9 0 0 0\n", (4, 20)),
    ("last_line_without_end", SETS + "link 0 0 0", (4, 20)),
    ("count_before_number", SETS + "link x 0\n", (4, 20)),
    ("empty_field_too_many", SETS + "link 0 0 0 \n", (4, 20)),
    # "21 not a plain decimal (no leading zero) or out of range"
    ("leading_zero", "node 02 2\n", (1, 21)),
    ("two_zeros", SETS + "link 00 0 0\n", (4, 21)),
    ("sign", NODE + "set +1 1\n", (2, 21)),
    ("letter", NODE + "set a 1\n", (2, 21)),
    ("empty_field", NODE + "set  1\n", (2, 21)),
    ("code_out_of_range", "node 16384 2\n", (1, 21)),
    ("ni_out_of_range", "node 2 4\n", (1, 21)),
    ("set_out_of_range", NODE + "set 8 1\n", (2, 21)),
    ("adjacent_out_of_range", NODE + "set 0 16384\n", (2, 21)),
    ("link_out_of_range", SETS + "link 32 0 0\n", (4, 21)),
    ("slc_out_of_range", SETS + "link 0 0 16\n", (4, 21)),
    ("destination_out_of_range", SETS + "route 16384 0 0\n", (4, 21)),
    ("rank_out_of_range", SETS + "route 9 0 4\n", (4, 21)),
    ("too_long_for_the_machine", NODE + "set 0 18446744073709551617\n", (2, 21)),
    ("very_long", NODE + "set 0 " + "9" * 400 + "\n", (2, 21)),
    # all fields of a line are tested for 21 before any for 23
    ("number_before_not_given", SETS + "link 0 7 16\n", (4, 21)),
    ("number_before_repeat", LINKS + "link 0 0 99\n", (7, 21)),
    # "23 names something not given above"
    ("set_not_given", SETS + "link 0 2 0\n", (4, 23)),
    ("route_set_not_given", SETS + "route 9 2 0\n", (4, 23)),
    ("set_given_below", NODE + "link 0 0 0\nset 0 1\n", (2, 23)),
    # 23 comes before 22
    ("not_given_before_repeat", LINKS + "link 0 5 0\n", (7, 23)),
    ("not_given_before_own_code", LINKS + "route 2 5 0\n", (7, 23)),
    # "22 a repeat (node line, set number, adjacent code, link number, SLC in a set,
    # destination with the same set or rank) or our own code"
    ("second_node", NODE + "node 3 2\n", (2, 22)),
    ("set_repeated", SETS + "set 1 5\n", (4, 22)),
    ("adjacent_repeated", SETS + "set 2 1\n", (4, 22)),
    ("link_repeated", LINKS + "link 0 1 5\n", (7, 22)),
    ("slc_repeated", LINKS + "link 9 0 1\n", (7, 22)),
    ("destination_with_same_set", LINKS + "route 9 0 0\nroute 9 0 1\n", (8, 22)),
    ("destination_with_same_rank", LINKS + "route 9 0 0\nroute 9 1 0\n", (8, 22)),
    ("adjacent_our_own", NODE + "set 0 2\n", (2, 22)),
    ("destination_our_own", LINKS + "route 2 0 0\n", (7, 22)),
    # 22 comes before 24: a repeat in a full table is a repeat
    ("repeat_in_a_full_set", EIGHT + "link 0 0 9\n", (12, 22)),
    ("slc_in_a_full_set", EIGHT + "link 9 0 7\n", (12, 22)),
    ("repeat_in_a_full_table", LINKS + DESTINATIONS + "route 100 0 3\n", (71, 22)),
    # "24 table full"
    ("ninth_link", EIGHT + "link 9 0 9\n", (12, 24)),
    ("sixty_fifth_destination", LINKS + DESTINATIONS + "route 9 0 0\n", (71, 24)),
    # a route more of a destination that is there is no new destination
    ("route_in_a_full_table", LINKS + DESTINATIONS + "route 100 1 1\nroute 9 0 0\n", (72, 24)),
    # "Text too long is 24 at line 0."
    ("longest", NODE + "x" * (16384 - len(NODE)), (2, 20)),
    ("too_long", NODE + "x" * (16385 - len(NODE)), (0, 24)),
    # the first faulty line is reported
    ("two_faulty_lines", NODE + "set 0 2\nset x 1\n", (2, 22)),
]


def row(first, words):
    return "\t".join([str(first)] + [str(words[sls % len(words)]) for sls in range(16)]) + "\n"


def expected(outcome):
    if isinstance(outcome, tuple):
        return "config\t{}\t{}\n".format(*outcome)
    rows = [row(code, links) for code, links in sorted(outcome.items())]
    return row("dest", range(16)) + "".join(rows)


def main():
    data = CRATE / "data"
    data.mkdir(parents=True, exist_ok=True)
    for old in data.iterdir():
        old.unlink()
    for name, text, _ in CASES:
        (data / name).write_text(text.replace(" ", "\t"))
    (CRATE / "args").write_text("".join(name + "\n" for name, _, _ in CASES))
    (CRATE / "stdout").write_text("".join(f"file {name}\n" + expected(outcome) for name, _, outcome in CASES))


main()
