"""Sessions with the output due, worked out by hand. A space stands for a tab.

The crossing of a carrier and a box is seen in a row of one box: the sweep answers
the new carrier, and the row printed holds the new box.
"""

SESSION = [
    "map L cap", "row 256 257 257 256 257", "S 512", "S 257", "X 0", "P", "N 1", "B", "B", "B",
], [
    "S 514", "S 256", "X 256 513", "row 257 256 256 256 257", "N 512 257", "B 257", "B 512", "? 8",
]
# 16434824 is the identity; the swaps of 0 and 1, 1 and 2, 0 and 2 are 16434817, 16434768, 16434698.
WORKED = [
    SESSION,
    (["map L cap", "row 257", "S 770", "P"], ["S 771", "row 256"]),
    (["map L cap", "row 257", "S 514", "P"], ["S 514", "row 257"]),
    (["map L cap", "row 514", "S 256", "P"], ["S 257", "row 513"]),
    (["map L cap", "row 256", "S 257", "P"], ["S 256", "row 257"]),
    (["map R cap", "row 257", "S 770", "P"], ["S 771", "row 256"]),
    (["map L aff 10 3 5 7 5", "row 4", "S 2", "P", "B", "P"], ["S 9", "row 7", "B 2", "row 4"]),
    (["map L aff 10 3 5 7 5", "row", "S 4", "S 2", "X 0", "Y 0"], ["S 4", "S 2", "X 9 7", "Y 4 2"]),
    (["map R aff 10 3 5 7 5", "row 4", "S 2", "P", "B", "P"], ["S 1", "row 3", "B 2", "row 4"]),
    (["map L aff 10 3 5 7 5", "row 4", "S 2", "N 0"], ["S 9", "? 10"]),
    (["map L aff 10 3 5 7 1", "row 4", "S 2"], ["! 1 4"]),
    (["map L perm", "row 16434768", "S 16434817", "P"], ["S 16434698", "row 16434768"]),
    (["map R perm", "row 16434768", "S 16434817", "P"], ["S 16434817", "row 16434698"]),
    (["map L phase 10", "row 131076", "S 196609", "P"], ["S 196615", "row 131080"]),
    (["map R phase 10", "row 131076", "S 196609", "P"], ["S 196613", "row 131072"]),
    (["map L cap", "row 256 257 257 256 257", "S 512", "P"], ["S 514", "row 256 256 256 257 256"]),
    (["map L cap", "row 256 257 257 256 257", "S 256", "S 513", "P"],
     ["S 257", "S 513", "row 257 256 256 256 257"]),
    (["map L cap", "row 65535", "P"], ["row 65535"]),
    (["map L cap", "row 0"], ["! 2 5"]),
    (["map L cap", "row 256", "S 1286"], ["! 3 5"]),
    (["map L cap", "row" + " 256" * 1_024, "P"], ["row" + " 256" * 1_024]),
    (["map L cap", "row" + " 256" * 1_025, "P"], ["! 2 6"]),
    (["map L cap", "row"] + ["S 256"] * 257, ["S 256"] * 256 + ["? 7"]),
]


def bytes_of(lines):
    """The bytes of lines in which a space stands for a tab."""
    return "".join(line + "\n" for line in lines).replace(" ", "\t").encode()


def worked():
    """Pairs of a text and the output due."""
    return [(bytes_of(text), bytes_of(output)) for text, output in WORKED]
