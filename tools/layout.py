"""Generated antt text, as rt fmt lays it out."""


def column(items, indent=4):
    """A list with an item to a line."""
    return ("\n" + " " * indent + "∷ ").join(items + ["[]"])


def row(items):
    """A list on one line."""
    return " ∷ ".join(items + ["[]"])
