"""The crates of crates.txt, for the tools that build."""


def crates_of(top):
    """Each crate with all that it stands on directly, libraries of the kit too."""
    with open(f"{top}/crates.txt", encoding="utf-8") as file:
        rows = [row.partition("#")[0].partition(":") for row in file]
    return {head.split()[0]: tail.split() for head, _, tail in rows if head.strip()}


def below(crates, name):
    """The crates of the repository that a crate stands on, each behind those that it stands on itself."""
    found = []
    for low in crates[name]:
        if low in crates:
            found += [it for it in [*below(crates, low), low] if it not in found]
    return found
