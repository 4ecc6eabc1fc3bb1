"""The text of a plan that the benchmarks run."""

LABELS = 80


def text(
    script: list[str],
    names: list[str],
    links: list[tuple[str, str]],
    convert: bool = True,
    wait: int = 0,
    srlgs_per_link: int = 0,
) -> bytes:
    """The plan with this script over these nodes and links, which have the numbers from 1 on.

    The nodes all convert wavelengths, or none does. Each link has so many risk groups of its own.
    """
    lines = [f"wait = {wait}", "script = [", *(f'"{line}",' for line in script), "]"]
    for number, name in enumerate(names, 1):
        lines += ["[[node]]", f'name = "{name}"', f"id = {number}", f"convert = {str(convert).lower()}"]
    for number, (one, other) in enumerate(links, 1):
        srlgs = ", ".join(str(number * srlgs_per_link + more) for more in range(srlgs_per_link))
        lines += ["[[link]]", f"id = {number}", f'ends = ["{one}", "{other}"]', f"labels = {LABELS}", f"srlg = [{srlgs}]"]
    return ("\n".join(lines) + "\n").encode()
