"""What the tests that read the crates' sources share."""
import re


def crates(root):
    """The crates of crates.txt, in its order."""
    lines = (line.split("#")[0].partition(":") for line in (root / "crates.txt").read_text().splitlines())
    return [head.split()[0] for head, colon, _ in lines if colon]


def uses(text):
    """The paths that a file's `use` items bring in, each as its parts: `use a::{b, c::d};` is a b, and a c d. Ghost imports are no code."""
    found = []

    def walk(front, rest):
        depth, start = 0, 0
        for at, sign in enumerate(rest + ","):
            depth += (sign == "{") - (sign == "}")
            if sign == "," and depth == 0:
                item = rest[start:at].strip()
                start = at + 1
                head, brace, inner = item.partition("{")
                parts = front + [part for part in head.strip().split("::") if part]
                if brace:
                    walk(parts, inner.rstrip()[:-1])
                elif item:
                    found.append(parts)

    for item in re.findall(r"^(?:pub )?use ([^;]+);", text, re.M):
        walk([], item)
    return found
