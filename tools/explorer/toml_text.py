"""Jobs as TOML texts."""

TURNS = 2000


def toml(value):
    """A value as TOML."""
    if isinstance(value, dict):
        return "{ " + ", ".join(f"{key} = {toml(one)}" for key, one in value.items()) + " }"
    if isinstance(value, bool):
        return "true" if value else "false"
    if isinstance(value, list):
        return "[" + ", ".join(map(toml, value)) + "]"
    return f'"{value}"' if isinstance(value, str) else str(value)


def job_text(ranks, capacity, steps):
    """The TOML text of a job. A step is its rank, its op and its keys."""
    lines = [f"ranks = {ranks}", f"capacity = {capacity}", f"turns = {TURNS}"]
    for rank, op, keys in steps:
        lines += ["[[step]]", f"rank = {rank}", f'op = "{op}"']
        lines += [f"{key} = {toml(value)}" for key, value in keys.items()]
    return "\n".join(lines) + "\n"
