"""Where the names of the .antt files come from, and which of them the .rt files cite."""
import re

CONSTRUCTORS = {"zero", "suc", "true", "false", "inl", "inr", "refl", "tt", "yes", "no", "nil", "cons", "none", "some", "[]"}
NAME = r'[^\s(){}.;,@"«»:]+'
GHOST_USE = re.compile(r"ghost\s+use\s+([^;]+);")
CRATE_PATH = re.compile(r"\b(crate|\w+)::((?:specs|proofs)(?:::" + NAME + r")*)(?:::\{([^}]*)\})?")
DOTTED_PATH = re.compile(r"Rattle(?:\." + NAME + r")+")


class Repository:
    """All files by module, the constructors of data types, and the origin of each name."""

    def __init__(self, files):
        self.files = {file.module: file for file in files}
        self.paths = {file.path: file for file in files}
        types = [(file, item) for file in files for item in file.items if item.form == "data"]
        self.owners = {f"{file.module}.{name}": item for file, item in types for names, _ in item.members for name in names}
        self.scopes = {file.path: self.scope_of(file) for file in files}

    def origin(self, module, name, depth=0):
        """The full origin of a name of a module, through `pub use`; what std passes on counts by its name alone."""
        file = self.files.get(module)
        if file:
            for local, path, there, _, public in file.imports if name not in file.names and depth < 9 else []:
                if local == name and public:
                    return self.origin(path, there, depth + 1)
        elif module.startswith("Rattle.std.") and ".declared." not in module:
            return f"std {name}"
        return f"{module}.{name}"

    def scope_of(self, file):
        """The names that a file can use, with origin and import; an operator's parts stand for it."""
        scope = {}
        for number, (local, path, there, _, _) in enumerate(file.imports):
            entry = (self.origin(path, there), number)
            for word in {local, *(part for part in local.split("◌") if part)} if "◌" in local else {local}:
                scope.setdefault(word, entry)
            scope[local] = entry
        for item in file.items:
            for word in {item.name, *item.name.split("◌")} - {""} if "◌" in item.name else {item.name}:
                scope[word] = (item.origin, None)
            if item.form == "data":
                scope.update({name: (f"{file.module}.{name}", None) for names, _ in item.members for name in names})
        return scope

    def is_constructor(self, word, scope):
        """Whether a word of a pattern is a constructor, and no variable."""
        if word not in scope:
            return word in CONSTRUCTORS
        origin = scope[word][0]
        if origin in self.owners or ".TheVariants." in origin or "◌" in origin:
            return True
        module, _, name = origin.rpartition(" " if origin.startswith("std ") else ".")
        return module not in self.files and ".specs.declared." not in module and (name in CONSTRUCTORS or name[:1].isupper())


def cited_by_source(text, crate, repository):
    """The origins that an .rt file cites by `ghost use`, by `crate::proofs::..` or by a whole path."""
    found, aliases = set(), {}
    for match in GHOST_USE.finditer(text):
        path, _, names = match.group(1).partition(".{")
        if names:
            for entry in re.split(r"[\s,]*,[\s,]*", names.rstrip("} \n\t,")):
                inner = entry.split(" as ")[0].strip().split(".")
                found.add(repository.origin(".".join([path.strip()] + inner[:-1]), inner[-1]))
        else:
            module, _, name = path.strip().partition(" as ")
            aliases[name.strip() or module.rpartition(".")[2]] = module.strip()
    for alias, module in aliases.items():
        found |= {repository.origin(module, name) for name in re.findall(re.escape(alias) + r"\.(" + NAME + ")", text)}
    for match in CRATE_PATH.finditer(text):
        start = crate if match.group(1) == "crate" else "Rattle." + match.group(1)
        names = [name.strip() for name in match.group(3).split(",")] if match.group(3) else [""]
        for path in (".".join([start] + match.group(2).split("::") + [name]).strip(".") for name in names):
            module, _, name = path.rpartition(".")
            found |= {repository.origin(module, name), *prefixes(path)}
    return found | {prefix for match in DOTTED_PATH.finditer(text) for prefix in prefixes(match.group())}


def prefixes(path):
    """A dotted path and all that it begins with."""
    parts = path.split(".")
    return {".".join(parts[:k]) for k in range(1, len(parts) + 1)}
