"""The functions of a crate with their clauses, as tests/checks/pages and tests/checks/contracts look them up."""
import glob
import re

from support import TOP, text_of


class Crate:
    """The functions of a crate: for each its name, its file, its impl, and its clauses in their order."""

    def __init__(self, name):
        self.functions = []
        self.specs = "\n".join(map(text_of, glob.glob(f"{TOP}/crates/{name}/specs/**/*.antt", recursive=True))) + "\n"
        self.words = set(re.findall(r"\w+", self.specs))
        for path in sorted(glob.glob(f"{TOP}/crates/{name}/src/**/*.rt", recursive=True)):
            self.read(path)

    def read(self, path):
        impl, now = "", None
        for line in text_of(path).splitlines():
            self.words |= set(re.findall(r"\w+", line))
            bare = line.split("//")[0]
            if found := re.match(r"impl(?:<[^>]*>)? (?:[\w:<>',;\[\] ]+ for )?(\w+)", bare):
                impl = found[1]
            elif re.match(r"(pub )?trait (\w+)", bare):
                impl = re.match(r"(?:pub )?trait (\w+)", bare)[1]
            elif bare.startswith("}"):
                impl = ""
            elif found := re.match(r"\s*(?:pub(?:\(crate\))? )?(?:const )?fn (\w+)", bare):
                now = {"name": found[1], "impl": impl, "path": path, "clauses": {}}
                self.functions.append(now)
            elif (found := re.match(r"\s*ensures (?:(\w+) )?\{(?: (\w+))?", bare)) and now:
                # the one clause of a function may be a record, whose fields are named then
                now["clauses"] |= dict.fromkeys([found[1]] if found[1] else self.fields(found[2]))

    def fields(self, name):
        """The fields of a record of the crate's specs/, in order; none of anything else."""
        found = re.search(rf"(?ms)^pub record {name} .*?^$", self.specs) if name else None
        return re.findall(r"(?m)^  pub (\w+) :", found[0]) if found else []

    def all_fields(self):
        """The fields of all records of the crate's specs/."""
        return set(re.findall(r"(?m)^  pub (\w+) :", self.specs))

    def find(self, label):
        """The functions that a label `name` or `Type::name` may mean; of several that with most clauses."""
        impl, _, name = label.rpartition("::")
        found = [f for f in self.functions if f["name"] == name and impl in ("", f["impl"])]
        return max(found, key=lambda f: len(f["clauses"])) if found else None
