"""The MIR of a crate and of what it uses, as the kit keeps it with a proved library: functions, their locals, and what they call
and copy."""
import collections
import json
import subprocess
import sys

sys.setrecursionlimit(100_000)


def within(tree, head):
    """All that stands under this name, however deep."""
    if isinstance(tree, dict):
        for name, branch in tree.items():
            if name == head:
                yield branch
            yield from within(branch, head)
    elif isinstance(tree, list):
        for branch in tree:
            yield from within(branch, head)


def sort(type_):
    """What sort of type it is, and what it is made of."""
    return (type_, []) if isinstance(type_, str) else next(iter(type_.items()))


def shown(type_):
    """A type as the source has it; a place in memory that is worked out stands as `place`."""
    kind, made_of = sort(type_)
    if kind in ("Bool", "Unit", "Ptr"):
        return {"Bool": "bool", "Unit": "()", "Ptr": "place"}[kind]
    if kind == "Int":
        return f"u{made_of}"
    if kind == "Named":
        return made_of[0]["name"].split("::")[-1]
    if kind == "Array":
        return f"[{shown(made_of[0])}; {made_of[1]['Lit']}]"
    if kind == "Ref":
        return ("&mut " if made_of[1] == "Mut" else "&") + shown(made_of[2])
    if kind == "Struct" and made_of[0] == "&[]":
        _, lent, of = sort(made_of[1][0])[1]
        return f"&{'mut ' if lent == 'Mut' else ''}[{shown(of)}]"
    raise ValueError(f"a type that is not known: {type_}")


def given(type_, arguments):
    """A type with what a generic one was given in the place of its parameters."""
    if isinstance(type_, dict):
        if list(type_) == ["Param"]:
            return arguments[type_["Param"]]
        return {name: given(made_of, arguments) for name, made_of in type_.items()}
    return [given(it, arguments) for it in type_] if isinstance(type_, list) else type_


def below(folder, crate):
    """A crate and all that it stands on."""
    uses = {}
    for line in (folder / "crates.txt").read_text().splitlines():
        words, colon, used = line.split("#")[0].partition(":")
        if colon:
            uses[words.split()[0]] = used.split()
    found, ahead = [], [crate]
    while ahead:
        name = ahead.pop()
        if name in uses and name not in found:
            found.append(name)
            ahead += uses[name]
    return found


class Mir:
    def __init__(self, folder, crate):
        result = subprocess.run(["rt", "lib"], cwd=folder / "crates" / crate, stdout=subprocess.PIPE, stderr=subprocess.STDOUT, text=True)
        if result.returncode != 0:
            sys.exit(f"rt lib failed in crates/{crate}\n{result.stdout}")
        self.bodies, self.locals, self.arguments, self.types = {}, {}, {}, {}
        for name in below(folder, crate):
            kept = folder / "crates" / name / "out/rlib" / f"{name}.rlib" / "toolchain/mir.json"
            for function, made in json.loads(kept.read_text()):
                self.bodies[function] = made["body"]
                self.locals[function] = [local["ty"] for local in made["locals"]]
                self.arguments[function] = made["params"]
                self.types.update((declared["name"], declared["shape"]) for declared in made["types"])

    def calls(self, name):
        return [called for call in within(self.bodies[name], "Call") for called, _ in within(call[0], "Fn")]

    def reached(self, starts, not_followed):
        """The functions that are called from some, in the order in which they are met; some calls are not followed, and none of the
        kit's own functions."""
        met, ahead = [], list(starts)
        while ahead:
            name = ahead.pop(0)
            if name not in met:
                met.append(name)
                ahead += [it for it in self.calls(name) if (name, it) not in not_followed and it in self.bodies]
        return met

    def arrays(self, name):
        """The arrays that a function holds, by themselves or in a struct, or reads or writes as a whole: how often, by their type."""
        body = self.bodies[name]
        places = [*within(body, "Copy"), *within(body, "Move")]
        places += [assigned[0] for assigned in within(body, "Assign")]
        places += [call[2] for call in within(body, "Call")]
        types = self.locals[name] + [self._at(name, place) for place in places]
        return collections.Counter(shown(part) for type_ in types for part in self._parts(type_) if sort(part)[0] == "Array")

    def _parts(self, type_):
        """A type and those that lie in its values. What a value refers to does not lie in it."""
        yield type_
        kind, made_of = sort(type_)
        structs = []
        if kind == "Named":
            shape, members = self._declared(made_of)
            structs = [members] if shape == "Fields" else members
        elif kind == "Struct":
            structs = [made_of[1]]
        for fields in structs:
            for field in fields:
                yield from self._parts(field)

    def _declared(self, named):
        """Whether a declared type has fields or variants, and their types."""
        declared, arguments = named
        return sort(given(self.types[declared["name"]], arguments))

    def _at(self, name, place):
        """The type of what stands at a place."""
        type_, variant = self.locals[name][place["local"]], None
        for step in place["steps"]:
            kind, what = sort(step)
            if kind == "Deref":
                type_ = what
            elif kind == "Variant":
                variant = what
            elif kind == "Field":
                type_, variant = self._field(type_, variant, what), None
            else:
                raise ValueError(f"{name}: a projection that is not known: {kind}")
        return type_

    def _field(self, type_, variant, k):
        """Field k. The first of a variant is the number of the variant."""
        kind, made_of = sort(type_)
        if kind == "Struct":
            return made_of[1][k]
        members = self._declared(made_of)[1]
        if variant is None:
            return members[k]
        return members[variant][k - 1] if k > 0 else {"Int": 8}
