"""Which traits are in scope where, and what is visible where: what names say before types are known."""
import re

from crate_items import named_by
from hir_tree import OWN, def_id, name_of

PUB_IN = re.compile(r"pub\s*\(\s*(?:in\s+)?([\w:\s]+?)\s*\)")
PUB = "pub"


class Scopes:
    """The traits that modules and functions of an Index name, by what stands in them, their `use` items and the prelude."""

    def __init__(self, index, sources, edition):
        self.index, self.sources, self.edition = index, sources, edition
        self.named = {}  # for each module the traits that it names, each with where its name is visible
        self.follow_uses()

    def visibility(self, span, module):
        """Where something with this `pub` in the source is visible: "pub", or a module."""
        text = "" if span is None else self.sources.text(span)
        if text == "pub":
            return PUB
        found = PUB_IN.fullmatch(text)
        for word in re.split(r"\s*::\s*", found.group(1)) if found else ():
            if word == "crate":
                module = self.index.paths[module.crate, ""]
            elif word == "super":
                module = self.index.modules[module] or module
            elif word != "self":
                module = self.index.paths.get((module.crate, (module.path + "::" + word).lstrip(":")), module)
        return module

    def is_visible(self, vis, module):
        """Whether what is visible there is so in a module."""
        while vis != PUB and module is not None and module != vis:
            module = self.index.modules[module]
        return vis == PUB or module is not None

    def follow_uses(self):
        """Finds the traits that each module names, until no `use` of all that a module has tells of another."""
        for module in self.index.modules:
            self.named[module] = self.written_in(module[:2], module)
        found = True
        while found:
            found = False
            for module in self.index.modules:
                for glob, vis in self.globs_of(module[:2], module):
                    for trait, at in list(self.named.get(glob, {}).items()):
                        if trait not in self.named[module] and self.is_visible(at, module):
                            self.named[module][trait] = vis
                            found = True

    def written_in(self, within, module):
        """The traits that stand in a module or another item, and those that a `use` there names."""
        found = {of.id: self.visibility(of.vis, module) for of in self.index.traits_in[within]}
        for use in self.index.uses[within]:
            kind = use.node["kind"]
            if name_of(kind[1]) == "Single":
                named = type_named(kind[0])
                if named is not None and named[0] == "Trait":
                    found.setdefault(named[1], self.visibility(use.vis, module))
        return found

    def globs_of(self, within, module):
        """The modules of which a `use` in a module or another item takes all, and where what it takes is visible."""
        for use in self.index.uses[within]:
            kind = use.node["kind"]
            if name_of(kind[1]) == "Glob":
                named = type_named(kind[0])
                if named is not None and named[0] == "Mod":
                    yield named[1], self.visibility(use.vis, module)

    def prelude(self):
        """The traits of the prelude."""
        if not self.index.has_prelude:
            return {}
        for crate in ("std", "core"):
            module = self.index.paths.get((crate, "prelude::rust_%d" % self.edition))
            if module is not None:
                return self.named[module]
        return {}

    def traits_at(self, of):
        """The traits in scope in the body of an item."""
        found, path = {}, of.id.path
        if of.within == "impl" and self.index.impls[of.outer].header is not None:
            found[named_by(self.index.impls[of.outer].header["trait_ref"]["path"])[1]] = True
        elif of.within == "trait":
            found[of.outer] = True
        while (of.id.crate, path) not in self.index.paths:
            within = (of.id.crate, path)
            if within in self.index.uses or within in self.index.traits_in:
                found.update(self.written_in(within, of.module))
                for glob, _ in self.globs_of(within, of.module):
                    found.update((trait, True) for trait, at in self.named.get(glob, {}).items()
                                 if self.is_visible(at, of.module))
            path = path.rpartition("::")[0]
        found.update(self.named[of.module])
        if of.id.crate == OWN:
            found.update(self.prelude())
        return [trait for trait in found if trait in self.index.traits]


def type_named(path):
    """The kind and the DefId of the type, trait or module that the path of a `use` names, or None."""
    res = path["res"]["type_ns"]
    if res is None or name_of(res) != "Def":
        return None
    return name_of(res[0]), def_id(res[1])
