"""Asks cargo for the tree of a crate, with what it depends on."""
import json
import os
import re
import subprocess
import time

from facts import NoFacts, Tree, tree_of
from hir_tree import OWN
from rustc import QUIETLY
from sources import Sources

KINDS = ("lib", "rlib", "dylib", "cdylib", "staticlib", "proc-macro", "bin", "example")
LOCAL = re.compile(r"(?<=DefId\(0:)(\d+) ~ \w+(?=\[)")
PLACE = re.compile(r"(?m)^(\s*(?:\w+: )?)([^/\s][^:\n]*\.rs)(?=:\d+:\d+: \d+:\d+ \(#)")


def cargo_tree(folder, files=()):
    """The Tree of the crate in a package's folder: of that whose root is among these files, or else of its library, or else
    of its first program.

    Where cargo gives none, as where a dependency can't be had, rustc is asked alone.
    """
    package, root = package_of(folder)
    named = {os.path.realpath(file) for file in files}
    target = min((of for of in package["targets"] if of["kind"][0] in KINDS), default=None,
                 key=lambda of: (os.path.realpath(of["src_path"]) not in named, KINDS.index(of["kind"][0])))
    if target is None:
        raise NoFacts("the package in %s has no library and no program" % folder)
    kind = target["kind"][0]
    which = ["--" + kind, target["name"]] if kind in ("bin", "example") else ["--lib"]
    # An option that no earlier call had, without which cargo would not ask rustc again.
    words = ["rustc", "--quiet", "--profile=check", "--manifest-path", package["manifest_path"], *which, "--",
             "-Zunpretty=hir-tree", *QUIETLY, "--cfg=asked_%d" % time.time_ns()]
    done = cargo(words)
    path, edition = os.path.relpath(target["src_path"]), int(target["edition"])
    if not done.stdout.strip():
        tree = tree_of(path, edition)
        return tree._replace(errors="%s\n%s" % (done.stderr.strip(), tree.errors))
    return Tree(with_places(LOCAL.sub(r"\1 ~ " + OWN, done.stdout), root), path, edition, Sources(), done.stderr.strip())


def package_of(folder):
    """The package in a folder, as cargo describes it, and the folder in which cargo runs rustc."""
    manifest = os.path.join(folder, "Cargo.toml")
    done = cargo(["metadata", "--no-deps", "--format-version", "1", "--manifest-path", manifest])
    if done.returncode:
        raise NoFacts("cargo knows no package in %s:\n%s" % (folder, done.stderr.strip()))
    found = json.loads(done.stdout)
    for package in found["packages"]:
        if os.path.realpath(package["manifest_path"]) == os.path.realpath(manifest):
            return package, found["workspace_root"]
    raise NoFacts("%s is a workspace: name the folder of one of its packages" % manifest)


def cargo(words):
    """A run of cargo, which takes the options of nightly ones."""
    try:
        return subprocess.run(["cargo", *words], capture_output=True, text=True, env=dict(os.environ, RUSTC_BOOTSTRAP="1"))
    except FileNotFoundError:
        raise NoFacts("no cargo is found: install a Rust toolchain") from None


def with_places(text, root):
    """A tree with the places of files as they are seen from here, where rustc ran in another folder."""
    here = os.path.relpath(root)
    if here == os.curdir:
        return text
    return PLACE.sub(lambda found: found.group(1) + os.path.join(here, found.group(2)), text)
