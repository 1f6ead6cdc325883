"""What the facts of a crate say beside its items."""
import re

LIMITS = [8, 1000, 8, 10]
REPR = re.compile(r"\brepr\s*\([^)]*\b([iu](?:8|16|32|64|128|size))\b")


def head_of(sources, path, edition):
    """The facts that are of no item."""
    features = set(re.findall(r"\w+", " ".join(sources.attributes_of_file(path))))
    return {"profile": 1, "edition": edition, "never_fallback": "never_type_fallback" in features,
            "new_range": "new_range" in features, "limits": LIMITS}


def integer_repr(sources, span):
    """The integer type that the attributes before an item say that it is represented by, or None."""
    if span is not None and not span.context:
        for attribute in sources.attributes_before(span):
            found = REPR.search(attribute)
            if found:
                return found.group(1)
    return None
