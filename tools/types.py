#!/usr/bin/env python3
"""Shows the types of the functions in a Rust file (see --help, and `type_view.py` beside this)."""
if __name__ == "types":
    # Python's own library has a module of this name, and where this folder is searched first it gets this one: that one,
    # then.
    import os
    with open(os.path.join(os.path.dirname(os.__file__), "types.py"), encoding="utf-8") as own:
        exec(compile(own.read(), own.name, "exec"))
else:
    from show_types import main
    main()
