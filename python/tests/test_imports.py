"""Who may import whom: a folder knows itself, those before it and the modules beside the folders, which know each other alone."""
import ast
from pathlib import Path

import homerange

PACKAGE = Path(homerange.__file__).parent
FOLDERS = ("read", "ranges", "write", "commands")  # each stands on those before it
WITHOUT_PANDAS = ("read/call", "read/words", "write/evidence")  # which commands take
UPWARD = {("ranges/home", "write/output")}  # the method evidence, which hands on


def imports_of(path):
    """The modules of the package that a module imports, by their places in the package, and the others."""
    own, others = set(), set()
    for node in ast.walk(ast.parse(path.read_text("utf-8"))):
        if isinstance(node, ast.ImportFrom) and node.level:
            folder = path.parents[node.level - 1].relative_to(PACKAGE)
            names = [node.module] if node.module else [alias.name for alias in node.names]
            own |= {(folder / name.replace(".", "/")).as_posix() for name in names}
        elif isinstance(node, ast.ImportFrom):
            others.add(node.module.split(".")[0])
        elif isinstance(node, ast.Import):
            others |= {alias.name.split(".")[0] for alias in node.names}
    return own, others


def name_of(path):
    return path.relative_to(PACKAGE).with_suffix("").as_posix()


def folder_of(name):
    return name.rpartition("/")[0]


def test_each_folder_stands_on_those_before_it():
    for path in sorted(PACKAGE.rglob("*.py")):
        name = name_of(path)
        own, _ = imports_of(path)
        allowed = {"", *FOLDERS[:FOLDERS.index(folder_of(name)) + 1]} if folder_of(name) else {""}
        odd = {other for other in own if folder_of(other) not in allowed and (name, other) not in UPWARD}
        assert name == "__init__" or not odd, f"{name} imports {odd}"


def test_what_commands_take_needs_no_pandas():
    beside = [name_of(path) for path in PACKAGE.glob("*.py") if path.name != "__init__.py"]
    for name in (*beside, *WITHOUT_PANDAS):
        own, others = imports_of(PACKAGE / f"{name}.py")
        assert own <= {"__version__", *beside, *WITHOUT_PANDAS} and not others & {"pandas", "numpy"}, name
