#!/usr/bin/env python3
"""Holds the schemas against all examples, and against wrong files.

    python3 tools/check_schemas.py [FILE | --system FILE | --scenario FILE | --manifest FILE] ..

It needs the Python package `jsonschema`. Without files each example has to be accepted, and taken for what it is.
Each name of an attribute in it is then misspelt in its turn, each value that the schemas restrict is replaced by
a wrong one, and each such file has to be refused.

With files, from any folder, these alone are looked at, and the manifests that a system file names: as ffm does, from
the folder one stands in, or else beside the system file. A FILE without a word before it is taken for the kind whose
attributes it has most of, misspelt ones too. What is wrong is printed with the kind of the file and the place. The
status is 1 where something is wrong, and 2 where the package isn't there."""

import argparse
import copy
import difflib
import json
import os
import pathlib
import sys

from example_files import examples

TOP = pathlib.Path(__file__).resolve().parents[1]
KINDS = ("system", "scenario", "manifest")

MANIFEST = {
    "psa_framework_version": 1.0, "name": "P", "type": "PSA-ROT", "priority": "LOW", "entry_point": "p_main",
    "stack_size": 1024, "heap_size": "0x0", "mmio_regions": [{"base": "0x40000000", "size": 4, "permission": "READ-ONLY"}],
    "services": [{"name": "S", "sid": "0x40", "non_secure_clients": True, "version": 1, "version_policy": "STRICT"}],
    "dependencies": ["T"], "irqs": [{"source": 9, "signal": "I"}],
}
STATELESS = {
    "name": "T", "sid": "0x50", "non_secure_clients": False, "connection_based": False, "stateless_handle": 32, "mm_iovec": "disable",
}
LATER_MANIFEST = MANIFEST | {
    "psa_framework_version": 1.1, "name": "Q", "model": "IPC", "entry_init": "q_init", "services": [STATELESS], "dependencies": [],
    "irqs": [{"source": 10, "name": "I" * 57, "handling": "FLIH"}],
}
FUNCTIONS = {
    "psa_framework_version": "1.1", "name": "R", "type": "PSA-ROT", "priority": "LOW", "model": "SFN", "stack_size": 48, "irqs": [],
    "services": [{"name": "F", "sid": "0x60", "non_secure_clients": True, "connection_based": True, "mm_iovec": "enable"}],
}
SYSTEM = {
    "isolation_level": 1, "manifests": [MANIFEST, LATER_MANIFEST, FUNCTIONS, "r.json"], "regions": [{"name": "R", "base": 0, "size": 1}],
    "non_secure_ram": 65536, "clients": ["NS"], "connections": [{"client": "NS", "service": "S", "count": 2}],
}
SCENARIO = {
    "event_limit": 8, "scripts": [{"actor": "NS", "lines": ["end"]}, {"actor": "NS", "lines": []}], "schedule": ["device"],
    "interrupts": [9, "I", {"source": 10, "result": 1}], "memory": [{"address": 0, "bytes": "00ff"}], "restarts": 15,
}

# Each file above with its kind.
RIGHT = {
    "system": ("system", SYSTEM),
    "manifest": ("manifest", MANIFEST),
    "manifest of 1.1": ("manifest", LATER_MANIFEST),
    "manifest of functions": ("manifest", FUNCTIONS),
    "scenario": ("scenario", SCENARIO),
}

# Other values that are right at places of these files.
ALSO_RIGHT = {
    "manifest": [
        (("psa_framework_version",), ["1.0"]),
    ],
    "manifest of 1.1": [
        (("psa_framework_version",), ["1.1"]),
        (("services", 0, "stateless_handle"), ["auto", 1]),
        (("services", 0, "mm_iovec"), ["enable"]),
        (("services",), [[]]),
        (("irqs", 0, "handling"), ["SLIH"]),
        (("irqs", 0, "name"), ["I"]),
        (("irqs", 0, "source"), ["I"]),
    ],
    "manifest of functions": [
        (("stack_size",), ["0x30", "0x00000100", 4294967295]),
        (("entry_point",), ["r_main"]),
    ],
    "scenario": [
        (("interrupts", 2, "result"), [0]),
        (("interrupts", 2, "source"), ["I"]),
        (("restarts",), [0]),
    ],
}

# Values that are wrong at places of these files.
WRONG = {
    "system": [
        (("isolation_level",), [0, 4, "1", None]),
        (("manifests",), [{}, [5], [None], [MANIFEST] * 257]),
        (("manifests", 1, "psa_framework_version"), [1.0, 1.2]),
        (("regions", 0, "size"), [0, "0x0", "4", -1, 4294967296]),
        (("non_secure_ram",), [-1, "65536", "0x100\n", None]),
        (("clients",), [["device"], ["device\n"], ["N\n"], ["1N"], ["a b"], [""], ["N"] * 17]),
        (("connections", 0, "count"), [257, -1, "2"]),
    ],
    "manifest": [
        (("psa_framework_version",), [1.1, "1.1", "1.00", 1.2, "1", "1.", "1.10", None]),
        (("name",), ["", "device", "A-B", "A\n", "A" * 65, 5]),
        (("type",), ["PSA_ROT", "psa-rot"]),
        (("priority",), ["LOWEST", "low"]),
        (("stack_size",), ["0x400\n", "CRYPTO_STACK_SIZE", "1024", "0X400", "0x", "0x123456789"]),
        (("mmio_regions", 0, "permission"), ["READ_ONLY", "READ-WRITE-EXECUTE"]),
        (("services", 0, "sid"), ["40", "SID", 4294967296]),
        (("services", 0, "non_secure_clients"), ["true", 1]),
        (("services", 0, "version"), [0, "0x00", "1"]),
        (("services", 0, "version_policy"), ["strict", "LATEST"]),
        (("dependencies", 0), ["T-U", 5]),
        (("irqs", 0, "source"), [-1, "device", "I R"]),
        (("model",), ["IPC"]),
        (("entry_init",), ["p_init"]),
        (("services", 0, "connection_based"), [True, False]),
        (("services", 0, "stateless_handle"), ["auto", 1]),
        (("services", 0, "mm_iovec"), ["disable"]),
        (("irqs", 0, "name"), ["I"]),
        (("irqs", 0, "handling"), ["SLIH"]),
    ],
    "manifest of 1.1": [
        (("psa_framework_version",), [1.0, "1.0", 1.2, "1,1", None]),
        (("model",), ["SFN", "ipc", "Ipc", True, None]),
        (("services", 0, "connection_based"), [True, "false", 0, None]),
        (("services", 0, "stateless_handle"), [0, 33, -1, "1", "Auto", "0x1", "", None]),
        (("services", 0, "mm_iovec"), ["Enable", True, 1, None]),
        (("irqs", 0, "source"), [-1, "device", "I R"]),
        (("irqs", 0, "name"), ["", "device", "A-B", "A\n", "A" * 58, 5]),
        (("irqs", 0, "handling"), ["flih", "FLIH ", "IRQ", 1, None]),
        (("irqs", 0, "signal"), ["I"]),
    ],
    "manifest of functions": [
        (("psa_framework_version",), [1.0]),
        (("model",), ["IPC"]),
        (("stack_size",), [0, 47, "0x2f", "0x0000002F", "0x0", "48"]),
        (("entry_point",), ["", 5]),
        (("services",), [[], {}, None]),
        (("services", 0, "stateless_handle"), ["auto"]),
        (("irqs",), [[{"source": 10, "name": "I", "handling": "SLIH"}], [{}], None]),
    ],
    "scenario": [
        (("event_limit",), [0, 262145, "8"]),
        (("scripts", 0, "actor"), ["device", "N S", "NS\n"]),
        (("scripts", 0, "lines"), ["end", [5], ["end"] * 4097]),
        (("schedule", 0), [5, None]),
        (("interrupts", 0), [-1, "I R", [9], None]),
        (("interrupts", 2, "source"), [-1, "I R", {"source": 9}]),
        (("interrupts", 2, "result"), [2, -1, "1", True, None]),
        (("memory", 0, "address"), ["20000000", "0x20000000\n", -1]),
        (("memory", 0, "bytes"), ["0", "00\n", "0x00", "zz", "00 ff"]),
        (("restarts",), [16, -1, "1", True, None]),
    ],
}
REQUIRED = {
    "system": [("isolation_level",), ("manifests",), ("regions", 0, "base"), ("connections", 0, "client")],
    "manifest": [
        ("psa_framework_version",), ("entry_point",), ("stack_size",), ("services", 0, "sid"), ("irqs", 0, "signal"),
        ("mmio_regions", 0, "permission"), ("mmio_regions", 0, "size"),
    ],
    "manifest of 1.1": [("entry_point",), ("services", 0, "connection_based"), ("irqs", 0, "source"), ("irqs", 0, "name"), ("irqs", 0, "handling")],
    "manifest of functions": [("model",), ("services",)],
    "scenario": [("scripts", 0, "lines"), ("interrupts", 2, "source"), ("interrupts", 2, "result"), ("memory", 0, "bytes")],
}


def validators():
    """A check of each kind."""
    try:
        import jsonschema
        import referencing
    except ImportError as error:
        print(f"check_schemas.py needs the Python package jsonschema, 4.18 or later, and {error.name} isn't here: pip install jsonschema", file=sys.stderr)
        sys.exit(2)
    trees = {name: json.loads((TOP / "schemas" / f"{name}.schema.json").read_text()) for name in KINDS}
    resources = [(f"{name}.schema.json", referencing.Resource.from_contents(tree)) for name, tree in trees.items()]
    registry = referencing.Registry().with_resources(resources)
    for tree in trees.values():
        jsonschema.Draft202012Validator.check_schema(tree)
    return {name: jsonschema.Draft202012Validator(tree, registry=registry) for name, tree in trees.items()}


def whole(digits):
    """A whole number; what ffm reads as a text is one."""
    return digits if digits == "-0" or len(digits) > 19 else int(digits)


def tree_of(path):
    """The tree of a file, with a decimal as a text, as ffm reads it."""
    return json.loads(path.read_text(), parse_float=str, parse_int=whole)


def likeness(name, known):
    """How much a name is one of these: 1 where it is one, 0 where it is like none."""
    ratios = [difflib.SequenceMatcher(None, name.lower(), other).ratio() for other in known]
    return 1.0 if name in known else max((ratio for ratio in ratios if ratio > 0.75), default=0.0)


def kind_of(checks, tree):
    """The kind with most of the names; that of a file with no name of any kind is a manifest."""
    names = set(tree) if isinstance(tree, dict) else set()
    known = {kind: set(checks[kind].schema["properties"]) for kind in ("manifest", "system", "scenario")}
    return max(known, key=lambda kind: sum(likeness(name, known[kind]) for name in names))


def choices_of(error):
    """What is wrong by each of the choices that were tried."""
    choices = {}
    for e in error.context:
        choices.setdefault(e.schema_path[0], []).append(e)
    return list(choices.values())


def is_of_another_type(error):
    """Whether the value itself is of no type that is allowed."""
    if error.path or not error.context:
        return error.validator == "type" and not error.path
    return all(any(map(is_of_another_type, errors)) for errors in choices_of(error))


def inner(error):
    """What is wrong itself, where choices were tried: what is wrong by the choice of the value's type that it fits best.
    A wrong manifest is told by all that is wrong in it, and not as no name of a file."""
    fitting = [errors for errors in choices_of(error) if not any(map(is_of_another_type, errors))]
    if not fitting:
        yield error
    for e in min(fitting, key=len, default=()):
        yield from inner(e)


def types_of(error):
    """The types of which none is a value's, where that is what is wrong."""
    if error.context:
        return [name for e in error.context for name in types_of(e)]
    return [error.validator_value] if error.validator == "type" and isinstance(error.validator_value, str) else []


def meant(error):
    """For names that aren't allowed, the allowed ones that they are like."""
    known = error.schema.get("properties", {})
    unknown = [name for name in error.instance if name not in known]
    found = [(name, difflib.get_close_matches(name, known, 1, 0.75)) for name in unknown]
    return "".join(f"; for '{name}' perhaps '{like[0]}'" for name, like in found if like)


def is_of_1_0(tree, place):
    """Whether a place lies in a manifest of 1.0."""
    around = [at(tree, place[:length]) for length in range(len(place))]
    return any(isinstance(part, dict) and part.get("psa_framework_version") in (1.0, "1.0") for part in around)


def sentence(error):
    """What is wrong, with the value as JSON writes it."""
    value, given = repr(error.instance), json.dumps(error.instance)
    message = given + error.message[len(value):] if error.message.startswith(value) else error.message
    return message if len(message) < 300 else f"is not as the schema's {error.validator} asks"


def problems(validator, tree):
    found = [error for choice in validator.iter_errors(tree) for error in inner(choice)]
    of_other_types = {tuple(error.absolute_path) for error in found if types_of(error)}
    for error in sorted(found, key=lambda e: list(map(str, e.absolute_path))):
        place = "".join(f"/{step}" for step in error.absolute_path)
        message = sentence(error)
        types = types_of(error)
        if types:
            message = f"{json.dumps(error.instance)[:80]} is not of type {' or '.join(types)}"
        elif tuple(error.absolute_path) in of_other_types:
            continue
        elif error.validator in ("additionalProperties", "unevaluatedProperties"):
            message += meant(error)
        if (error.validator, error.validator_value) == ("not", {}):
            where = "in a manifest of 1.0" if is_of_1_0(tree, list(error.absolute_path)) else "here"
            message = f"isn't allowed {where}"
        yield f"{place or 'the file'}: {message}"


def at(tree, place):
    for step in place:
        tree = tree[step]
    return tree


def altered(tree, place, change):
    tree = copy.deepcopy(tree)
    change(at(tree, place[:-1]), place[-1])
    return tree


def objects(tree, place=()):
    """The places of all objects."""
    if isinstance(tree, dict):
        yield place
    for step, value in tree.items() if isinstance(tree, dict) else enumerate(tree) if isinstance(tree, list) else ():
        yield from objects(value, (*place, step))


def misspellings(name):
    middle = len(name) // 2
    yield name[:middle] + name[middle:][1:2] + name[middle:][:1] + name[middle:][2:]
    yield name[:-1]
    yield name + "s"
    yield name.replace("_", "-") if "_" in name else name.upper()


def misspelt(tree):
    """The files in which one name of an attribute is another."""
    for place in objects(tree):
        names = set(at(tree, place))
        for name in names:
            for other in set(misspellings(name)) - names - {""}:
                wrong = copy.deepcopy(tree)
                found = at(wrong, place)
                found[other] = found.pop(name)
                yield (*place, other), wrong


def with_value(tree, place, value):
    return altered(tree, place, lambda found, step: found.__setitem__(step, value))


def right_files():
    """The kind, what is changed, and the file."""
    for name, (kind, right) in RIGHT.items():
        yield kind, f"the plain {name}", right
        for place, values in ALSO_RIGHT.get(name, []):
            for value in values:
                yield kind, f"{name}: {place} is {value}", with_value(right, place, value)


def wrong_files():
    """The kind, what is wrong, and the file."""
    for name, (kind, right) in RIGHT.items():
        for place, values in WRONG[name]:
            for value in values:
                yield kind, f"{name}: {place} is {str(value)[:40]}", with_value(right, place, value)
        for place in REQUIRED[name]:
            yield kind, f"{name}: {place} isn't there", altered(right, place, lambda tree, step: tree.pop(step))
        for place, tree in misspelt(right):
            yield kind, f"{name}: {place} is no name", tree
    both = dict(MANIFEST, mmio_regions=[{"name": "R", "base": 0, "size": 1, "permission": "READ-ONLY"}])
    yield "manifest", "an MMIO region by its name and by its base", both


def files_of_examples():
    return [path for example in examples().values() for path in example.inputs()]


def check_examples(checks):
    wrong, right = [], 0
    for path in files_of_examples():
        tree = tree_of(path)
        kind = path.stem if path.stem in KINDS else "manifest"
        wrong += [f"{path}: {problem}" for problem in problems(checks[kind], tree)]
        for place, other in [((), tree), *misspelt(tree)]:
            if place and checks[kind].is_valid(other):
                wrong.append(f"{path}: accepted with the name {place}")
            if len(place) < 2 and kind_of(checks, other) != kind:
                wrong.append(f"{path}: taken for a {kind_of(checks, other)} with the name {place}")
            right += len(place) > 0
    return wrong, right


def is_file(path):
    try:
        return path.is_file()
    except (OSError, ValueError):
        return False


def named_manifests(tree, system):
    """The files of manifests that a system file names: where ffm looks for them, or else beside it."""
    named = tree.get("manifests") if isinstance(tree, dict) else None
    for name in named if isinstance(named, list) else []:
        if isinstance(name, str):
            beside = system.parent / name
            yield beside if is_file(beside) and not is_file(pathlib.Path(name)) else pathlib.Path(name)


def checked(checks, path, kind=None):
    """How many files were looked at, and what is wrong in them."""
    try:
        tree = tree_of(path)
    except OSError as error:
        return 1, [f"{path}: {error.strerror}"]
    except UnicodeEncodeError:
        return 1, [f"{path}: no name of a file"]
    except (ValueError, RecursionError) as error:
        return 1, [f"{path}: no JSON: {error}"]
    kind = kind or kind_of(checks, tree)
    count, wrong = 1, [f"{path}, a {kind}: {problem}" for problem in problems(checks[kind], tree)]
    for manifest in named_manifests(tree, path) if kind == "system" else ():
        more, problems_there = checked(checks, manifest, "manifest")
        count, wrong = count + more, wrong + [f"{path}, its manifest {problem}" for problem in problems_there]
    return count, wrong


def asked():
    """The files of the words, each with its kind where that is told."""
    parser = argparse.ArgumentParser(description=__doc__.splitlines()[0])
    files = {"dest": "files", "metavar": "FILE", "default": []}
    for kind in KINDS:
        parser.add_argument(f"--{kind}", action="append", type=lambda word, kind=kind: (pathlib.Path(word), kind), **files)
    parser.add_argument("plain", nargs="*", metavar="FILE", type=lambda word: (pathlib.Path(word), None))
    arguments = parser.parse_intermixed_args()
    return arguments.files + arguments.plain


def main():
    sys.stdout.reconfigure(errors="backslashreplace")
    files = asked()
    checks = validators()
    if files:
        results = [checked(checks, path, kind) for path, kind in files]
        wrong = [line for _, lines in results for line in lines]
        print("\n".join(wrong) if wrong else f"accepted {sum(count for count, _ in results)}")
        sys.exit(1 if wrong else 0)
    os.chdir(TOP)
    wrong = [f"{what}: {problem}" for kind, what, tree in right_files() for problem in problems(checks[kind], tree)]
    more, right = check_examples(checks)
    wrong += more
    for kind, what, tree in wrong_files():
        right += 1
        if checks[kind].is_valid(tree):
            wrong.append(f"accepted although {what}")
    print("\n".join(wrong) if wrong else f"accepted {len(files_of_examples())} files of examples, refused {right} wrong files")
    sys.exit(1 if wrong else 0)


if __name__ == "__main__":
    main()
