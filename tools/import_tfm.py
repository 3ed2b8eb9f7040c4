#!/usr/bin/env python3
"""Makes a system file and JSON manifests from TF-M manifest lists and the YAML manifests that they name.

    python3 tools/import_tfm.py tfm_manifest_list.yaml --header config_tfm.h --out tfm --compile

Then `ffm compile tfm/system.json` lists the same system again; without --compile no program is run.
All that is dropped or changed is told, a line each, with the file and the line where it stands. Sizes may be symbols:
--define gives the value of one, --header takes those of a C header. A partition of the list whose `conditional` is
defined as OFF, 0, n or false is left out. MMIO regions that --region doesn't name get 4 KiB each from 0x40000000 on.
A file that ends in .json is read as JSON; every other one needs the Python package PyYAML. The status is 1 where a
symbol isn't known, and then nothing is written, and 2 where a file can't be read. With --compile it is that of ffm, or 2
where no ffm is found."""

import argparse
import json
import os
import pathlib
import re
import sys
from dataclasses import dataclass, field

from c_symbols import NoNumber, defines_in, number_of
from ffm_program import NoProgram, program, run

USED_OF_LISTS = {"manifest_list", "manifest", "conditional", "pid"}
OF_1_1 = {"model", "entry_init", "connection_based", "stateless_handle", "mm_iovec", "handling"}
OFF = ("OFF", "0", "N", "FALSE", "NO")
FIRST_REGION, REGION_SIZE = 0x40000000, 0x1000
STATELESS_HANDLE = 0x40000000


class NotRead(Exception):
    """A file that can't be read, as it is told."""


@dataclass
class Sheet:
    """A file that was read. `lines` has the line of each place; none where the file is JSON."""
    path: pathlib.Path
    tree: object
    lines: dict = field(default_factory=dict)

    def at(self, place):
        line = self.lines.get(place)
        return f"{self.path}:{line}" if line else str(self.path)


# Files


def placed_lines(node, place=()):
    """The place of each value below a node of YAML, with the line where it begins."""
    yield place, node.start_mark.line + 1
    if node.id == "mapping":
        for key, value in node.value:
            yield from placed_lines(value, (*place, key.value))
    elif node.id == "sequence":
        for step, value in enumerate(node.value):
            yield from placed_lines(value, (*place, step))


def read_yaml(path, text):
    try:
        import yaml
    except ImportError as error:
        told = f"{path}: YAML is read with the Python package PyYAML, which isn't here: pip install pyyaml"
        raise NotRead(told) from error
    try:
        loader = yaml.SafeLoader(text.expandtabs())
        node = loader.get_single_node()
        return Sheet(path, loader.construct_document(node), dict(placed_lines(node))) if node is not None else Sheet(path, None)
    except yaml.YAMLError as error:
        raise NotRead(f"{path}: no YAML: {' '.join(str(error).split())}") from error


def text_of(path):
    try:
        return path.read_text(encoding="utf-8", errors="replace")
    except OSError as error:
        raise NotRead(f"{path}: {error.strerror}") from error


def read(path):
    text = text_of(path)
    try:
        sheet = Sheet(path, json.loads(text)) if path.suffix == ".json" else read_yaml(path, text)
    except ValueError as error:
        raise NotRead(f"{path}: no JSON: {error}") from error
    if not isinstance(sheet.tree, dict):
        raise NotRead(f"{path}: holds no attributes")
    return sheet


# Manifests


def objects(tree, name):
    """The objects of a list that is an attribute."""
    value = tree.get(name)
    return [item for item in value if isinstance(item, dict)] if isinstance(value, list) else []


class Import:
    """The symbols and regions that are known, what was told, and what is missing."""

    def __init__(self, symbols, regions):
        self.symbols, self.regions = symbols, regions
        self.told, self.missing = [], []

    def tell(self, sheet, place, text):
        self.told.append(f"{sheet.at(place)}: {text}")

    def number(self, sheet, place, value):
        """The number as ffm reads it; a symbol's value in hexadecimal digits."""
        if isinstance(value, int) or re.fullmatch("0x[0-9A-Fa-f]{1,8}", str(value)):
            return value
        try:
            result = number_of(str(value), self.symbols)
        except NoNumber as error:
            self.missing.append(f"{sheet.at(place)}: {place[-1]}: {error}; --define NAME=VALUE and --header FILE define symbols")
            return value
        for name in re.findall(r"[A-Za-z_]\w*", str(value)):
            if len(self.symbols.get(name, ())) > 1:
                texts = " and as ".join(self.symbols[name])
                self.tell(sheet, place, f"{name} is defined as {texts}: the first counts, and --define before it")
        self.tell(sheet, place, f"{place[-1]} `{value}` is {result:#x}")
        return f"{result:#x}"

    def whole(self, sheet, place, value):
        """The number as a whole number; other texts stay."""
        if not re.fullmatch("0x[0-9A-Fa-f]+|[0-9]+", str(value)) or isinstance(value, int):
            return value
        self.tell(sheet, place, f"{place[-1]} \"{value}\" is written {int(value, 0)}")
        return int(value, 0)

    def kept(self, sheet, place, value):
        return value

    def priority(self, sheet, place, value):
        if value != "LOWEST":
            return value
        self.tell(sheet, place, "priority LOWEST is LOW here; a priority changes nothing in a run")
        return "LOW"

    def model(self, sheet, place, value):
        if value in ("IPC", "SFN"):
            return value
        self.tell(sheet, place, f"model {value} is IPC here, so its script needs a loop")
        return "IPC"

    def mm_iovec(self, sheet, place, value):
        if not isinstance(value, bool):
            return value
        word = "enable" if value else "disable"
        self.tell(sheet, place, f"mm_iovec {str(value).lower()} is \"{word}\"")
        return word

    def items(self, table):
        """The reader of a list of objects with such attributes."""
        def read_items(sheet, place, value):
            if not isinstance(value, list):
                return value
            return [self.attributes(sheet, (*place, k), item, table) for k, item in enumerate(value)]
        return read_items

    def attributes(self, sheet, place, tree, table):
        """The attributes of the table, each as ffm reads it. All others are dropped."""
        if not isinstance(tree, dict):
            return tree
        result = {}
        for name, value in tree.items():
            if name not in table:
                where = " in a manifest of 1.0" if name in OF_1_1 else ""
                self.tell(sheet, (*place, name), f"{name} is dropped: ffm has no such attribute{where}")
            elif value is None:
                self.tell(sheet, (*place, name), f"{name} is dropped: it has no value")
            else:
                result[name] = table[name](sheet, (*place, name), value)
        return result

    def tables(self, later):
        """The attributes of a manifest, of 1.1 or of 1.0."""
        service = {
            "name": self.kept, "description": self.kept, "sid": self.number, "non_secure_clients": self.kept,
            "version": self.whole, "version_policy": self.kept,
        }
        irq = {"source": self.whole, "description": self.kept}
        region = {"name": self.kept, "base": self.number, "size": self.number, "permission": self.kept}
        manifest = {
            "psa_framework_version": self.kept, "name": self.kept, "description": self.kept, "type": self.kept,
            "priority": self.priority, "entry_point": self.kept, "stack_size": self.number, "heap_size": self.number,
            "dependencies": self.kept, "weak_dependencies": self.kept, "mmio_regions": self.items(region),
        }
        if later:
            service |= {"connection_based": self.kept, "stateless_handle": self.whole, "mm_iovec": self.mm_iovec}
            irq |= {"name": self.kept, "handling": self.kept}
            manifest |= {"model": self.model, "entry_init": self.kept}
        else:
            irq |= {"signal": self.kept}
        return manifest | {"services": self.items(service), "irqs": self.items(irq)}

    def manifest(self, sheet):
        """The manifest of a file, as ffm reads it by itself."""
        later = str(sheet.tree.get("psa_framework_version")) == "1.1"
        result = self.attributes(sheet, (), sheet.tree, self.tables(later))
        if result.get("model") == "SFN" and result.get("irqs"):
            self.tell(sheet, ("irqs",), "irqs is dropped: an SFN partition has no interrupts here; write the model IPC for them")
            del result["irqs"]
        if result.get("model") != "SFN" and "entry_point" not in result and "entry_init" in result:
            self.tell(sheet, ("entry_init",), "entry_init stands for the entry_point that is missing")
            result["entry_point"] = result["entry_init"]
        for k, service in enumerate(objects(result, "services")):
            self.stateless(sheet, ("services", k), service)
        self.place_regions(sheet, result)
        return result

    def stateless(self, sheet, place, service):
        """Tells the handle of a stateless service; a connection-based one has none."""
        stated = service.get("stateless_handle")
        if stated is not None and service.get("connection_based", True):
            self.tell(sheet, (*place, "stateless_handle"), "stateless_handle is dropped: clients connect to the service")
            del service["stateless_handle"]
        elif isinstance(stated, int):
            told = f"{service.get('name')} is called by {STATELESS_HANDLE + stated:#010x} in scripts, which has no version in it as the C constant has"
            self.tell(sheet, (*place, "stateless_handle"), told)

    def place_regions(self, sheet, manifest):
        """Each MMIO region of a name has a base and a size."""
        for k, item in enumerate(objects(manifest, "mmio_regions")):
            name = item.get("name")
            if name is not None and name not in self.regions:
                base = self.free_base()
                self.regions[name] = (base, REGION_SIZE)
                told = f"region {name} is placed at {base:#010x} with 4 KiB: --region {name}=BASE,SIZE says another"
                self.tell(sheet, ("mmio_regions", k, "name"), told)

    def free_base(self):
        """Where a region overlaps none that is placed."""
        base = FIRST_REGION
        while any(at < base + REGION_SIZE and base < at + size for at, size in self.regions.values()):
            base += REGION_SIZE
        return base

    def depend(self, sheets, manifests):
        """Dependencies name services that are there; a weak one that is there becomes one."""
        there = {service.get("name") for manifest in manifests for service in objects(manifest, "services")}
        for sheet, manifest in zip(sheets, manifests):
            wanted = manifest.get("dependencies", [])
            for name in [name for name in wanted if name not in there]:
                self.tell(sheet, ("dependencies",), f"dependency {name} is dropped: no partition of the set has this service")
            wanted = [name for name in wanted if name in there]
            for name in manifest.pop("weak_dependencies", []):
                is_new = name in there and name not in wanted
                self.tell(sheet, ("weak_dependencies",), f"weak dependency {name} " + ("is a dependency here" if is_new else "is dropped"))
                wanted += [name] if is_new else []
            if wanted:
                manifest["dependencies"] = wanted
            else:
                manifest.pop("dependencies", None)

    def is_wanted(self, sheet, place, item):
        """Whether the partition of an item of a list is built."""
        name = str(item.get("conditional", ""))
        if name in self.symbols and self.symbols[name][0].upper() in OFF:
            self.tell(sheet, (*place, "conditional"), f"{item.get('manifest')} is left out: {name} is {self.symbols[name][0]}")
            return False
        if name and name not in self.symbols:
            self.tell(sheet, (*place, "conditional"), f"{item.get('manifest')} is taken: {name} isn't defined")
        return True

    def file_of(self, sheet, item):
        """The manifest file of an item, with the variables of its name replaced."""
        def value(found):
            return self.symbols.get(found[1], [os.environ.get(found[1], found[0])])[0]
        return sheet.path.parent / re.sub(r"\$\{?(\w+)\}?", value, str(item["manifest"]))

    def partitions(self, lists):
        """The files of all partitions that are built, in the order of their IDs, with the items of the lists."""
        for sheet in lists:
            items = objects(sheet.tree, "manifest_list")
            if not items or any("manifest" not in item for item in items):
                raise NotRead(f"{sheet.path}: has no manifest_list whose items each name a manifest")
            unused = sorted({name for item in [sheet.tree, *items] for name in item} - USED_OF_LISTS)
            self.tell(sheet, (), f"of lists {', '.join(unused)} have no place here")
            for k, item in enumerate(items):
                if self.is_wanted(sheet, ("manifest_list", k), item):
                    yield sheet, ("manifest_list", k), item, read(self.file_of(sheet, item))


def system_of(book, lists, level, clients):
    """The system file's attributes but for the manifests, and each manifest with the name of its file."""
    found = list(book.partitions(lists))
    manifests = []
    for number, (sheet, place, item, manifest) in enumerate(found, 1):
        if "pid" in item:
            name = manifest.tree.get("name")
            book.tell(sheet, (*place, "pid"), f"pid {item['pid']}: {name} has the ID {number} in traces and for notify")
        manifests.append(book.manifest(manifest))
    sheets = [manifest for _, _, _, manifest in found]
    book.depend(sheets, manifests)
    regions = [{"name": name, "base": f"{base:#010x}", "size": f"{size:#x}"} for name, (base, size) in book.regions.items()]
    system = {"isolation_level": level, "regions": regions, "clients": clients}
    names = [sheet.path.stem + ".json" for sheet in sheets]
    for name in names:
        if names.count(name) > 1 or name == "system.json":
            raise NotRead(f"{name} would be written twice: rename one of the manifests")
    return system, list(zip(names, manifests))


def write(folder, system, manifests):
    folder.mkdir(parents=True, exist_ok=True)
    named = system | {"manifests": [str(folder / name) for name, _ in manifests]}
    for name, tree in [*manifests, ("system.json", named)]:
        (folder / name).write_text(json.dumps(tree, indent=2) + "\n")


# The command line


def definition(word):
    name, sign, value = word.partition("=")
    if not sign or not re.fullmatch(r"\w+", name):
        raise argparse.ArgumentTypeError(f"{word} isn't NAME=VALUE")
    return name, value


def region(word):
    name, value = definition(word)
    try:
        base, size = (int(part, 0) for part in value.split(","))
    except ValueError as error:
        raise argparse.ArgumentTypeError(f"{word} isn't NAME=BASE,SIZE") from error
    return name, (base, size)


def symbols_of(arguments):
    """The symbols that are defined, each with its texts; those of the command line count alone."""
    symbols = {}
    for path in arguments.header:
        for name, texts in defines_in(text_of(path)).items():
            symbols.setdefault(name, []).extend(text for text in texts if text not in symbols[name])
    return symbols | {name: [value] for name, value in arguments.define}


def asked():
    parser = argparse.ArgumentParser(description=__doc__, formatter_class=argparse.RawDescriptionHelpFormatter)
    many = {"action": "append", "default": []}
    parser.add_argument("lists", nargs="+", metavar="LIST", type=pathlib.Path, help="a manifest list; IDs are given in this order")
    parser.add_argument("--out", required=True, metavar="FOLDER", type=pathlib.Path,
                        help="where system.json and the manifests go; the system file names them as seen from here")
    parser.add_argument("--define", metavar="NAME=VALUE", type=definition, help="the value of a symbol, before headers", **many)
    parser.add_argument("--header", metavar="FILE", type=pathlib.Path, help="a C header whose #define lines give values", **many)
    parser.add_argument("--region", metavar="NAME=BASE,SIZE", type=region, help="where an MMIO region lies", **many)
    parser.add_argument("--client", action="append", metavar="NAME", help="a non-secure client (NS where none is named)")
    parser.add_argument("--level", type=int, default=2, choices=(1, 2, 3), help="the isolation level (2)")
    parser.add_argument("--compile", action="store_true", help="then list what ffm makes of the system file, or its refusal")
    parser.add_argument("--ffm", metavar="PROGRAM", help="the program; else the one that ffm_program.py finds")
    return parser.parse_args()


def compile_system(arguments):
    """What ffm lists of the written system file, from where the file is named, and its status."""
    status, text = run(program(given=arguments.ffm), ["compile", arguments.out / "system.json"], None)
    print(text, end="")
    return status


def main():
    arguments = asked()
    try:
        book = Import(symbols_of(arguments), dict(arguments.region))
        system, manifests = system_of(book, [read(path) for path in arguments.lists], arguments.level, arguments.client or ["NS"])
    except NotRead as error:
        print(error, file=sys.stderr)
        sys.exit(2)
    print("\n".join(book.told))
    if book.missing:
        print("\n".join(book.missing), file=sys.stderr)
        sys.exit(1)
    write(arguments.out, system, manifests)
    print(f"wrote {arguments.out / 'system.json'} with {len(manifests)} manifests")
    if not arguments.compile:
        return
    try:
        sys.exit(compile_system(arguments))
    except NoProgram as error:
        print(error, file=sys.stderr)
        sys.exit(2)


if __name__ == "__main__":
    main()
