"""The names that scripts and memory of a scenario may have in place of numbers, for the tools beside this one."""

import difflib
import re

from plain_machine import STATELESS_HANDLE, is_later, number, own_regions, read_services

NAME = re.compile(r"[A-Za-z_]\w*")
REGISTER = re.compile(r"r([0-9]|1[0-5])")
STANDARD = {
    "PSA_POLL": "0", "PSA_BLOCK": "0x80000000", "PSA_WAIT_ANY": "0xffffffff", "PSA_DOORBELL": "0x8", "PSA_NULL_HANDLE": "0",
    "PSA_VERSION_NONE": "0", "PSA_FRAMEWORK_VERSION": "0x101", "PSA_MAX_IOVEC": "4",
    "PSA_IPC_CONNECT": "-1", "PSA_IPC_DISCONNECT": "-2", "PSA_IPC_CALL": "0",
    "PSA_SUCCESS": "0", "PSA_ERROR_PROGRAMMER_ERROR": "-129", "PSA_ERROR_CONNECTION_REFUSED": "-130", "PSA_ERROR_CONNECTION_BUSY": "-131",
    "PSA_ERROR_GENERIC_ERROR": "-132", "PSA_ERROR_NOT_PERMITTED": "-133", "PSA_ERROR_NOT_SUPPORTED": "-134",
    "PSA_ERROR_INVALID_ARGUMENT": "-135", "PSA_ERROR_INVALID_HANDLE": "-136", "PSA_ERROR_BAD_STATE": "-137",
    "PSA_ERROR_BUFFER_TOO_SMALL": "-138", "PSA_ERROR_ALREADY_EXISTS": "-139", "PSA_ERROR_DOES_NOT_EXIST": "-140",
    "PSA_ERROR_INSUFFICIENT_MEMORY": "-141", "PSA_ERROR_INSUFFICIENT_STORAGE": "-142", "PSA_ERROR_INSUFFICIENT_DATA": "-143",
    "PSA_ERROR_SERVICE_FAILURE": "-144", "PSA_ERROR_COMMUNICATION_FAILURE": "-145", "PSA_ERROR_STORAGE_FAILURE": "-146",
    "PSA_ERROR_HARDWARE_FAILURE": "-147", "PSA_ERROR_INVALID_SIGNATURE": "-149",
}


class NoName(Exception):
    """A word that names nothing, as it is told."""


def signals_of(manifest):
    """The names of a partition's signals."""
    services = [item["name"] + "_SIGNAL" for item in manifest.get("services", [])]
    irqs = [item["name"] + "_SIGNAL" if is_later(manifest) else item["signal"] for item in manifest.get("irqs", [])]
    return {name: f"{1 << bit:#x}" for bit, name in enumerate(services + irqs, 4)}


def names_of_services(manifests):
    """NAME_SID and NAME_VERSION of each service, and NAME_HANDLE of a stateless one."""
    items = [item for manifest in manifests for item in manifest.get("services", [])]
    for item, service in zip(items, read_services(manifests)):
        yield item["name"] + "_SID", f"{service.sid:#x}"
        yield item["name"] + "_VERSION", str(service.version)
        if service.index:
            yield item["name"] + "_HANDLE", f"{STATELESS_HANDLE + service.index:#x}"


class Names:
    """The names of a system: in all scripts, and in those of each actor."""

    def __init__(self, tree, manifests):
        partitions, clients = [manifest["name"] for manifest in manifests], tree.get("clients", [])
        bases = [base for base, _ in own_regions(tree, manifests)]
        self.all = STANDARD | dict(names_of_services(manifests))
        self.all |= {region["name"]: f"{number(region['base']):#x}" for region in reversed(tree.get("regions", []))}
        self.all |= {f"{name}_RAM": f"{base:#x}" for name, base in zip(partitions + clients, bases)}
        self.all |= {f"{name}_ID": str(k) for k, name in enumerate(partitions, 1)}
        self.all |= {f"{name}_ID": str(-k) for k, name in enumerate(clients, 1)}
        self.own = {name: {"RAM": f"{base:#x}"} for name, base in zip(partitions + clients, bases)}
        for manifest in manifests:
            self.own[manifest["name"]] |= signals_of(manifest)
        self.services = {item["name"] for manifest in manifests for item in manifest.get("services", [])}
        self.partitions = set(partitions)

    def of(self, actor):
        return self.all | self.own.get(actor, {})

    def stands_for(self, first_word, word):
        """What a service's name alone stands for in `connect` and `version`, and a partition's in `notify`."""
        if first_word in ("connect", "version") and word in self.services:
            return word + "_SID"
        return word + "_ID" if first_word == "notify" and word in self.partitions else word


def value_of(word, names, around=()):
    """What stands for a word: a register or a number as they are written, and for a name what it names. Numbers may be
    joined by `+` and `|`."""
    parts = re.split(r"([+|])", word)
    if not any(NAME.fullmatch(part) and not REGISTER.fullmatch(part) for part in parts[::2]):
        return word
    values = [named(part, names, around) for part in parts[::2]]
    if len(values) == 1:
        return values[0]
    try:
        result = int(values[0], 0)
        for sign, value in zip(parts[1::2], values[1:]):
            result = result + int(value, 0) if sign == "+" else result | int(value, 0)
    except ValueError as error:
        raise NoName(f"`{word}` joins what is no number") from error
    return f"{result % (1 << 32):#x}"


def named(part, names, around):
    if not NAME.fullmatch(part) or REGISTER.fullmatch(part):
        return part
    if part in around:
        raise NoName(f"`{part}` stands for itself")
    if part not in names:
        like = difflib.get_close_matches(part, names, 1, 0.7)
        raise NoName(f"`{part}` is no name here" + (f"; perhaps `{like[0]}`" if like else ""))
    return value_of(str(names[part]), names, (*around, part))
