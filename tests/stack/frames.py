"""How far the stack of each call can reach, by the machine code (x86-64).

Painting shows what a run wrote. This adds up what the functions take, whatever they write of it: of each one
the pushes, what it subtracts from the stack pointer, and what it uses below that; and then along the deepest
way of calls. The arguments that the caller puts on the stack are not in it.
"""
import re
import subprocess

LIBC = ("memset", "memcpy")
RETURN = 8


class NoSum(Exception):
    """A function calls itself, calls by an address, or sets its stack pointer in another way."""


def takes(code):
    pushed = 8 * len(re.findall(r"\tpush ", code))
    reserved = sum(int(size, 16) for size in re.findall(r"\tsub +\$0x([0-9a-f]+),%rsp", code))
    below = max((int(size, 16) for size in re.findall(r"-0x([0-9a-f]+)\(%rsp", code)), default=0)
    return pushed + reserved + below


def callees(name, code):
    inside = re.findall(r"\tcall +[0-9a-f]+ <([^+>]+)>\n(?!.*R_X86_64)", code)
    linked = re.findall(r"\tcall .*\n.*R_X86_64_PLT32\t(?:\.text\.)?(\S+)-0x4", code)
    jumped = re.findall(r"\tjmp .*\n.*R_X86_64_PLT32\t(?:\.text\.)?(\S+)-0x4", code)
    if len(inside) + len(linked) != len(re.findall(r"\tcall ", code)):
        raise NoSum(f"{name} calls by an address")
    if re.search(r"\t(?!sub |add )\w+ .*,%rsp$", code, re.MULTILINE):
        raise NoSum(f"{name} sets its stack pointer in another way")
    return set(inside + linked + jumped)


def reach(name, codes, above=()):
    if name in LIBC:
        return RETURN
    if name in above:
        raise NoSum(f"{name} calls itself")
    below = max((reach(other, codes, (*above, name)) for other in callees(name, codes[name])), default=0)
    return RETURN + takes(codes[name]) + below


def sums(archive):
    """Of each call the bytes, by its name."""
    listing = subprocess.run(["objdump", "-dr", "--no-show-raw-insn", archive],
                             check=True, capture_output=True, text=True).stdout
    parts = re.split(r"^[0-9a-f]+ <(.+)>:\n", listing, flags=re.MULTILINE)
    codes = dict(zip(parts[1::2], parts[2::2]))
    return {name: reach(name, codes) for name in codes if name.startswith("nesbrunka_")}
