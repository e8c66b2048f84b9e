"""The machine code of the static library as scripts/event_code, scripts/reader_code and scripts/call_stack read it."""
import re
import subprocess
import sys
from pathlib import Path

HEADER = Path(__file__).resolve().parent.parent / "include" / "quic_version.h"


def limit(name):
    """A number that the header defines."""
    return int(re.search(rf"#define {name} (\d+)u", HEADER.read_text()).group(1))


def functions(library):
    """Each function's name with its instructions and relocations, as lines."""
    listing = subprocess.run(
        ["objdump", "-dr", "--no-show-raw-insn", library], check=True, capture_output=True, text=True
    ).stdout
    held, name = {}, None
    for line in listing.splitlines():
        head = re.match(r"[0-9a-f]+ <(.+)>:$", line)
        if head:
            name = head.group(1)
            held[name] = []
        elif name and line.strip():
            held[name].append(line)
    return held


def called(lines):
    """The functions that are called or jumped to, each with the number of its line; "?" where the target is not named,
    and `rep movs` or `rep stos` where an instruction copies or clears by itself."""
    for at, line in enumerate(lines):
        target = at + 1 < len(lines) and re.search(r"R_X86_64_PLT32\s+(.+?)[-+]0x[0-9a-f]+$", lines[at + 1])
        if target:
            yield at, re.sub(r"^\.text\.", "", target.group(1))
        elif re.search(r"\tcall\b", line):
            # Without a relocation it is a call of the function itself.
            itself = re.search(r"\tcall +0 <([^+>]+)>$", line)
            yield at, itself.group(1) if itself else "?"
        elif by_itself := re.search(r"\t(rep (?:movs|stos))", line):
            yield at, by_itself.group(1)


def own_stack(name, lines):
    """Bytes of stack of one function: the return address, the pushed registers, the locals. A large frame is made part by
    part, by a step for each or by one step in a loop that goes down to %r11. A register that is pushed and never popped
    makes room, too. Exits where the function gives back other than it takes."""
    text = "\n".join(lines)
    taken, given = 0, set()
    # The step of a loop is taken as often as the loop goes round, and that is all that it goes down.
    loop = r"(\tmov +%rsp,%r11\n.*\tsub +\$0x)([0-9a-f]+)(,%r11\n).*\tsub +\$0x[0-9a-f]+,%rsp\n"
    taken += sum(int(found[2], 16) for found in re.finditer(loop, text))
    for way, number in re.findall(r"\t(sub|add) +\$0x([0-9a-f]+),%rsp", re.sub(loop, "", text)):
        step = int(number, 16)
        # 128 bytes are given back by `sub` of -128.
        step = (step - (step >> 63 << 64)) * (1 if way == "sub" else -1)
        if step > 0:
            taken += step
        else:
            given.add(-step)
    pushed = re.findall(r"\tpush +(%\w+)", text)
    room = taken + 8 * len(set(pushed) - set(re.findall(r"\tpop +(%\w+)", text)))
    if given != ({room} if room else set()):
        sys.exit(f"{name} takes {room} bytes of stack for its locals and gives back {sorted(given)}")
    return 8 + 8 * len(pushed) + taken
