"""Turns the LLVM module that rattle made of a proved static library for x86-64 into one for wasm64.

`python3 retarget.py FROM.ll TO.ll`. The functions stay as they are: both targets have 64 bits, the
lower byte first, and the same alignments. What changes is what rattle itself writes for wasm64: the
names of target and processor, a wrapper of each export, and a check of the stack's end in each
function with a frame. It stops at what it doesn't know.
"""

import re
import sys
from typing import NoReturn

LAYOUT = "e-m:e-p:64:64-p10:8:8-p20:8:8-i64:64-i128:128-n32:64-S128-ni:1:10:20"
TRIPLE = "wasm64-unknown-unknown"

# The marks of each function, of the one target and of the other.
STACK = '"probe-stack"="inline-asm" "stack-probe-size"="3072"'
OLD_MARKS = f'{STACK} "target-cpu"="x86-64-v2"'
BUILTINS = '"no-builtin-bcmp" "no-builtin-memcmp" "no-builtin-strlen"'
NEW_MARKS = f'{BUILTINS} {STACK} "target-cpu"="lime1"'

# Numbers of groups of marks that no module of rattle's has.
OF_WRAPPERS, OF_RUNTIME, OF_BODIES = 900, 998, 999

EXPORT = re.compile(r"define (?!internal)(.*?)@(\w+)\((.*)\) #\d+ \{$")

# What an export answers, in the one module and in the other, where a byte fills the whole word.
# (The module doesn't tell whether a byte has a sign; no export answers one that has.)
ANSWERS = {"zeroext i1": "zeroext i1", "i8": "zeroext i8", "i32": "i32", "i64": "i64"}

# At a call after one that was cut off by a trap, memory may be half written: rattle lets none
# begin.
WRAPPER = """\
define noundef {kind} @{name}({params}) #{group} {{
start:
  %r0 = call i1 @__rattle_enter()
  br i1 %r0, label %spent, label %run
spent:
  call void @__rattle_trap()
  unreachable
run:
  %r1 = call {bare} @"rattle::export {name}"({args})
  call void @__rattle_leave()
  ret {bare} %r1
}}
"""

# A parameter put into its slot, which stands right before: one of two words, as a slice is, or
# lanes.
FILLED = re.compile(
    r"""  call void @llvm\.memset\.p0\.i64\(ptr (%r\d+), .*
(?:(?:  %r\d+ = zext i\d+ %a\d+ to i64
)?  store .* ptr \1, align \d+
  (%r\d+) = getelementptr i8, ptr \1, i64 \d+
  store .* %a\d+, ptr \2, align \d+
|  (%r\d+) = load <.*>, ptr %a\d+, .*
  store <.*> \3, ptr \1, align \d+
)"""
)

# A frame that would reach below address 16 is trapped.
CHECK = """\
  %fa.r = call ptr @llvm.frameaddress.p0(i32 0)
  %fi.r = ptrtoaddr ptr %fa.r to i64
  %fc.r = icmp slt i64 %fi.r, 16
  br i1 %fc.r, label %trap.r, label %ok.r

ok.r:"""
TRAP = """\

trap.r:
  call void @llvm.trap()
  unreachable"""

RUNTIME = f"""\
declare noundef zeroext i1 @__rattle_enter() #{OF_RUNTIME}
declare void @__rattle_leave() #{OF_RUNTIME}
declare void @__rattle_trap() #{OF_RUNTIME}
declare ptr @llvm.frameaddress.p0(i32 immarg)
attributes #{OF_RUNTIME} = {{ nounwind }}
attributes #{OF_BODIES} = {{ noinline nounwind {NEW_MARKS} }}"""


def stop(why: str) -> NoReturn:
    """Ends with what isn't known."""
    sys.exit(f"retarget: {why}")


def replaced(pattern: str, new: str, text: str) -> str:
    """The text with the one place that fits the pattern replaced."""
    text, count = re.subn(pattern, new, text)
    return text if count == 1 else stop(f"{count} places fit {pattern}")


def renamed(text: str) -> str:
    """The module under the names of the new target."""
    text = replaced(r'target datalayout = ".*"', f'target datalayout = "{LAYOUT}"', text)
    text = replaced(r'target triple = ".*"', f'target triple = "{TRIPLE}"', text)
    text = re.sub(r"^; ModuleID.*\n", "", text).replace(OLD_MARKS, NEW_MARKS)
    # Names of Rattle's functions have `::`, and may say anything.
    if "x86" in re.sub(r'"[^"]*::[^"]*"', "", text):
        stop("something of x86 is left")
    return text if " phi " not in text else stop("a block begins with phi")


def export_of(head: str, nth: int) -> tuple[str, str, str] | None:
    """The head of an export's body, its wrapper and the wrapper's marks; none of others."""
    found = EXPORT.match(head)
    if not found:
        return None
    kind, name, params = found.groups()
    kind, group = kind.replace("noundef", "").strip(), OF_WRAPPERS + nth
    if kind not in ANSWERS:
        stop(f"{name} answers {kind}")
    kind = ANSWERS[kind]
    bare, args = kind.replace("zeroext", "").strip(), params.replace("noundef ", "")
    words = {"kind": kind, "name": name, "params": params, "bare": bare, "args": args}
    body = f'define internal noundef {kind} @"rattle::export {name}"({params}) #{OF_BODIES} {{'
    marks = f'attributes #{group} = {{ nounwind {NEW_MARKS} "wasm-export-name"="{name}" }}'
    return body, WRAPPER.format(**words, group=group), marks


def guarded(function: list[str]) -> list[str]:
    """A function's lines, with the check of the stack's end after the slots of its frame, if any.

    Where the last slot is a parameter's, it is filled before.
    """
    first = next(at for at, line in enumerate(function) if line.startswith("  "))
    end = next(at for at in range(first, len(function)) if not function[at].startswith("  "))
    slots = [at for at in range(first, end) if " = alloca " in function[at]]
    if not slots:
        return function
    after = slots[-1] + 1
    if filled := FILLED.match("\n".join(function[after:])):
        after += filled[0].count("\n")
    return [*function[:after], CHECK, *function[after:-1], TRAP, function[-1]]


def retargeted(text: str) -> str:
    """The module for wasm64."""
    lines = renamed(text).splitlines()
    out, wrappers, marks = list[str](), list[str](), list[str]()
    at, first = 0, None
    while at < len(lines):
        if not lines[at].startswith("define "):
            out.append(lines[at])
            at += 1
            continue
        end = lines.index("}", at) + 1
        function = lines[at:end]
        if export := export_of(function[0], len(wrappers)):
            first = len(out) if first is None else first
            # It calls the function of that name, which has the check.
            out += [export[0], *function[1:]]
            wrappers.append(export[1])
            marks.append(export[2])
        else:
            out += guarded(function)
        at = end
    if first is None:
        stop("the module exports nothing")
    # The wrappers stand before the bodies of all exports.
    return "\n".join([*out[:first], *wrappers, *out[first:], *marks, RUNTIME]) + "\n"


if __name__ == "__main__":
    source, target = sys.argv[1:]
    with open(source, encoding="utf-8") as module:
        text = retargeted(module.read())
    with open(target, "w", encoding="utf-8") as module:
        module.write(text)
