#!/usr/bin/env python3
"""Checks the C header and the Rust crate against the crates that they are written from, and both examples against their recorded output.

    ./namakviz library
    python3 embed/check.py

Sizes, answers, rules, structs and functions are read from the sources in crates/; a program in C and one in Rust, made here, say
what the header and the crate have. Then the crate's tests and both examples are built and run. It needs gcc, cargo and rustc. The exit
status is 0 only if nothing differs.
"""

import re
import resource
import subprocess
import sys
from pathlib import Path
from typing import Dict, List, NamedTuple, Optional, Tuple

ROOT = Path(__file__).resolve().parent.parent
EMBED = ROOT / "embed"
LIBRARY = ROOT / "target" / "staticlib" / "libexports.a"
BUILT = ROOT / "target" / "embed"
TEXT = ROOT / "sessions" / "story-override.txt"
GCC = ["gcc", "-Wall", "-Wextra", "-Werror", f"-I{EMBED}"]

# bytes of stack that the header says a call may use
STACK = 1 << 20

WIDTHS = {"u8": 1, "u16": 2, "u32": 4, "u64": 8, "i64": 8}
C_SCALARS = {"u8": "uint8_t", "u16": "uint16_t", "u32": "uint32_t", "u64": "uint64_t", "i64": "int64_t", "usize": "size_t"}

# what is said of something, by its name
Facts = Dict[str, str]


class Type(NamedTuple):
    """A number, a struct, or an array of one of them."""

    element: str
    length: Optional[int]

    def __str__(self) -> str:
        return self.element if self.length is None else f"{self.element}[{self.length}]"


class Function(NamedTuple):
    parameters: List[str]
    result: str


class Stopped(Exception):
    """A difference, or something that could not be built, after which nothing more is checked."""


class Crates:
    """What the sources in crates/ say."""

    def __init__(self) -> None:
        tables = self.source("tables")
        sources = tables + self.source("values") + self.source("configs") + self.source("exports")
        self.sizes: Dict[str, int] = {}
        for name, value in re.findall(r"pub const (\w+): usize = ([^;]+);", tables):
            self.sizes[name] = self.number(value)
        self.wrapped = dict(re.findall(r"#\[repr\(C\)\]\n#\[derive\([^)]*\)\]\npub struct (\w+)\(pub (\w+)\);", sources))
        self.structs: Dict[str, Dict[str, Type]] = {}
        for name, body in re.findall(r"#\[repr\(C\)\]\n#\[derive\([^)]*\)\]\npub struct (\w+) \{\n(.*?)^\}", sources, re.DOTALL | re.MULTILINE):
            fields = re.findall(r"^    pub (\w+): ([^,]+),$", body, re.MULTILINE)
            self.structs[name] = {field: self.type_of(written) for field, written in fields}
        exported = re.findall(r'pub extern "C" fn (\w+)\((.*?)\) -> (\w+)', self.source("exports_c"), re.DOTALL)
        self.functions = {name: Function(types_of(parameters), result) for name, parameters, result in exported}
        self.answers = self.numbers("answers", "Answer")
        self.words = dict(re.findall(r"^## (\d+): (.*)$", (ROOT / "docs" / "ANSWERS.md").read_text("utf-8"), re.MULTILINE))
        self.rules = self.numbers("rules", "Rule")
        found = [self.sizes, self.wrapped, self.structs, self.functions, self.answers, self.words, self.rules]
        if not all(found):
            raise Stopped("crates/ is not written as it was: embed/check.py finds nothing of some kind")

    @staticmethod
    def source(crate: str) -> str:
        return (ROOT / "crates" / crate / "src" / "lib.rt").read_text("utf-8")

    def numbers(self, crate: str, enum: str) -> Dict[str, str]:
        """The names of an enum that numbers its names, each with its number."""
        body = re.search(rf"^pub enum {enum} \{{\n(.*?)^\}}", self.source(crate), re.DOTALL | re.MULTILINE)
        return dict(re.findall(r"^    (\w+) = (\d+),$", body[1], re.MULTILINE)) if body else {}

    def number(self, written: str) -> int:
        """The number that a constant or an array's length is, a sum or a product of numbers and sizes."""
        plain = re.sub(r"Program::(\w+)", lambda size: str(self.sizes[size[1]]), written)
        if not re.fullmatch(r"[0-9+*() ]+", plain):
            raise Stopped(f"crates/: {written} is no sum or product of sizes")
        return int(eval(plain))  # pylint: disable=eval-used

    def type_of(self, written: str) -> Type:
        array = re.fullmatch(r"\[(\w+); (.+)\]", written)
        element, length = (array[1], self.number(array[2])) if array else (written, None)
        return Type(plain_number(self.wrapped.get(element, element)), length)

    def extent(self, type_: Type) -> Tuple[int, int]:
        """Bytes and alignment, as C lays it out."""
        if type_.element in WIDTHS:
            size = align = WIDTHS[type_.element]
        else:
            _, size, align = self.layout(type_.element)
        return size * (1 if type_.length is None else type_.length), align

    def layout(self, name: str) -> Tuple[Dict[str, int], int, int]:
        """The fields' offsets, and the struct's bytes and alignment, as C lays it out."""
        offsets, end, widest = {}, 0, 1
        for field, type_ in self.structs[name].items():
            size, align = self.extent(type_)
            offsets[field] = rounded(end, align)
            end, widest = offsets[field] + size, max(widest, align)
        return offsets, rounded(end, widest), widest

    def facts(self) -> Facts:
        facts = {f"size {name}": str(size) for name, size in self.sizes.items()}
        facts.update({f"answer {name}": f"{number}, {self.words.get(number)}" for name, number in self.answers.items()})
        facts.update({f"rule {name}": number for name, number in self.rules.items()})
        for name, fields in self.structs.items():
            offsets, size, align = self.layout(name)
            facts[f"struct {name}"] = f"{size} bytes aligned to {align}"
            facts.update({f"field {name}.{field}": f"{type_} at {offsets[field]}" for field, type_ in fields.items()})
        return facts


def rounded(number: int, step: int) -> int:
    return -(-number // step) * step


def types_of(parameters: str) -> List[str]:
    """The types of parameters, `name: type, name: type`."""
    written = (parameter.strip() for parameter in parameters.split(","))
    return [parameter.split(": ", 1)[1] for parameter in written if parameter]


def plain_number(type_: str) -> str:
    """A number of the machine's width by its width: C has no other type for it."""
    return "u64" if type_ == "usize" else type_


def in_words(name: str) -> str:
    """NotABool: not_a_bool."""
    return re.sub(r"(?<!^)(?=[A-Z])", "_", name).lower()


def finished(command: List[str], **options: object) -> str:
    """What a command writes; where it fails, what it has to say of that."""
    try:
        done = subprocess.run(command, cwd=ROOT, stdout=subprocess.PIPE, stderr=subprocess.PIPE, text=True, check=False, **options)
    except FileNotFoundError:
        raise Stopped(f"this needs {command[0]}") from None
    if done.returncode != 0:
        raise Stopped(f"{Path(command[0]).name}: status {done.returncode}\n{done.stdout}{done.stderr}".rstrip())
    return done.stdout


def said(lines: str) -> Facts:
    return dict(line.split("\t", 1) for line in lines.splitlines())


# THE HEADER


def c_type(type_: str) -> str:
    return C_SCALARS.get(type_) or f"namakviz_{in_words(type_)}"


def c_parameters(crates: Crates, type_: str) -> List[str]:
    """A parameter's type in C: a slice is a pointer and a length."""
    lent = re.fullmatch(r"&(mut )?(?:\[(\w+)(; .+)?\]|(\w+))", type_)
    if lent is None:
        return [c_type(crates.wrapped.get(type_, type_))]
    constant = "" if lent[1] else "const "
    if lent[4]:
        return [f"{constant}{c_type(lent[4])} *"]
    if lent[3]:
        return [f"{constant}{c_type(lent[2])} (*)[{crates.number(lent[3][2:])}]"]
    return [f"{constant}{c_type(lent[2])} *", "size_t"]


def c_program(crates: Crates) -> str:
    """A program that says what the header has."""
    lines = [f'printf("size {name}\\t%d\\n", NAMAKVIZ_{name});' for name in crates.sizes]
    lines += [f'printf("answer {name}\\t%d\\n", NAMAKVIZ_{in_words(name).upper()});' for name in crates.answers]
    lines += [f'printf("rule %s\\t%d\\n", names[{number}], NAMAKVIZ_RULE_{name});' for name, number in crates.rules.items()]
    for name, fields in crates.structs.items():
        struct = c_type(name)
        lines.append(f'printf("struct {name}\\t%zu bytes aligned to %zu\\n", sizeof({struct}), _Alignof({struct}));')
        for field, type_ in fields.items():
            place = f"(({struct} *)0)->{field}"
            if type_.length is None:
                lines.append(f'printf("field {name}.{field}\\t%s at %zu\\n", TYPE({place}), offsetof({struct}, {field}));')
            else:
                lines.append(f'printf("field {name}.{field}\\t%s[%zu] at %zu\\n", TYPE({place}[0]), sizeof({place}) / sizeof({place}[0]),'
                             f' offsetof({struct}, {field}));')
    for name, function in crates.functions.items():
        parameters = ", ".join(one for type_ in function.parameters for one in c_parameters(crates, type_))
        lines.append(f'printf("function {name}\\t%s\\n", _Generic(&{name}, {c_type(function.result)} (*)({parameters}): "as exported",'
                     ' default: "otherwise"));')
    types = ", ".join([f'{C_SCALARS[width]}: "{width}"' for width in WIDTHS] + [f'{c_type(name)}: "{name}"' for name in crates.structs])
    body = "\n    ".join(lines)
    return (f'#include <stdio.h>\n#include "namakviz.h"\n#define TYPE(x) _Generic((x), {types}, default: "another type")\n'
            f"static const char *const names[] = NAMAKVIZ_RULE_NAMES;\nint main(void)\n{{\n    {body}\n    return 0;\n}}\n")


def header_facts(crates: Crates) -> Facts:
    source = BUILT / "layout.c"
    source.write_text(c_program(crates), "ascii")
    finished([*GCC, "-std=c11", str(source), str(LIBRARY), "-o", str(BUILT / "layout_c")])
    facts = said(finished([str(BUILT / "layout_c")]))
    header = (EMBED / "namakviz.h").read_text("ascii")
    for name in re.findall(r"^\w+ (namakviz_\w+)\(", header, re.MULTILINE):
        facts.setdefault(f"function {name}", "declared")
    for name, words in re.findall(r"NAMAKVIZ_(\w+) = \d+,? +/\* (.*) \*/", header):
        for answer in crates.answers:
            if in_words(answer).upper() == name:
                facts[f"answer {answer}"] += f", {words}"
    return facts


# THE CRATE


def rust_parameters(type_: str) -> List[str]:
    """A parameter's type as the crate declares it: a slice is a pointer and a length."""
    slice_ = re.fullmatch(r"&(mut )?\[(\w+)\]", type_)
    if slice_ is None:
        return [type_]
    return [f"*{slice_[1] or 'const '}{slice_[2]}", "usize"]


def rust_program(crates: Crates) -> str:
    """A program that says what the crate has."""
    lines = [f'println!("size {name}\\t{{}}", raw::Program::{name});' for name in crates.sizes]
    lines.append('println!("answer Done\\t0, done");')
    lines += [f'println!("answer {name}\\t{{}}, {{}}", Answer::{name}.number(), Answer::{name}.words());'
              for name in crates.answers if name != "Done"]
    lines += [f'println!("rule {{}}\\t{{}}", Rule::{name.title()}, Rule::{name.title()}.number());' for name in crates.rules]
    for name, fields in crates.structs.items():
        lines.append(f'println!("struct {name}\\t{{}} bytes aligned to {{}}", size_of::<raw::{name}>(), align_of::<raw::{name}>());')
        lines += [f'println!("field {name}.{field}\\t{{}} at {{}}", type_of(|s: &raw::{name}| &s.{field}),'
                  f" offset_of!(raw::{name}, {field}));" for field in fields]
    body = "\n    ".join(lines)
    return ("use namakviz::{raw, Answer, Rule};\nuse std::mem::{align_of, offset_of, size_of};\n"
            "fn type_of<S, T>(_: fn(&S) -> &T) -> &'static str {\n    std::any::type_name::<T>()\n}\n"
            f"fn main() {{\n    {body}\n}}\n")


def crate_facts(crates: Crates) -> Facts:
    source = BUILT / "layout.rs"
    source.write_text(rust_program(crates), "ascii")
    rlib = BUILT / "cargo" / "debug" / "libnamakviz.rlib"
    finished(["rustc", "--edition", "2021", str(source), "--extern", f"namakviz={rlib}", "-o", str(BUILT / "layout_rust")])
    written = finished([str(BUILT / "layout_rust")]).replace("namakviz::raw::", "")
    for wrapped, number in {**crates.wrapped, "usize": "u64"}.items():
        written = re.sub(rf"\b{wrapped}\b(?=[; ])", number, written)
    facts = said(re.sub(r"\[(\w+); (\d+)\]", r"\1[\2]", written))
    declared = re.search(r'extern "C" \{(.*?)^\}', (EMBED / "rust" / "src" / "calls.rs").read_text("ascii"), re.DOTALL | re.MULTILINE)
    for name, parameters, result in re.findall(r"fn (\w+)\((.*?)\) -> (\w+);", declared[1] if declared else "", re.DOTALL):
        exported = crates.functions.get(name, Function([], ""))
        wanted = [one for type_ in exported.parameters for one in rust_parameters(type_)]
        same = (types_of(parameters), result) == (wanted, exported.result)
        facts[f"function {name}"] = "as exported" if same else "otherwise"
    return facts


# THE WHOLE


def compare(where: str, wanted: Facts, found: Facts) -> None:
    differing = [f"{where}: {name} is {found.get(name, 'not there')}, the crates have {wanted.get(name, 'none')}"
                 for name in {**wanted, **found} if found.get(name) != wanted.get(name)]
    if differing:
        raise Stopped("\n".join(differing))


def small_stack() -> None:
    resource.setrlimit(resource.RLIMIT_STACK, (STACK, STACK))


def run_example(name: str, program: Path) -> None:
    """Its output is the recorded one, with no more stack than the header says."""
    written = finished([str(program), str(TEXT)], preexec_fn=small_stack).splitlines()
    recorded = (EMBED / "examples" / "override.out").read_text("ascii").splitlines()
    for number in range(max(len(written), len(recorded))):
        wrote, wanted = (lines[number] if number < len(lines) else "nothing" for lines in (written, recorded))
        if wrote != wanted:
            raise Stopped(f"{name}: line {number + 1} is\n  {wrote}\nembed/examples/override.out has\n  {wanted}")


def check() -> None:
    if not LIBRARY.is_file():
        raise Stopped("target/staticlib/libexports.a is not there: run './namakviz library'")
    BUILT.mkdir(parents=True, exist_ok=True)
    crates = Crates()
    wanted = crates.facts()
    wanted.update({f"function {name}": "as exported" for name in crates.functions})
    cargo = ["--offline", "--quiet", "--manifest-path", "embed/rust/Cargo.toml", "--target-dir", str(BUILT / "cargo")]
    finished(["cargo", "build", "--lib", "--examples", *cargo])
    compare("embed/namakviz.h", wanted, header_facts(crates))
    compare("embed/rust", wanted, crate_facts(crates))
    finished([*GCC, "-std=c99", "embed/examples/override.c", str(LIBRARY), "-o", str(BUILT / "override_c")])
    run_example("embed/examples/override.c", BUILT / "override_c")
    run_example("embed/examples/override.rs", BUILT / "cargo" / "debug" / "examples" / "override")
    finished(["cargo", "test", *cargo])
    print(f"embed: {len(wanted)} facts of the header and of the crate, 2 examples, the crate's tests: nothing differs")


def main() -> int:
    try:
        check()
    except Stopped as stopped:
        print(stopped)
        return 1
    return 0


if __name__ == "__main__":
    sys.exit(main())
