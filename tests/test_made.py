"""What bindings/make makes of include/fbcheck.h is what stands in the bindings and in tests/support/header.py, and what
completions/make makes of the program's options in the completions and the manual page."""

import re
import shutil
import subprocess

from tests.support.cases import Case
from tests.support.program import TOP, folder_of, loaded

FOLDER = folder_of(__name__)
MAKE, COMPLETIONS = loaded(TOP / "bindings/make"), loaded(TOP / "completions/make")
HEADER = (TOP / MAKE.HEADER).read_text()
LAST = MAKE.Header(HEADER).enums["reason"].numbers[-1]
NEXT = LAST.value + 1

# The header with a reason more, and with a call more.
MORE_REASONS = re.sub(rf"( FBCHECK_{LAST.name} = {LAST.value})( .*\n)",
                      rf"\1,\2    FBCHECK_OUT_OF_ORDER = {NEXT} /* the keys of a vector aren't in order */\n", HEADER)
MORE_CALLS = HEADER.replace(
    "#ifdef __cplusplus\n}", "uint64_t fbcheck_bytes(const fbcheck_schema *schema, uint8_t *room, uint64_t count);\n"
    "#ifdef __cplusplus\n}")

# What can't be read, where it stands, and what is said of it.
ODD = [
    ("a union", "union fbcheck_any { int32_t whole; float real; };", "neither a number nor an enum, a struct or a"),
    ("a pointer to a function", "typedef void (*fbcheck_told)(uint32_t status);", "neither a number nor an enum"),
    ("a macro with words", "#define FBCHECK_BIT(n) (1u << (n))", "neither a number nor an enum"),
    ("a number that is worked out", "#define FBCHECK_ROOM (4 * 1024)", "no number as bindings/make can read it"),
    ("a number by another header's name", "#define FBCHECK_PLACE PATH_MAX", "PATH_MAX is no number"),
    ("an enum without numbers", "enum fbcheck_way {\n    FBCHECK_UP,\n};", "no constant of an enum"),
    ("an enum with a gap", "enum fbcheck_way {\n    FBCHECK_UP = 1, /* up */\n    FBCHECK_DOWN = 3 /* down */\n};",
     "must follow one another, from 0 or 1: FBCHECK_DOWN = 3"),
    ("a constant without a comment", "enum fbcheck_way {\n    FBCHECK_UP = 1\n};", "a constant needs a comment"),
    ("an enum that has no name there", "enum fbcheck_way {\n    FBCHECK_UP = 1 /* up */\n};", "say it in ENUMS"),
    ("bits", "typedef struct fbcheck_bits {\n    uint32_t low : 4;\n} fbcheck_bits;", "no field as bindings/make"),
    ("a pointer in a struct", "typedef struct fbcheck_bits {\n    char *low;\n} fbcheck_bits;", "no field as"),
    ("a field of another type", "typedef struct fbcheck_bits {\n    int16_t low;\n} fbcheck_bits;", "know, int16_t"),
    ("values of no struct", "#define FBCHECK_VALUES_INIT { 0, 0 }", "not the values of a struct"),
    ("too few values", "#define FBCHECK_SPAN_INIT { 0 }", "not the values of a struct"),
    ("an argument without a name", "uint32_t fbcheck_more(uint32_t);", "no argument as bindings/make"),
    ("an argument of another type", "uint32_t fbcheck_more(int16_t count);", "doesn't know, int16_t"),
    ("a struct without its address", "uint32_t fbcheck_more(fbcheck_span span);", "doesn't know, fbcheck_span"),
    ("a result of another type", "double fbcheck_more(void);", "doesn't know, double"),
]


def changed(text):
    """The files that are otherwise by another header."""
    return {name: made for name, made in MAKE.made(text).items() if made != (TOP / name).read_text()}


class Made(Case):
    def test_files(self):
        for name, text in MAKE.made(HEADER).items():
            self.holds(f"{name} is what bindings/make makes: run it", (TOP / name).read_text() == text)
            self.same(f"{name}: lines that say so", text.count(MAKE.BEGIN), 1)

    def test_as_c_has_it(self):
        """A C compiler finds the same numbers, sizes and places in the header, and calls with as many arguments."""
        header = MAKE.Header(HEADER)
        numbers = [*header.numbers.values(), *(number for enum in header.enums.values() for number in enum.numbers)]
        facts = [f"FBCHECK_{number.name} == {number.value}u" for number in numbers]
        for struct in header.structs.values():
            facts.append(f"sizeof(fbcheck_{struct.name}) == {struct.size}")
            for field in struct.fields:
                facts.append(f"offsetof(fbcheck_{struct.name}, {field.name}) == {field.at}")
                facts.append(f"sizeof(((fbcheck_{struct.name} *)0)->{field.name}) == {field.size}")
        text = '#include "fbcheck.h"\n' + "".join(f'_Static_assert({fact}, "{fact}");\n' for fact in facts)
        told = subprocess.run(["cc", "-std=c11", "-fsyntax-only", "-I", TOP / "include", "-x", "c", "-"], input=text,
                              capture_output=True, text=True)
        self.same("what the compiler says", (told.returncode, told.stderr), (0, ""))
        self.same("all constants", {f"FBCHECK_{number.name}" for number in numbers},
                  set(re.findall(r"^(?:    |#define )(FBCHECK_\w+)(?: =| [^{\\\n]+$)", HEADER, re.M)))
        calls = re.findall(r"^\w.*?(fbcheck_\w+)\(", HEADER, re.M)
        self.same("all calls", [f"fbcheck_{name}" for name in header.calls], calls)

    def test_a_reason(self):
        """One that the header gains stands where each language looks for it."""
        made = changed(MORE_REASONS)
        folder = "bindings/java/src/fbcheck"
        self.same("in all languages", made.keys(), {
            "bindings/rust/src/reason.rs", "bindings/go/codes.go", f"{folder}/Reason.java", "bindings/node/codes.js",
            "bindings/node/index.d.ts", "bindings/python/src/fbcheck/__init__.py", "tests/support/header.py",
            "docs/fbcheck.1"})
        for name, text in [
            ("bindings/rust/src/reason.rs", "    /// The keys of a vector aren't in order.\n"),
            ("bindings/rust/src/reason.rs", f"    OutOfOrder = {NEXT},\n"),
            ("bindings/rust/src/reason.rs", f"const REASONS: [Reason; {NEXT + 1}] ="),
            ("bindings/go/codes.go", f"\tOutOfOrder      Reason = {NEXT} // the keys of a vector aren't in order\n"),
            (f"{folder}/Reason.java", "    /** The keys of a vector aren't in order. */\n    OUT_OF_ORDER,\n"),
            ("bindings/node/codes.js", "'OutOfOrder'];"), ("bindings/node/index.d.ts", "| 'OutOfOrder';"),
            ("bindings/python/src/fbcheck/__init__.py", f" {LAST.name} = {LAST.value}\n    OUT_OF_ORDER = {NEXT}\n"),
            ("docs/fbcheck.1", f".TP\n.B V{NEXT} OutOfOrder\nThe keys of a vector aren't in order.\n"),
        ]:
            self.holds(f"{name} has {text.strip()}", text in made[name], made[name][:2000])

    def test_a_call(self):
        made = changed(MORE_CALLS)
        folder = "bindings/java/src/fbcheck"
        self.same("where calls are declared", made.keys(),
                  {"bindings/rust/src/calls.rs", f"{folder}/Codes.java", "tests/support/header.py"})
        for name, text in [
            ("bindings/rust/src/calls.rs",
             "    pub fn fbcheck_bytes(schema: *const Schema, room: *mut u8, count: u64) -> u64;\n"),
            (f"{folder}/Codes.java", "BYTES_WORDS = FunctionDescriptor.of(JAVA_LONG, ADDRESS, ADDRESS, JAVA_LONG);\n"),
            ("tests/support/header.py", '    (U64, "fbcheck_bytes", [ADDRESS, to(U8), U64]),\n'),
        ]:
            self.holds(f"{name} has {text.strip()}", text in made[name], made[name][-2000:])

    def test_what_it_cant_read(self):
        """It's told in words, with its line, and nothing is made."""
        at = HEADER.index("/* One step of a path. */")
        line = HEADER.count("\n", 0, at) + 1
        for name, text, want in ODD:
            try:
                MAKE.made(f"{HEADER[:at]}{text}\n{HEADER[at:]}")
                self.holds(f"{name} is refused", False, text)
            except MAKE.Unreadable as why:
                self.holds(name, want in str(why), why)
                found = re.match(rf"{MAKE.HEADER}:(\d+)?", str(why))
                self.holds(f"{name}: where", found and int(found[1] or line) - line in range(3), why)

    def test_as_it_is_run(self):
        """It prints what it writes, writes nothing twice, and leaves a file alone in which nothing is made."""
        folder = FOLDER / "made"
        for name in ["bindings/make", MAKE.HEADER, *MAKE.made(HEADER)]:
            (folder / name).parent.mkdir(parents=True, exist_ok=True)
            shutil.copy(TOP / name, folder / name)
        run = lambda: subprocess.run([folder / "bindings/make"], capture_output=True, text=True)
        told = lambda ran: (ran.returncode, ran.stdout, ran.stderr)
        self.same("nothing is new", told(run()), (0, "", ""))
        (folder / MAKE.HEADER).write_text(MORE_CALLS)
        want = "bindings/rust/src/calls.rs\nbindings/java/src/fbcheck/Codes.java\ntests/support/header.py\n"
        self.same("a call is", told(run()), (0, want, ""))
        self.same("once", told(run()), (0, "", ""))
        (folder / MAKE.HEADER).write_text(HEADER + "int16_t fbcheck_odd(void);\n")
        line = HEADER.count("\n") + 1
        why = f"make: include/fbcheck.h:{line}: a type that bindings/make doesn't know, int16_t: int16_t fbcheck_odd("
        status, out, err = told(run())
        self.same("a header that it can't read", (status, out, err[: len(why)]), (1, "", why))
        page = folder / "bindings/node/index.d.ts"
        page.write_text(page.read_text().replace(f"// {MAKE.END}\n", ""))
        (folder / MAKE.HEADER).write_text(HEADER)
        status, out, why = told(run())
        self.same("a file without its lines", (status, out), (1, ""))
        self.holds("it's told which", "bindings/node/index.d.ts: it has no part between the lines" in why, why)


class Completions(Case):
    SOURCE = (TOP / COMPLETIONS.SOURCE).read_text()

    def more(self, takes, text, letter="None"):
        """The source with an option more, `sorted`."""
        count = re.search(r"CHOICES: \[Choice<'static>; (\d+)\]", self.SOURCE)[1]
        rows = ['name: "sorted"', f"letter: {letter}", f"takes: {takes}", f'help: "{text}"']
        choice = f"    Choice {{\n{''.join(f'        {row},{chr(10)}' for row in rows)}    }},\n"
        source = self.SOURCE.replace(f"; {count}]", f"; {int(count) + 1}]")
        return source.replace('    Choice {\n        name: "files",', choice + '    Choice {\n        name: "files",')

    def test_files(self):
        for name, text in COMPLETIONS.made(self.SOURCE).items():
            self.holds(f"{name} is what completions/make makes: run it", (TOP / name).read_text() == text)

    def test_an_option(self):
        """One that the program gains is offered by both shells, and is in the manual page."""
        for letter, takes, bash, zsh, page in [
            ("None", "Takes::Nothing", " --sorted ", "'--sorted[Ask for keys]'", ".B \\-\\-sorted\nAsk for keys.\n"),
            ("Some('S')", "Takes::Nothing", " -S) word=--sorted ;;", "'(-S --sorted)'{-S,--sorted}'[Ask for keys]'",
             '.BR \\-S ", " \\-\\-sorted\nAsk for keys.\n'),
            ("None", 'Takes::Texts("KEY")', " | --sorted) ;;", "'*--sorted=[Ask for keys]:sorted:'",
             '.BI \\-\\-sorted " KEY"\nAsk for keys.\n'),
            ("None", 'Takes::Number(ValueParser::Signed(0, 9), "7")', " | --sorted) ;;",
             "'--sorted=[Ask for keys]:number [7]:'", '.BI \\-\\-sorted " N"\nAsk for keys (7).\n'),
        ]:
            made = COMPLETIONS.made(self.more(takes, "Ask for keys", letter))
            for name, want in zip(made, (bash, zsh, page)):
                self.holds(f"{name}, {takes}", want in made[name].replace("\\\n", ""), made[name])

    def test_what_it_cant_read(self):
        for name, source in [("a bracket", self.more("Takes::Nothing", "Ask for [keys]")),
                             ("an option of another form", self.more("Takes::Nothing", "Ask").replace(
                                 'name: "sorted"', "name: SORTED"))]:
            with self.assertRaises(COMPLETIONS.Unreadable, msg=name):
                COMPLETIONS.made(source)
