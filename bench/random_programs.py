#!/usr/bin/env python3
"""Random programs of the whole language, for comparing what two ways of running them do.

  random_programs.py SEED FOLDER            writes the sources of the program of that seed, and its input, into the folder
  random_programs.py --try TP FIRST COUNT   runs `TP mean` on so many programs from a seed on, and says how they end; those that are
                                            refused are printed, since each of them shows a fault of this script or of the front end

The program of seed 7 is r7.pas, with units r7a, r7b, ..; its input is r7.in. The same seed gives the same texts. Programs of even seeds are
overlaid where they can be. They have nested routines, var parameters, records, arrays, sets, strings, LongInts, objects with virtual
methods, pointers, with, case and for; range checks are on in some units. They set what they read and guard what may fail, most of the
time, so that runs are long; where a run comes to an error or to an undefined act, it is compared up to there."""
import os
import random
import subprocess
import sys
import tempfile

INTEGERS = {"Integer": "({} mod 10000)", "Word": "(({}) and $7FFF)", "Byte": "(({}) and 255)", "ShortInt": "(({}) mod 100)", "LongInt": "({})"}
STRINGS = ("string", "string[20]", "string[5]")
WORDS = ("", "a", "Turbo", "overlay", "stub", "0123456789", "it''s", "two words")
SETS = {"BSet": "Byte", "CSet": "Char", "ESet": "Hue", "NSet": "8..15"}
HUES = ("Red", "Green", "Blue", "Grey")


class Routine:
    def __init__(self, name, params, result, far=True):
        self.name, self.params, self.result, self.far = name, params, result, far


class Writer:
    """Writes one unit or the program."""

    def __init__(self, random_, name, mark, known):
        self.random, self.name, self.mark = random_, name, mark
        self.known = list(known)  # routines that may be called
        self.globals = []  # names and types
        self.lines, self.depth = [], 0
        self.checked = random_.random() < 0.4
        self.counter = 0

    # ---- pieces

    def pick(self, *choices):
        return self.random.choice(choices)

    def chance(self, share):
        return self.random.random() < share

    def fresh(self, letter):
        self.counter += 1
        return f"{letter}{self.mark}{self.counter}"

    def say(self, text):
        self.lines.append("  " * self.depth + text)

    def of_type(self, variables, *types):
        return [name for name, ty in variables if ty in types]

    # ---- expressions

    def number(self, variables, depth=3):
        """An integer expression."""
        simple = self.of_type(variables, *INTEGERS)
        if depth <= 0 or self.chance(0.25):
            if simple and self.chance(0.7):
                return self.random.choice(simple)
            return self.pick("0", "1", "2", "7", "10", "100", "255", "256", "1000", "32767", "40000", "100000", "$7F")
        deeper = lambda: self.number(variables, depth - 1)
        kind = self.random.randrange(16)
        if kind < 5:
            return f"({deeper()} {self.pick('+', '-', '*', 'and', 'or', 'xor')} {deeper()})"
        if kind == 5:
            return f"({deeper()} {self.pick('div', 'mod')} {self.pick('3', '7', '10', '(' + deeper() + ' or 1)')})"
        if kind == 6:
            return f"({deeper()} {self.pick('shl', 'shr')} {self.random.randrange(9)})"
        if kind == 7:
            return self.pick(f"(-{deeper()})", f"(not {deeper()})", f"Abs({deeper()})", f"Ord({self.truth(variables, depth - 1)})")
        if kind == 8:
            return self.pick(f"Hi({deeper()})", f"Lo({deeper()})", f"Succ({deeper()})", f"Pred({deeper()})", f"Sqr({deeper()})")
        if kind == 9:
            return self.pick(f"Length({self.text(variables, depth - 1)})", f"Ord({self.letter(variables, depth - 1)})")
        if kind == 10:
            return f"Pos({self.text(variables, 0)}, {self.text(variables, depth - 1)})"
        if kind == 11:
            return f"LongInt({deeper()})"
        arrays = self.of_type(variables, "Row")
        if kind == 12 and arrays:
            return f"{self.random.choice(arrays)}[{self.index(variables)}]"
        records = self.of_type(variables, "Rec")
        if kind == 13 and records:
            return f"{self.random.choice(records)}.{self.pick('n', 'b')}"
        call = self.call_of(variables, "LongInt", depth)
        return call if call else f"({deeper()} + {deeper()})"

    def index(self, variables):
        return f"Ord(Odd({self.number(variables, 1)})) + {self.random.randrange(1, 5)}"

    def truth(self, variables, depth=2):
        names = self.of_type(variables, "Boolean")
        if depth <= 0:
            return self.random.choice(names) if names and self.chance(0.6) else self.pick("True", "False")
        deeper = lambda: self.truth(variables, depth - 1)
        kind = self.random.randrange(8)
        if kind < 3:
            return f"({self.number(variables, depth - 1)} {self.relation()} {self.number(variables, depth - 1)})"
        if kind == 3:
            return f"({self.text(variables, depth - 1)} {self.relation()} {self.text(variables, depth - 1)})"
        if kind == 4:
            return f"({deeper()} {self.pick('and', 'or', 'xor')} {deeper()})"
        if kind == 5:
            return self.pick(f"(not {deeper()})", f"Odd({self.number(variables, depth - 1)})")
        ty = self.pick(*SETS)
        sets = self.of_type(variables, ty)
        if sets and ty == "BSet":
            return f"(({self.number(variables, depth - 1)} and 255) in {self.random.choice(sets)})"
        if sets:
            return f"({self.random.choice(sets)} {self.pick('<=', '>=', '=', '<>')} {self.members(variables, ty)})"
        return f"({self.letter(variables, depth - 1)} {self.relation()} {self.letter(variables, 0)})"

    def relation(self):
        return self.pick("=", "<>", "<", ">", "<=", ">=")

    def letter(self, variables, depth=1):
        names = self.of_type(variables, "Char")
        kind = self.random.randrange(4)
        if depth > 0 and kind == 0:
            return f"Chr(65 + (({self.number(variables, depth - 1)}) and 15))"
        if depth > 0 and kind == 1:
            return f"UpCase({self.letter(variables, depth - 1)})"
        return self.random.choice(names) if names and kind < 3 else self.pick("'a'", "'Z'", "#33", "' '")

    def text(self, variables, depth=2):
        names = self.of_type(variables, *STRINGS)
        if depth <= 0 or self.chance(0.3):
            return self.random.choice(names) if names and self.chance(0.6) else f"'{self.pick(*WORDS)}'"
        deeper = lambda: self.text(variables, depth - 1)
        kind = self.random.randrange(5)
        if kind == 0:
            return f"({deeper()} + {self.pick(self.letter(variables), deeper())})"
        if kind == 1:
            return f"Concat({deeper()}, {deeper()}, {self.letter(variables)})"
        if kind == 2:
            return f"Copy({deeper()}, {self.random.randrange(-1, 6)}, {self.random.randrange(0, 9)})"
        call = self.call_of(variables, "string", depth)
        return call if call else deeper()

    def members(self, variables, ty):
        """A set constructor."""
        if ty == "ESet":
            items = [self.pick(*HUES) for _ in range(self.random.randrange(3))]
        elif ty == "CSet":
            items = [self.pick("'a'..'f'", "'x'", self.letter(variables, 0)) for _ in range(self.random.randrange(3))]
        elif ty == "NSet":
            items = [self.pick("8..11", "9", "15", "12..10") for _ in range(self.random.randrange(3))]
        else:
            items = [f"({self.number(variables, 1)}) and {self.pick('15', '255')}" for _ in range(self.random.randrange(3))]
        return f"[{', '.join(items)}]"

    def call_of(self, variables, result, depth):
        """A call of a function with this result, if there is one."""
        found = [it for it in self.known if it.result == result]
        if not found or depth <= 0:
            return None
        given = self.arguments(variables, self.random.choice(found), depth)
        return given

    def arguments(self, variables, routine, depth=1):
        words = []
        for by_ref, ty in routine.params:
            if by_ref:
                names = self.of_type(variables, ty)
                if not names:
                    return None
                words.append(self.random.choice(names))
            else:
                words.append(self.value(variables, ty, depth - 1))
        return routine.name + (f"({', '.join(words)})" if words else "")

    def value(self, variables, ty, depth=2):
        if ty in INTEGERS:
            text = self.number(variables, depth)
            return INTEGERS[ty].format(text) if self.chance(0.9) else text
        if ty in STRINGS:
            return self.text(variables, depth)
        if ty in SETS:
            names, more = self.of_type(variables, ty), self.members(variables, ty)
            return f"{self.random.choice(names)} {self.pick('+', '-', '*')} {more}" if names and self.chance(0.6) else more
        if ty == "Boolean":
            return self.truth(variables, depth)
        if ty == "Char":
            return self.letter(variables, depth)
        if ty == "Hue":
            names = self.of_type(variables, ty)
            return self.random.choice(names) if names and self.chance(0.4) else self.pick(*HUES)
        return self.random.choice(self.of_type(variables, ty))

    # ---- statements

    def begin_variables(self, variables):
        """Gives each variable a value."""
        for name, ty in variables:
            if ty == "Row":
                self.say(f"for i := 1 to 5 do {name}[i] := i * {self.random.randrange(1, 9)};")
                self.say("i := 0;")
            elif ty == "Rec":
                self.say(f"{name}.n := {self.random.randrange(-99, 99)}; {name}.b := {self.random.randrange(256)}; {name}.s := '{self.pick(*WORDS)}';")
            elif ty == "Shape":
                self.say(f"{name}.Init({self.random.randrange(1, 20)});")
            elif ty == "PRec":
                self.say(f"New({name}); {name}^.n := 3; {name}^.b := 1; {name}^.s := 'heap';")
            elif ty == "PShape":
                self.say(f"{name} := New(PSquare, Init({self.random.randrange(1, 9)}));")
            else:
                self.say(f"{name} := {self.value([], ty, 0)};")

    def statements(self, variables, count, depth):
        for _ in range(count):
            self.statement(variables, depth)

    def block(self, variables, depth):
        self.say("begin")
        self.depth += 1
        self.statements(variables, self.random.randrange(1, 4), depth - 1)
        self.depth -= 1
        self.say("end;")

    def statement(self, variables, depth):
        kind = self.random.randrange(20)
        assignable = [(n, t) for n, t in variables if t not in ("Row", "Shape", "PRec", "PShape") and not n.startswith("i")]
        if depth > 0 and kind == 0:
            self.say(f"if {self.truth(variables)} then")
            self.block(variables, depth)
            if self.chance(0.5):
                self.lines[-1] = self.lines[-1].rstrip(";")
                self.say("else")
                self.block(variables, depth)
        elif depth > 0 and kind == 1 and ("j", "Integer") in variables and not self.in_for:
            self.in_for = True
            up = self.chance(0.6)
            self.say(f"for j := {self.pick('1', '-2', '5')} {'to' if up else 'downto'} {self.pick('3', '4', '-3', '6')} do")
            self.block([it for it in variables], depth)
            self.say("j := 1;")
            self.in_for = False
        elif depth > 0 and kind == 2:
            name = self.random.choice(self.of_type(variables, "Integer") or ["i"])
            self.say("k := 0;")
            self.say("repeat")
            self.depth += 1
            self.say("Inc(k);")
            self.statements([it for it in variables if it[0] != "k"], 2, 0)
            self.depth -= 1
            self.say(f"until (k > {self.random.randrange(4)}) or ({name} = 77);")
        elif depth > 0 and kind == 3:
            self.say(f"case {self.number(variables, 1)} and 7 of")
            self.depth += 1
            for labels in self.random.sample(["0", "1, 2", "3..5", "6", "7"], 3):
                self.say(f"{labels}:")
                self.block(variables, depth)
            if self.chance(0.5):
                self.say("else WriteLn('none');")
            self.depth -= 1
            self.say("end;")
        elif kind == 4:
            self.show(variables)
        elif kind == 5 and self.of_type(variables, "Rec", "PRec"):
            name = self.random.choice(self.of_type(variables, "Rec", "PRec"))
            place = name + "^" * (name in self.of_type(variables, "PRec"))
            self.say(f"with {place} do begin n := {INTEGERS['Integer'].format('(n + ' + self.number(variables, 1) + ')')}; b := (b + 1) and 255; s := s + 'w' end;")
        elif kind == 6 and self.of_type(variables, "Shape"):
            name = self.random.choice(self.of_type(variables, "Shape"))
            self.say(self.pick(f"{name}.Grow({self.random.randrange(4)});", f"WriteLn({name}.Area);", f"{name}.Show;"))
        elif kind == 7 and self.of_type(variables, "PShape"):
            name = self.random.choice(self.of_type(variables, "PShape"))
            self.say(self.pick(f"{name}^.Grow(1);", f"WriteLn({name}^.Area);", f"{name}^.Show;"))
            if self.chance(0.2):
                self.say(f"Dispose({name}, Done); {name} := New(PSquare, Init(2));")
        elif kind == 8 and self.of_type(variables, *STRINGS):
            name = self.random.choice(self.of_type(variables, *STRINGS))
            self.say(self.pick(f"Delete({name}, {self.random.randrange(0, 4)}, 2);", f"Insert('<>', {name}, {self.random.randrange(0, 5)});",
                               f"Str({self.number(variables, 1)}:{self.random.randrange(1, 7)}, {name});"))
        elif kind == 9 and self.of_type(variables, "LongInt"):
            self.say(f"Val({self.text(variables, 1)}, {self.random.choice(self.of_type(variables, 'LongInt'))}, k);")
        elif kind == 10:
            procedures = [it for it in self.known if it.result is None]
            call = self.arguments(variables, self.random.choice(procedures)) if procedures else None
            if call:
                self.say(f"{call};")
        elif kind == 11 and self.of_type(variables, "Row"):
            self.say(f"{self.random.choice(self.of_type(variables, 'Row'))}[{self.index(variables)}] := {INTEGERS['Integer'].format(self.number(variables, 2))};")
        elif kind == 12 and len(self.of_type(variables, "Rec")) > 1:
            one, other = self.random.sample(self.of_type(variables, "Rec"), 2)
            self.say(f"{one} := {other};")
        elif kind == 13 and self.of_type(variables, "Integer", "LongInt", "Byte"):
            name = self.random.choice(self.of_type(variables, "Integer", "LongInt"))
            self.say(f"{self.pick('Inc', 'Dec')}({name}{self.pick('', ', 3', ', ' + INTEGERS['Byte'].format(self.number(variables, 1)))});" if not self.checked else f"{name} := {name} mod 1000;")
        elif assignable:
            name, ty = self.random.choice(assignable)
            if ty == "Rec":
                self.say(f"{name}.s := {self.text(variables)};")
            else:
                self.say(f"{name} := {self.value(variables, ty)};")

    def show(self, variables):
        items = []
        for _ in range(self.random.randrange(1, 4)):
            kind = self.random.randrange(4)
            items.append([self.number(variables, 2), self.text(variables, 1), self.truth(variables, 1), self.letter(variables)][kind])
            if self.chance(0.3):
                items[-1] += f":{self.random.randrange(1, 9)}"
        self.say(f"WriteLn({', '.join(items)});")

    # ---- routines

    in_for = False

    def locals(self):
        types = [*INTEGERS, *STRINGS, *SETS, "Boolean", "Char", "Hue", "Row", "Rec", "Rec", "Shape", "PRec", "PShape"]
        return [(self.fresh("v"), self.random.choice(types)) for _ in range(self.random.randrange(3, 9))]

    def declare(self, variables):
        if variables:
            self.say("var")
            for name, ty in variables:
                self.say(f"  {name}: {ty};")

    def body(self, own, seen, result=None, count=6, before=()):
        """The part between begin and end."""
        self.say("begin")
        self.depth += 1
        self.say("i := 0; j := 0; k := 0;")
        for line in before:
            self.say(line)
        self.begin_variables(own)
        self.statements(seen, count, 2)
        if result:
            self.say(f"{result[0]} := {self.value(seen, result[1])};")
        self.depth -= 1

    def routine(self, nested=1, outer=()):
        """A routine, and those inside it; gives its heading."""
        params = [(self.chance(0.3), self.pick(*INTEGERS, "string", "Char", "BSet", "Hue", "Rec")) for _ in range(self.random.randrange(4))]
        # (a record is handed over by name, since there is none among constants)
        params = [(by_ref or ty == "Rec", ty) for by_ref, ty in params]
        result = self.pick(None, None, "LongInt", "string")
        name = self.fresh("f" if result else "p")
        named = [(self.fresh("a"), by_ref, ty) for by_ref, ty in params]
        heading = f"{'function' if result else 'procedure'} {name}"
        if named:
            heading += "(" + "; ".join(f"{'var ' * by_ref}{a}: {ty}" for a, by_ref, ty in named) + ")"
        heading += f": {result}" if result else ""
        self.say(f"{heading};")
        own = self.locals()
        counters = [("i", "Integer"), ("j", "Integer"), ("k", "Integer")]
        self.declare(own + counters)
        seen = [(a, ty) for a, _, ty in named] + own + list(outer)
        before = list(self.known)
        if nested and self.chance(0.5):
            self.depth += 1
            self.routine(nested - 1, [it for it in seen if it[0] not in "ijk"])
            self.depth -= 1
        self.body(own, seen + counters, (name, result) if result else None, self.random.randrange(3, 8))
        self.say("end;")
        self.say("")
        self.known = before + [Routine(name, params, result)]
        return heading


TYPES = """type
  Hue = (Red, Green, Blue, Grey);
  BSet = set of Byte;
  CSet = set of Char;
  ESet = set of Hue;
  NSet = set of 8..15;
  Row = array[1..5] of Integer;
  PRec = ^Rec;
  Rec = record n: Integer; b: Byte; s: string[20] end;
  Shape = object
    Side: Integer;
    constructor Init(A: Integer);
    destructor Done; virtual;
    procedure Grow(By: Integer);
    function Area: LongInt; virtual;
    procedure Show; virtual;
  end;
  PShape = ^Shape;
  PSquare = ^Square;
  Square = object(Shape)
    Marks: BSet;
    constructor Init(A: Integer);
    function Area: LongInt; virtual;
    procedure Show; virtual;
  end;
"""
METHODS = """constructor Shape.Init(A: Integer);
begin Side := A end;
destructor Shape.Done;
begin WriteLn('gone ', Side) end;
procedure Shape.Grow(By: Integer);
begin Side := (Side + By) and 255 end;
function Shape.Area: LongInt;
begin Area := Side end;
procedure Shape.Show;
begin WriteLn('shape ', Area) end;
constructor Square.Init(A: Integer);
begin Shape.Init(A); Marks := [A and 255, 3..5] end;
function Square.Area: LongInt;
begin Area := LongInt(Side) * Side end;
procedure Square.Show;
begin if 4 in Marks then Write('square: '); Shape.Show end;
"""


def directives(writer):
    return f"{{$F+,O+,R{'+' if writer.checked else '-'}}}"


def types_unit(name):
    return f"{{$F+,O+}}\nunit {name};\ninterface\n{TYPES}implementation\n{METHODS}end.\n"


def unit(random_, name, mark, known, uses):
    writer = Writer(random_, name, mark, known)
    headings = []
    shared = writer.locals()
    writer.lines = []
    for _ in range(random_.randrange(2, 5)):
        writer.known = [it for it in writer.known]
        headings.append(writer.routine(1, shared))
    body = "\n".join(writer.lines)
    writer.lines, writer.depth = [], 0
    writer.declare(shared)
    variables = "\n".join(writer.lines)
    writer.lines = []
    writer.say("procedure Start;")
    writer.declare([("i", "Integer"), ("j", "Integer"), ("k", "Integer")])
    writer.body(shared, shared + [("i", "Integer"), ("k", "Integer")], None, 2)
    writer.say("end;")
    start = "\n".join(writer.lines)
    shown = "\n".join(f"{it};" for it in headings)
    text = f"{directives(writer)}\nunit {name};\ninterface\nuses {', '.join(uses)};\n{variables}\n{shown}\nprocedure Start{mark};\nimplementation\n{body}\n"
    text += start.replace("procedure Start;", f"procedure Start{mark};") + "\nend.\n"
    return text, writer.known, shared, f"Start{mark}"


def program(seed):
    """The texts of a program by their file names."""
    random_ = random.Random(seed)
    name = f"r{seed}"
    files, uses, known, seen, starts = {f"{name}t.pas": types_unit(f"{name}t")}, [f"{name}t"], [], [], []
    for mark in "abc"[: random_.randrange(1, 4)]:
        text, known, shared, start = unit(random_, f"{name}{mark}", mark, known, uses)
        files[f"{name}{mark}.pas"] = text
        uses = uses + [f"{name}{mark}"]
        seen += shared
        starts.append(start)
    writer = Writer(random_, name, "m", known)
    overlaid = seed % 2 == 0
    writer.routine(1, seen)
    writer.routine(1, seen)
    routines = "\n".join(writer.lines)
    writer.lines = []
    own = writer.locals()
    counters = [("i", "Integer"), ("j", "Integer"), ("k", "Integer")]
    writer.declare(own + counters)
    variables = "\n".join(writer.lines)
    writer.lines = []
    begin = [f"OvrInit('{name}.ovr');"] if overlaid else []
    begin += [f"{start};" for start in starts]
    begin += ["Read(k); WriteLn('read ', k); ReadLn;"]
    writer.body(own, own + counters + seen, None, 12, begin)
    writer.show(own + counters + seen)
    writer.say("end.")
    text = f"{directives(writer)}\n{{$M 65000,0,65000}}\nprogram {name};\nuses {'Overlay, ' if overlaid else ''}{', '.join(uses)};\n"
    text += "".join(f"{{$O {it}}}\n" for it in uses) if overlaid else ""
    files[f"{name}.pas"] = text + routines + "\n" + variables + "\n" + "\n".join(writer.lines) + "\n"
    files[f"{name}.in"] = f"{random_.randrange(-99, 99)} rest\r\nsecond line\r\n"
    return files


def write(seed, folder):
    for name, text in program(seed).items():
        with open(os.path.join(folder, name), "w", newline="") as it:
            it.write(text)


def attempt(tp, first, count):
    """Runs the meaning of programs, and tells how they end."""
    ends = {}
    for seed in range(first, first + count):
        with tempfile.TemporaryDirectory() as folder:
            write(seed, folder)
            with open(os.path.join(folder, f"r{seed}.in"), "rb") as given:
                ran = subprocess.run([os.path.abspath(tp), "mean", f"r{seed}", "--turns", "100000"], cwd=folder, stdin=given, capture_output=True)
        said = ran.stderr.decode(errors="replace").strip().split("\n")[-1] or "its end"
        if "Refused" in said or "NotInProfile" in said:
            print(f"seed {seed}: {said}")
        said = said if said == "its end" else " ".join(said.split()[:3])
        ends[said] = ends.get(said, 0) + 1
    for said, number in sorted(ends.items(), key=lambda it: -it[1]):
        print(f"{number:6} {said}")


if __name__ == "__main__":
    if len(sys.argv) == 5 and sys.argv[1] == "--try":
        attempt(sys.argv[2], int(sys.argv[3]), int(sys.argv[4]))
    elif len(sys.argv) == 3:
        write(int(sys.argv[1]), sys.argv[2])
    else:
        sys.exit(__doc__)
