"""An interpreter of the subset of IEC 61131-3 Structured Text that `nanpuwiq export --st` and the PLC example use. (No package of Debian that we know of compiles
the language.)

A text has enumerations (TYPE), function blocks and programs. A block has VAR_INPUT, VAR_OUTPUT, VAR and VAR CONSTANT of BOOL, UINT, UDINT, arrays of them,
enumerations and, in VAR, instances of blocks; assignments, calls of instances, IF and CASE. It is strict where a compiler is: no name is a keyword, names
are declared once in the whole text or once in a block, whatever their case; a constant is not assigned, both sides of an operator have one type, the only
conversion is UINT_TO_UDINT, a condition is a BOOL, a CASE has no label twice, an array has as many values as places. A number past its type and an index
past its array are faults."""

import operator
import re

TOKEN = re.compile(r"\(\*.*?\*\)|\s+|([A-Za-z]\w*|\d+|:=|<=|>=|<>|\.\.|%[IQM][XBWD]?\d+(?:\.\d+)*|[-+*/()\[\]:;,=<>.])", re.S)
MOST = {"UINT": 65535, "UDINT": 4294967295, "number": 4294967295}  # a number that is written has any of the types
ORDER = [("OR",), ("AND",), ("=", "<>"), ("<", ">", "<=", ">="), ("+", "-"), ("*", "/", "MOD")]
COMPARE = {"=": operator.eq, "<>": operator.ne, "<": operator.lt, ">": operator.gt, "<=": operator.le, ">=": operator.ge}
COMPUTE = {"+": operator.add, "-": operator.sub, "*": operator.mul, "/": operator.floordiv, "MOD": operator.mod}
# The keywords of both editions, and the standard functions and blocks, whose names a unit may not have either.
KEYWORDS = set(
    """ABSTRACT ACTION AND ARRAY AT BOOL BY BYTE CASE CHAR CLASS CONFIGURATION CONSTANT CONTINUE DATE DATE_AND_TIME DINT DO DT DWORD ELSE ELSIF END_ACTION
    END_CASE END_CLASS END_CONFIGURATION END_FOR END_FUNCTION END_FUNCTION_BLOCK END_IF END_INTERFACE END_METHOD END_NAMESPACE END_PROGRAM END_REPEAT
    END_RESOURCE END_STEP END_STRUCT END_TRANSITION END_TYPE END_VAR END_WHILE EN ENO EXIT EXTENDS FALSE FINAL FOR FROM FUNCTION FUNCTION_BLOCK F_EDGE F_TRIG
    IF IMPLEMENTS INITIAL_STEP INT INTERFACE INTERNAL INTERVAL LDATE LDATE_AND_TIME LDT LINT LREAL LTIME LTIME_OF_DAY LTOD LWORD METHOD MOD NAMESPACE
    NON_RETAIN NOT NULL OF ON OR OVERLAP OVERRIDE PRIORITY PRIVATE PROGRAM PROTECTED PUBLIC READ_ONLY READ_WRITE REAL REF REF_TO REPEAT RESOURCE RETAIN RETURN
    R_EDGE R_TRIG RS SEMA SINGLE SINT SR STEP STRING STRUCT SUPER TASK THEN THIS TIME TIME_OF_DAY TO TOD TRANSITION TRUE TYPE UDINT UINT ULINT UNTIL USING
    USINT VAR VAR_ACCESS VAR_CONFIG VAR_EXTERNAL VAR_GLOBAL VAR_INPUT VAR_IN_OUT VAR_OUTPUT VAR_TEMP WCHAR WHILE WITH WORD WSTRING XOR
    LD LDN ST STN S R CAL CALC CALCN RET RETC RETCN JMP JMPC JMPCN ANDN ORN XORN ANY ANY_INT ANY_NUM ANY_REAL ANY_BIT ANY_STRING ANY_DATE
    ABS SQRT LN LOG EXP SIN COS TAN ASIN ACOS ATAN ADD MUL SUB DIV EXPT MOVE SHL SHR ROL ROR SEL MAX MIN LIMIT MUX GT GE EQ LE LT NE LEN LEFT RIGHT MID
    CONCAT INSERT DELETE REPLACE FIND TRUNC CTU CTD CTUD TP TON TOF""".split()
)


class Fault(Exception):
    pass


def tokens(text):
    found, at = [], 0
    while at < len(text):
        match = TOKEN.match(text, at)
        if not match:
            raise Fault("no word: %r" % text[at : at + 20])
        if match[1]:
            found.append(match[1])
        at = match.end()
    return found


class Reader:
    def __init__(self, found):
        self.tokens, self.at = found, 0

    def word(self, ahead=0):
        return self.tokens[self.at + ahead].upper() if self.at + ahead < len(self.tokens) else ""

    def take(self, wanted=None):
        word = self.word()
        if wanted is not None and word != wanted:
            raise Fault("expected %s, found %s" % (wanted, " ".join(self.tokens[self.at : self.at + 8])))
        self.at += 1
        return word

    def identifier(self):
        word = self.take()
        if not re.fullmatch(r"[A-Z]\w*", word) or word in KEYWORDS or "__" in word or word.endswith("_"):
            raise Fault("no name: " + word)
        return word


class Unit(Reader):
    """A text: `enumerations` with the list of their values, and the tokens of each block or program."""

    def __init__(self, text):
        super().__init__(tokens(text))
        self.enumerations, self.kinds, self.pous = {}, {}, {}
        while self.at < len(self.tokens):
            if self.word() == "TYPE":
                self.enumeration()
            else:
                self.pou()
        for name in self.pous:
            self.block(name)

    def enumeration(self):
        self.take("TYPE")
        name = self.declared()
        self.take(":")
        values = []
        while not values or self.word() == ",":
            self.take("(" if not values else ",")
            values.append(self.declared())
        for wanted in (")", ";", "END_TYPE"):
            self.take(wanted)
        self.enumerations[name] = values
        self.kinds.update((value, name) for value in values)

    def pou(self):
        kind = self.word()
        if kind not in ("FUNCTION_BLOCK", "PROGRAM"):
            raise Fault("no declaration: " + kind)
        begins = self.at
        self.take()
        name = self.declared()
        while self.word() != "END_" + kind:
            self.take()
            if self.at >= len(self.tokens):
                raise Fault("no END_" + kind)
        self.take()
        self.pous[name] = self.tokens[begins : self.at]

    def declared(self):
        name = self.identifier()
        if name in self.enumerations or name in self.kinds or name in self.pous:
            raise Fault("declared twice: " + name)
        if name in getattr(self, "pending", ()):
            raise Fault("declared twice: " + name)
        self.pending = getattr(self, "pending", set()) | {name}
        return name

    def block(self, name=None):
        """A block or program to be run; the first of the text without a name."""
        return Block(self, self.pous[name.upper()] if name else next(iter(self.pous.values())))


class Block(Reader):
    """A block: `values` by name, in capital letters, of an enumeration the value's name; `call` runs the body once."""

    def __init__(self, unit, found):
        super().__init__(found)
        self.unit, self.types, self.values, self.constants, self.inputs = unit, {}, {}, set(), set()
        self.outputs = set()
        kind = self.take()
        self.name = self.identifier()
        while self.word() in ("VAR_INPUT", "VAR_OUTPUT", "VAR"):
            self.section()
        self.body = self.statements("END_" + kind)
        self.take("END_" + kind)
        if self.at != len(self.tokens):
            raise Fault("something follows the block")

    # ---- reading

    def section(self):
        kind = self.take()
        constant = kind == "VAR" and self.word() == "CONSTANT" and bool(self.take())
        while self.word() != "END_VAR":
            name = self.identifier()
            unit = self.unit
            if name in self.types or name in unit.enumerations or name in unit.kinds or name in unit.pous:
                raise Fault("declared twice: " + name)
            if self.word() == "AT":
                self.take()
                if not self.take().startswith("%"):
                    raise Fault("no place of memory after AT: " + name)
            self.take(":")
            self.types[name], self.values[name] = self.declared(kind)
            self.take(";")
            if constant:
                self.constants.add(name)
            if kind == "VAR_INPUT":
                self.inputs.add(name)
            if kind == "VAR_OUTPUT":
                self.outputs.add(name)
        self.take("END_VAR")

    def declared(self, section):
        """A type, with its first value."""
        if self.word() != "ARRAY":
            kind = self.take()
            if kind in self.unit.pous and section == "VAR":
                return ("BLOCK", kind), self.unit.block(kind)
            if kind in self.unit.enumerations:
                value = self.unit.enumerations[kind][0]
            elif kind in ("BOOL", "UINT", "UDINT"):
                value = False if kind == "BOOL" else 0
            else:
                raise Fault("no type: " + kind)
            if self.word() == ":=":
                self.take()
                value = self.literal(kind)
            return kind, value
        for wanted in ("ARRAY", "[", "0", ".."):
            self.take(wanted)
        last = int(self.take())
        self.take("]")
        self.take("OF")
        kind = self.take()
        self.take(":=")
        self.take("[")
        values = [self.literal(kind)]
        while self.word() == ",":
            self.take()
            values.append(self.literal(kind))
        self.take("]")
        if len(values) != last + 1:
            raise Fault("%d values for %d places" % (len(values), last + 1))
        return ("ARRAY", kind), values

    def literal(self, kind):
        word = self.take()
        if kind == "BOOL" and word in ("TRUE", "FALSE"):
            return word == "TRUE"
        if kind in MOST and word.isdigit() and int(word) <= MOST[kind]:
            return int(word)
        if kind in self.unit.enumerations and word in self.unit.enumerations[kind]:
            return word
        raise Fault("%s is no %s" % (word, kind))

    def statements(self, *ends, labels=False):
        found = []
        while self.word() not in ends and not (labels and self.word(1) in (":", ",")):
            found.append(self.statement())
            self.take(";")
        return lambda: [run() for run in found]

    def statement(self):
        if self.word() == "IF":
            return self.choice()
        if self.word() == "CASE":
            return self.case()
        if self.word(1) == "(":
            return self.calling()
        return self.assignment()

    def assignment(self):
        name = self.identifier()
        if name not in self.types or name in self.constants or name in self.inputs or isinstance(self.types[name], tuple):
            raise Fault("cannot be assigned: " + name)
        self.take(":=")
        kind, value = self.expression()
        self.agree(self.types[name], kind)

        def run():
            self.values[name] = self.ranged(self.types[name], value())

        return run

    def calling(self):
        """A call of an instance: values for its inputs, then its body."""
        name = self.identifier()
        if name not in self.types or self.types[name][0] != "BLOCK":
            raise Fault("no instance: " + name)
        block, given = self.values[name], []
        while not given or self.word() == ",":
            self.take("," if given else "(")
            parameter = self.identifier()
            if parameter not in block.inputs or parameter in [other for other, _ in given]:
                raise Fault("no input of %s: %s" % (name, parameter))
            self.take(":=")
            kind, value = self.expression()
            self.agree(block.types[parameter], kind)
            given.append((parameter, value))
        self.take(")")

        def run():
            block.values.update([(parameter, value()) for parameter, value in given])
            block.body()

        return run

    def choice(self):
        arms, otherwise = [], lambda: None
        self.take("IF")
        while True:
            kind, condition = self.expression()
            self.agree("BOOL", kind)
            self.take("THEN")
            arms.append((condition, self.statements("ELSIF", "ELSE", "END_IF")))
            if self.word() != "ELSIF":
                break
            self.take()
        if self.word() == "ELSE":
            self.take()
            otherwise = self.statements("END_IF")
        self.take("END_IF")

        def run():
            for condition, body in arms:
                if condition():
                    return body()
            return otherwise()

        return run

    def case(self):
        arms, otherwise = {}, lambda: None
        self.take("CASE")
        kind, value = self.expression()
        self.take("OF")
        while self.word() not in ("ELSE", "END_CASE"):
            labels = [self.literal(kind)]
            while self.word() == ",":
                self.take()
                labels.append(self.literal(kind))
            self.take(":")
            body = self.statements("ELSE", "END_CASE", labels=True)
            for label in labels:
                if label in arms:
                    raise Fault("a label twice: %s" % label)
                arms[label] = body
        if self.word() == "ELSE":
            self.take()
            otherwise = self.statements("END_CASE")
        self.take("END_CASE")
        if not arms:
            raise Fault("a CASE without a label")
        return lambda: arms.get(value(), otherwise)()

    def agree(self, wanted, kind):
        if not (wanted == kind or kind == "number" and wanted in MOST or wanted == "number" and kind in MOST):
            raise Fault("%s where %s stands" % (kind, wanted))

    def ranged(self, kind, value):
        if kind in MOST and not 0 <= value <= MOST[kind]:
            raise Fault("%d is no %s" % (value, kind))
        return value

    def expression(self, level=0):
        """The type of an expression, and what works it out."""
        if level == len(ORDER):
            return self.unary()
        kind, value = self.expression(level + 1)
        while self.word() in ORDER[level]:
            sign = self.take()
            other, right = self.expression(level + 1)
            self.agree(kind, other)
            kind, value = self.joined(sign, kind if kind != "number" else other, value, right)
        return kind, value

    def joined(self, sign, kind, left, right):
        if sign in ("AND", "OR"):
            self.agree("BOOL", kind)
            # both sides are worked out, as the standard has it
            return "BOOL", (lambda: all([left(), right()])) if sign == "AND" else (lambda: any([left(), right()]))
        if sign in COMPARE:
            if kind not in MOST and sign not in ("=", "<>"):
                raise Fault("%s of %s" % (sign, kind))
            return "BOOL", lambda: COMPARE[sign](left(), right())
        if kind not in MOST:
            raise Fault("%s of %s" % (sign, kind))
        return kind, lambda: self.ranged(kind, COMPUTE[sign](left(), right()))

    def unary(self):
        word = self.take()
        if word == "NOT":
            kind, value = self.unary()
            self.agree("BOOL", kind)
            return "BOOL", lambda: not value()
        if word == "(":
            found = self.expression()
            self.take(")")
            return found
        if word in ("TRUE", "FALSE"):
            return "BOOL", lambda: word == "TRUE"
        if word.isdigit():
            return "number", lambda: int(word)
        if word == "UINT_TO_UDINT":
            self.take("(")
            kind, value = self.expression()
            self.agree("UINT", kind)
            self.take(")")
            return "UDINT", value
        if word in self.unit.kinds:
            return self.unit.kinds[word], lambda: word
        if word not in self.types:
            raise Fault("not declared: " + word)
        if self.types[word][0] == "ARRAY":
            return self.element(word)
        if self.types[word][0] == "BLOCK":
            return self.member(self.values[word])
        return self.types[word], lambda: self.values[word]

    def element(self, name):
        self.take("[")
        kind, place = self.expression()
        self.agree("UDINT", kind)
        self.take("]")
        return self.types[name][1], lambda: self.values[name][self.inside(name, place())]

    def member(self, block):
        self.take(".")
        name = self.identifier()
        if name not in block.outputs:
            raise Fault("no output: " + name)
        return block.types[name], lambda: block.values[name]

    def inside(self, name, place):
        if not 0 <= place < len(self.values[name]):
            raise Fault("%s[%d]" % (name, place))
        return place

    # ---- running

    def call(self, **inputs):
        for name, value in inputs.items():
            if name.upper() not in self.inputs:
                raise Fault("no input: " + name)
            self.values[name.upper()] = value
        self.body()

    def __getitem__(self, name):
        return self.values[name.upper()]

    def place(self, **values):
        """Puts the block where a caller wants it."""
        for name, value in values.items():
            assert name.upper() in self.values and name.upper() not in self.constants
            self.values[name.upper()] = value

    def values_of(self, name):
        """The values of the enumeration that this variable has."""
        return self.unit.enumerations[self.types[name.upper()]]
