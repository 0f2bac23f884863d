"""The structure of PLCopen XML (TC6, version 2.01), as far as `nanpuwiq export --plcopen` uses it, written down as rules; no schema is copied in. A project
that keeps to them is told again as Structured Text, so that it can be compared with the plain export and run.

The rules: for each element, its children in their order, each with how often it may come, and its attributes, a needed one with '!'. Names of variables,
types and values are identifiers; what is derived names a type of the project."""

import re
import xml.etree.ElementTree as tree

TC6 = "{http://www.plcopen.org/xml/tc6_0201}"
XHTML = "{http://www.w3.org/1999/xhtml}"

# element: (children in their order, attributes). A child has '?' for at most one, '*' for any number, '+' for one or more, else it comes once.
# A list of variables is one of a group that may come in any order, as the schema has it.
VARIABLES = "variable*"
RULES = {
    "project": ("fileHeader contentHeader types instances", ""),
    "fileHeader": ("", "companyName! companyURL productName! productVersion! productRelease creationDateTime! contentDescription"),
    "contentHeader": ("Comment? coordinateInfo", "name! version modificationDateTime organization author language"),
    "Comment": ("", ""),
    "coordinateInfo": ("pageSize? fbd ld sfc", ""),
    "fbd": ("scaling", ""),
    "ld": ("scaling", ""),
    "sfc": ("scaling", ""),
    "scaling": ("", "x! y!"),
    "types": ("dataTypes pous", ""),
    "dataTypes": ("dataType*", ""),
    "dataType": ("baseType initialValue? documentation?", "name!"),
    "enum": ("values baseType?", ""),
    "values": ("value+", ""),
    "pous": ("pou*", ""),
    "pou": ("interface? body* documentation?", "name! pouType! globalId"),
    "interface": ("[inputVars outputVars localVars]* documentation?", ""),
    "inputVars": (VARIABLES, "name constant retain nonretain"),
    "outputVars": (VARIABLES, "name constant retain nonretain"),
    "localVars": (VARIABLES, "name constant retain nonretain"),
    "variable": ("type initialValue? documentation?", "name! address globalId"),
    "array": ("dimension+ baseType", ""),
    "dimension": ("", "lower! upper!"),
    "derived": ("", "name!"),
    "initialValue": ("[simpleValue arrayValue]", ""),
    "simpleValue": ("", "value"),
    "arrayValue": ("value*", ""),
    "documentation": ("xhtml:p", ""),
    "body": ("ST", ""),
    "ST": ("xhtml:p", ""),
    "instances": ("configurations", ""),
    "configurations": ("", ""),
    "BOOL": ("", ""),
    "UINT": ("", ""),
    "UDINT": ("", ""),
    "xhtml:p": ("", ""),
}
# Elements whose form depends on the one that they stand in.
TYPES = "[BOOL UINT UDINT enum array derived]"
INSIDE = {
    ("dataType", "baseType"): (TYPES, ""),
    ("array", "baseType"): (TYPES, ""),
    ("enum", "baseType"): (TYPES, ""),
    ("variable", "type"): (TYPES, ""),
    ("values", "value"): ("", "name! value"),
    ("arrayValue", "value"): ("[simpleValue arrayValue]", "repetitionValue"),
}


class Fault(Exception):
    pass


def name_of(element):
    if element.tag.startswith(TC6):
        return element.tag[len(TC6) :]
    if element.tag.startswith(XHTML):
        return "xhtml:" + element.tag[len(XHTML) :]
    raise Fault("of another namespace: " + element.tag)


def keeps(element, parent=None):
    """Raises a fault where the element or something in it breaks a rule."""
    name = name_of(element)
    children, attributes = INSIDE.get((parent, name)) or RULES.get(name) or (None, None)
    if children is None:
        raise Fault("no such element in %s: %s" % (parent, name))
    known = {word.rstrip("!"): word.endswith("!") for word in attributes.split()}
    for word in element.attrib:
        if word not in known:
            raise Fault("%s has no %s" % (name, word))
    for word, needed in known.items():
        if needed and word not in element.attrib:
            raise Fault("%s needs %s" % (name, word))
    pattern = "".join(group(part) for part in re.findall(r"\[[^]]*\][?*+]?|\S+", children))
    found = "".join(name_of(child) + " " for child in element)
    if not re.fullmatch(pattern, found):
        raise Fault("%s: found %s, the rule is: %s" % (name, found, children))
    if children and (element.text or "").strip():
        raise Fault("words in " + name)
    for child in element:
        keeps(child, name)


def group(part):
    often = part[-1] if part[-1] in "?*+" else ""
    names = part.rstrip("?*+").strip("[]").split()
    return "(?:%s)%s" % ("|".join(re.escape(name) + " " for name in names), often)


def read(text):
    """The project, once all its rules are kept."""
    root = tree.fromstring(text.encode())
    if name_of(root) != "project":
        raise Fault("no project")
    keeps(root)
    if not re.fullmatch(r"\d{4}-\d\d-\d\dT\d\d:\d\d:\d\d", root.find(TC6 + "fileHeader").get("creationDateTime")):
        raise Fault("no date")
    types = [element.get("name") for element in root.iter(TC6 + "dataType")]
    for element in root.iter():
        name = element.get("name")
        if name is not None and element.tag not in (TC6 + "contentHeader",) and not re.fullmatch(r"[A-Za-z]\w*", name, re.ASCII):
            raise Fault("no identifier: " + name)
        if element.tag == TC6 + "derived" and name not in types:
            raise Fault("no type: " + name)
        if element.tag == TC6 + "pou" and element.get("pouType") not in ("function", "functionBlock", "program"):
            raise Fault("no kind of a unit: " + element.get("pouType"))
    return root


def as_text(text):
    """The project's types and blocks as Structured Text."""
    root, found = read(text), []
    for kind in root.iter(TC6 + "dataType"):
        values = kind.findall("%sbaseType/%senum/%svalues/%svalue" % ((TC6,) * 4))
        if [value.get("value") for value in values] != [str(number) for number in range(len(values))]:
            raise Fault("values of %s are not in order" % kind.get("name"))
        found.append("TYPE %s : (%s); END_TYPE" % (kind.get("name"), ", ".join(value.get("name") for value in values)))
    for pou in root.iter(TC6 + "pou"):
        found.append("FUNCTION_BLOCK " + pou.get("name"))
        for section in pou.find(TC6 + "interface"):
            if section.tag == TC6 + "documentation":
                continue
            kind = {"inputVars": "VAR_INPUT", "outputVars": "VAR_OUTPUT", "localVars": "VAR"}[name_of(section)]
            found.append(kind + (" CONSTANT" if section.get("constant") == "true" else ""))
            found.extend(variable(element) for element in section)
            found.append("END_VAR")
        found.append(pou.find("%sbody/%sST/%sp" % (TC6, TC6, XHTML)).text + "END_FUNCTION_BLOCK")
    return "\n".join(found) + "\n"


def variable(element):
    kind, initial = element.find(TC6 + "type")[0], element.find(TC6 + "initialValue")
    if name_of(kind) == "array":
        dimension, base = kind.find(TC6 + "dimension"), kind.find(TC6 + "baseType")[0]
        told = "ARRAY [%s..%s] OF %s" % (dimension.get("lower"), dimension.get("upper"), name_of(base))
    else:
        told = kind.get("name") if name_of(kind) == "derived" else name_of(kind)
    return "%s : %s%s;" % (element.get("name"), told, "" if initial is None else " := " + value(initial[0]))


def value(element):
    if name_of(element) == "simpleValue":
        return element.get("value")
    values = []
    for part in element:
        values += [value(part[0])] * int(part.get("repetitionValue", "1"))
    return "[%s]" % ", ".join(values)


SMALL = """<project xmlns="http://www.plcopen.org/xml/tc6_0201" xmlns:xhtml="http://www.w3.org/1999/xhtml">
<fileHeader companyName="" productName="" productVersion="" creationDateTime="2000-01-01T00:00:00"/>
<contentHeader name="x"><coordinateInfo><fbd><scaling x="1" y="1"/></fbd><ld><scaling x="1" y="1"/></ld><sfc><scaling x="1" y="1"/></sfc></coordinateInfo></contentHeader>
<types><dataTypes><dataType name="t"><baseType><enum><values><value name="a" value="0"/></values></enum></baseType></dataType></dataTypes>
<pous><pou name="b" pouType="functionBlock"><interface><localVars><variable name="v"><type><derived name="t"/></type></variable></localVars></interface>
<body><ST><xhtml:p>v := a;</xhtml:p></ST></body></pou></pous></types><instances><configurations/></instances></project>"""


def reader(check):
    """The rules refuse what the schema refuses."""
    check.same("a small project", as_text(SMALL).split(), "TYPE t : (a); END_TYPE FUNCTION_BLOCK b VAR v : t; END_VAR v := a;END_FUNCTION_BLOCK".split())
    for old, new in (
        ('productName=""', ""),
        ("<coordinateInfo>", "<coordinateInfo><new/>"),
        ('<derived name="t"/>', '<derived name="u"/>'),
        ('<derived name="t"/>', "<string/>"),
        ("<interface>", '<interface><documentation><xhtml:p/></documentation>'),
        ('<value name="a" value="0"/>', ""),
        ('name="v"', 'name="9v"'),
        ("<instances><configurations/></instances>", ""),
        ('pouType="functionBlock"', 'pouType="block"'),
        ("<xhtml:p>v := a;</xhtml:p>", "v := a;"),
    ):
        assert old in SMALL
        try:
            read(SMALL.replace(old, new))
            check.holds("refused: " + new, False)
        except Fault:
            check.holds("refused: " + new, True)
