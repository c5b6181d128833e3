"""A back end of omniidl that prints an IDL file, with what it includes, as Combat's interface repository takes it.

    omniidl -p FOLDER -b combat FILE.idl > FILE.tcl

Combat's own idl2tcl asks an interface repository of another ORB, which Debian doesn't have.
"""

from omniidl import idlast, idltype, idlvisitor

NAMES = {
    idltype.tk_void: "void",
    idltype.tk_short: "short",
    idltype.tk_long: "long",
    idltype.tk_ushort: "unsigned short",
    idltype.tk_ulong: "unsigned long",
    idltype.tk_longlong: "long long",
    idltype.tk_ulonglong: "unsigned long long",
    idltype.tk_float: "float",
    idltype.tk_double: "double",
    idltype.tk_boolean: "boolean",
    idltype.tk_char: "char",
    idltype.tk_octet: "octet",
    idltype.tk_any: "any",
    idltype.tk_TypeCode: "TypeCode",
    idltype.tk_wchar: "wchar",
    idltype.tk_wstring: "wstring",
}
DIRECTIONS = ("in", "out", "inout")


def tcl(value):
    """A word of Tcl: of lists, texts without braces, and numbers."""
    text = " ".join(map(tcl, value)) if isinstance(value, (list, tuple)) else str(value)
    return text if text and not isinstance(value, (list, tuple)) and " " not in text else f"{{{text}}}"


def type_of(it):
    """A type by its name in Combat: a word, a repository id, or a list."""
    kind = it.kind()
    if kind in NAMES:
        return NAMES[kind]
    if kind == idltype.tk_string:
        return ["string", it.bound()] if it.bound() else "string"
    if kind == idltype.tk_sequence:
        return ["sequence", type_of(it.seqType()), *([it.bound()] if it.bound() else [])]
    if kind == idltype.tk_objref and it.scopedName() == ["CORBA", "Object"]:
        return "Object"
    if isinstance(it, idltype.Declared):
        return it.decl().repoId()
    raise ValueError(f"Combat has no type of kind {kind}")


def declared(it, declarator):
    """The type of a declarator, which may be that of an array."""
    found = type_of(it)
    for size in reversed(declarator.sizes()):
        found = ["array", found, size]
    return found


def head(kind, node):
    return [kind, [node.repoId(), node.identifier(), "1.0"]]


class Visitor(idlvisitor.AstVisitor):
    """Gives each declaration in `items`, as Combat takes it."""

    def __init__(self):
        self.items = []

    def all_of(self, nodes):
        """The items of nodes within another one."""
        outer, self.items = self.items, []
        for node in nodes:
            node.accept(self)
        found, self.items = self.items, outer
        return found

    def members_of(self, node):
        members = ((each.memberType(), it) for each in node.members() for it in each.declarators())
        return [[it.identifier(), declared(kind, it)] for kind, it in members]

    def visitModule(self, node):
        self.items.append([*head("module", node), self.all_of(node.definitions())])

    def visitForward(self, node):
        self.items.append(head("interface", node))

    def visitInterface(self, node):
        bases = [it.repoId() for it in node.inherits()]
        self.items.append([*head("interface", node), bases, self.all_of(node.contents())])

    def visitTypedef(self, node):
        for it in node.declarators():
            self.items.append([*head("typedef", it), declared(node.aliasType(), it)])

    def visitStruct(self, node):
        self.items.append([*head("struct", node), self.members_of(node), []])

    def visitException(self, node):
        self.items.append([*head("exception", node), self.members_of(node), []])

    def visitUnion(self, node):
        cases = []
        for case in node.cases():
            at = case.declarator()
            for label in case.labels():
                value = "(default)" if label.default() else label_of(label)
                cases.append([value, at.identifier(), declared(case.caseType(), at)])
        self.items.append([*head("union", node), type_of(node.switchType()), cases, []])

    def visitEnum(self, node):
        self.items.append([*head("enum", node), [it.identifier() for it in node.enumerators()]])

    def visitConst(self, node):
        self.items.append([*head("const", node), type_of(node.constType()), node.value()])

    def visitAttribute(self, node):
        for it in node.declarators():
            mode = ["readonly"] if node.readonly() else []
            self.items.append([*head("attribute", it), type_of(node.attrType()), *mode])

    def visitOperation(self, node):
        taken = [(DIRECTIONS[it.direction()], it.identifier(), type_of(it.paramType())) for it in node.parameters()]
        raised, mode = [it.repoId() for it in node.raises()], ["oneway"] if node.oneway() else []
        self.items.append([*head("operation", node), type_of(node.returnType()), taken, raised, *mode])


def label_of(label):
    value = label.value()
    return value.identifier() if isinstance(value, idlast.Enumerator) else value


def run(tree, _):
    items = Visitor().all_of(tree.declarations())
    print("package require combat\ncombat::ir add {", *(f"    {tcl(item)}" for item in items), "}", sep="\n")
