"""Programs with one long list each, for every list of the grammar.

A kind is a name and a function from the number of items to a program.
"""


def each(count, item, between="\n"):
    """Items in a row: in `item` @ is the number of the item, and ^ that of the one before it."""
    return between.join(item.replace("@", str(at)).replace("^", str(at - 1)) for at in range(1, count + 1))


def main_of(*parts):
    return "\n".join(["resource main()", *parts, "end", ""])


def rows(item, head="", tail=""):
    """Lines in the body of main."""
    return lambda count: main_of(head, each(count, item), tail)


def listed(head, item, tail, between=", ", before="", after=""):
    """One list in the body of main, with lines before and after it."""
    return lambda count: main_of(before, head + each(count, item, between) + tail, after)


def in_spec(item, head="global g", tail="end"):
    """Lines in the spec of a global that main imports."""
    return lambda count: "\n".join([head, each(count, item), tail, main_of("import g")])


def in_spec_of_resource(item):
    """Lines in the spec of a resource that main creates."""
    return lambda count: "\n".join(["resource r", each(count, item), "body r()", "end", main_of("import r", "create r()")])


def beside(item, main="skip"):
    """Components before main."""
    return lambda count: each(count, item) + "\n" + main_of(main)


def in_proc(item, head="", tail=""):
    """Lines in the block of a procedure that is called."""
    return lambda count: main_of("procedure f()", head, each(count, item), tail, "end", "f()")


def passed(mode, argument, before="", returns=""):
    """A procedure with formals of one mode, and a call of it."""
    return lambda count: main_of(
        before,
        f"procedure f({each(count, f'{mode}a@ : int', '; ')}){returns}",
        "end",
        f"f({each(count, argument, ', ')})",
    )


def named(form, argument="1", before="", mode=""):
    """An operation of as many formals, and a form that gives its names or places: $ is the list of these."""
    def text(count):
        head, item, tail = form
        formals = each(count, f"{mode}a@", ", ").replace(", " + mode, ", ")
        return main_of(
            before,
            f"op f({formals} : int)",
            f"send f({each(count, argument, ', ')})",
            head + each(count, item, ", ") + tail,
        )
    return text


SHARED = "var a[1:100] : int\nvar x, y : int"
TAKES = "op f(n : int)"

COMPONENTS = [
    ("resources in a row", beside("resource r@()\nend")),
    ("resources in a row, created", lambda count: each(count, "resource r@()\nend") + "\n"
        + main_of(each(count, "import r@\ncreate r@()"))),
    ("globals in a row", beside("global g@\nend")),
    ("globals in a row, imported", lambda count: each(count, "global g@\nend") + "\n" + main_of(each(count, "import g@"))),
    ("globals that import the one before", lambda count: "global g0\nend\n" + each(count, "global g@\nimport g^\nend") + "\n"
        + main_of(f"import g{count}")),
    ("globals with bodies", lambda count: each(count, "global g@\nbody g@\nvar x : int := 1\nend") + "\n"
        + main_of(each(count, "import g@"))),
    ("names in one import", lambda count: each(count, "global g@\nend") + "\n" + main_of("import " + each(count, "g@", ", "))),
    ("an import again and again", lambda count: "global g\nend\n" + main_of(each(count, "import g"))),
    ("a name in one import again and again", lambda count: "global g\nend\n" + main_of("import " + each(count, "g", ", "))),
    ("formals of a resource", lambda count: f"resource r({each(count, 'a@ : int', '; ')})\nend\n"
        + main_of("import r", f"create r({each(count, '@', ', ')})")),
    ("names in a formal of a resource", lambda count: f"resource r({each(count, 'a@', ', ')} : int)\nend\n"
        + main_of("import r", f"create r({each(count, '1', ', ')})")),
    ("separators", lambda count: main_of(";" * count)),
    ("blank lines", lambda count: main_of("\n" * count)),
    ("comments", rows("# @")),
    ("separators between components", lambda count: ";" * count + "\n" + main_of("skip")),
]

DECLARATIONS = [
    ("const", rows("const c@ := @")),
    ("const of the one before", rows("const c@ := c^ + 1", "const c0 := 0")),
    ("const in a spec", in_spec("const c@ := @")),
    ("const in the spec of a resource", in_spec_of_resource("const c@ := @")),
    ("const with a type", rows("const c@ : int := @")),
    ("const that isn't static", rows("const c@ := x", "var x := 1")),
    ("type", rows("type t@ = int")),
    ("type of the one before", rows("type t@ = t^", "type t0 = int")),
    ("type in a spec", in_spec("type t@ = int")),
    ("enumerations in a row", rows("type t@ = enum(l@)")),
    ("literals of an enumeration", listed("type t = enum(", "l@", ")", after="var x : t := l1")),
    ("records in a row", rows("type t@ = rec(x : int)")),
    ("records of the one before", rows("type t@ = rec(x : t^)", "type t0 = rec(x : int)")),
    ("fields of a record", listed("type t = rec(", "f@ : int", ")", "; ", after="var x : t\nx.f1 := 2")),
    ("names in a field", listed("type t = rec(", "f@", " : int)", after="var x : t\nx.f1 := 2")),
    ("fields that are records", listed("type t = rec(", "f@ : rec(x : int)", ")", "; ", after="var x : t\nx.f1.x := 2")),
    ("a record written out", lambda count: main_of(f"type t = rec({each(count, 'f@', ', ')} : int)",
        f"var x : t := t({each(count, '@', ', ')})", "write(x.f1)")),
    ("optype", rows("optype t@ = (x : int)")),
    ("optype in a spec", in_spec("optype t@ = (x : int)")),
    ("formals of an optype", listed("optype t = (", "a@ : int", ")", "; ", after="op f : t")),
    ("names in a formal of an optype", listed("optype t = (", "a@", " : int)", after="op f : t")),
    ("op", rows("op f@()")),
    ("op in a spec", in_spec("op f@()")),
    ("op in the spec of a resource", in_spec_of_resource("op f@()")),
    ("op of an optype", rows("op f@ : t", "optype t = ()")),
    ("items of one op", listed("op ", "f@()", "")),
    ("items of one op of an optype", listed("op ", "f@ : t", "", before="optype t = ()")),
    ("formals of an op", listed("op f(", "a@ : int", ")", "; ")),
    ("formals of a cap", listed("var x : cap (", "a@ : int", ")", "; ")),
    ("var", rows("var x@ : int")),
    ("var with a value", rows("var x@ : int := @")),
    ("var with a value and no type", rows("var x@ := @")),
    ("var of the one before", rows("var x@ := x^", "var x0 := 1")),
    ("var in a spec", in_spec("var x@ : int")),
    ("arrays in a row", rows("var x@[2] : int")),
    ("arrays of two dimensions in a row", rows("var x@[1:2, 0:1] : int")),
    ("strings in a row", rows('var x@ : string[9] := "@"')),
    ("names in one var", listed("var ", "x@", " : int")),
    ("arrays in one var", listed("var ", "x@[2]", " : int")),
    ("values of one var", lambda count: main_of(f"var {each(count, 'x@', ', ')} : int := {each(count, '@', ', ')}")),
    ("sem", rows("sem s@ := 1")),
    ("sem in a spec", in_spec("sem s@")),
    ("names in one sem", listed("sem ", "s@", "")),
    ("values of one sem", listed("sem ", "s@ := 1", "")),
]

PROCS = [
    ("proc", rows("op f@()\nproc f@()\nend")),
    ("procedure", rows("procedure f@()\nend")),
    ("procedure, called", rows("procedure f@()\nend\nf@()")),
    ("procedure that calls the one before", rows("procedure f@()\nf^()\nend", "procedure f0()\nend", "f1()")),
    ("process", rows("process p@\nend")),
    ("process of values", rows("process p@(i := 1 to 1)\nend")),
    ("quantifiers of a process", listed("process p(", "i@ := 1 to 1", ")\nend")),
    ("names of a proc", lambda count: main_of(f"op f({each(count, 'a@', ', ')} : int)",
        f"proc f({each(count, 'b@', ', ')})", "end", f"f({each(count, '1', ', ')})")),
    ("formals of a procedure", lambda count: main_of(f"procedure f({each(count, 'a@ : int', '; ')})", "end",
        f"f({each(count, '1', ', ')})")),
    ("names in a formal of a procedure", lambda count: main_of(f"procedure f({each(count, 'a@', ', ')} : int)", "end",
        f"f({each(count, '1', ', ')})")),
    ("final code", lambda count: "resource r()\nvar x : int\nfinal\n" + each(count, "x := @") + "\nend\nend\n"
        + main_of("import r", "var c : cap r", "c := create r()", "destroy c")),
    ("var in a procedure", in_proc("var x@ : int")),
    ("names in one var in a procedure", lambda count: main_of("procedure f()", "var " + each(count, "x@", ", ") + " : int",
        "end", "f()")),
    ("const in a procedure", in_proc("const c@ := @")),
    ("op in a procedure", in_proc("op g@()")),
    ("sem in a procedure", in_proc("sem s@ := 1")),
    ("names in one sem in a procedure", lambda count: main_of("procedure f()", "sem " + each(count, "s@", ", "), "end", "f()")),
    ("var in a block", rows("var x@ : int", "if true ->", "fi")),
    ("const in a block", rows("const c@ := @", "if true ->", "fi")),
    ("val arguments", passed("val ", "1")),
    ("arrays as val arguments", lambda count: main_of(f"procedure f({each(count, 'a@[2] : int', '; ')})", "end",
        "var x[2] : int", f"f({each(count, 'x', ', ')})")),
    ("strings as val arguments", lambda count: main_of(f"procedure f({each(count, 'a@ : string[*]', '; ')})", "end",
        "f(" + each(count, '"x"', ", ") + ")")),
    ("shared var arguments", passed("var ", "x", SHARED)),
    ("shared res arguments", passed("res ", "x", SHARED)),
    ("items of an array as var arguments", passed("var ", "a[1]", SHARED)),
    ("items of an array as res arguments", passed("res ", "a[1]", SHARED)),
    ("own var arguments", lambda count: main_of(f"procedure f({each(count, 'var a@ : int', '; ')})", "end",
        "procedure g()", "var x : int", f"f({each(count, 'x', ', ')})", "end", "g()")),
    ("own res arguments", lambda count: main_of(f"procedure f({each(count, 'res a@ : int', '; ')})", "end",
        "procedure g()", "var x : int", f"f({each(count, 'x', ', ')})", "end", "g()")),
    ("names in a var formal", lambda count: main_of(f"procedure f(var {each(count, 'a@', ', ')} : int)", "end",
        "procedure g()", "var x : int", f"f({each(count, 'x', ', ')})", "end", "g()")),
    ("arguments of a procedure that returns", lambda count: main_of(
        f"procedure f({each(count, 'a@ : int', '; ')}) returns r : int", "r := a1", "end", SHARED,
        f"x := f({each(count, '1', ', ')})")),
    ("arguments of send", lambda count: main_of(f"op f({each(count, 'a@', ', ')} : int)", f"send f({each(count, '1', ', ')})")),
    ("arguments of forward", lambda count: main_of(f"procedure f({each(count, 'a@', ', ')} : int)", "end",
        "procedure g()", f"forward f({each(count, '1', ', ')})", "end", "g()")),
    ("places of receive, shared", named(("receive f(", "x", ")"), before=SHARED)),
    ("places of receive, items", named(("receive f(", "a[1]", ")"), before=SHARED)),
    ("places of receive, own", lambda count: main_of(f"op f({each(count, 'a@', ', ')} : int)", "process p", "var x : int",
        f"receive f({each(count, 'x', ', ')})", "end", f"send f({each(count, '1', ', ')})")),
    ("names of an arm", named(("in f(", "b@", ") -> skip ni"))),
    ("names of an arm, var", lambda count: main_of(f"op f(var {each(count, 'a@', ', ')} : int)", "process p",
        f"in f({each(count, 'b@', ', ')}) -> skip ni", "end", "process q", "var x : int",
        f"f({each(count, 'x', ', ')})", "end")),
]

STATEMENTS = [
    ("skip", rows("skip")),
    ("assignment", rows("x := y", SHARED)),
    ("assignment to an item", rows("a[1] := @", SHARED)),
    ("exchange", rows("x :=: y", SHARED)),
    ("increment", rows("x++", SHARED)),
    ("own increment", in_proc("x++", "var x : int")),
    ("own exchange", in_proc("x :=: y", "var x, y : int")),
    ("own assignment", in_proc("x := y", "var x, y : int")),
    ("decrement", rows("x--", SHARED)),
    ("call", rows("call f()", "procedure f()\nend")),
    ("call without the word", rows("f()", "procedure f()\nend")),
    ("call that returns", rows("x := f()", SHARED + "\nprocedure f() returns r : int\nend")),
    ("send", rows("send f()", "op f()")),
    ("send to a proc", rows("send f()", "op f()\nproc f()\nend")),
    ("send and receive", rows("send f(1); receive f(x)", SHARED + "\n" + TAKES)),
    ("send and in", rows("send f(1); in f(n) -> skip ni", TAKES)),
    ("forward", rows("forward f()", "procedure f()\nend\nprocedure g()", "end\ng()")),
    ("reply", rows("reply")),
    ("return", rows("return")),
    ("stop", rows("stop")),
    ("stop with a status", rows("stop(0)")),
    ("exit", rows("exit", "do true ->", "od")),
    ("next", rows("next", "fa i := 1 to 2 ->", "af")),
    ("P and V", rows("V(s); P(s)", "sem s")),
    ("write", rows("write()")),
    ("writes", rows('writes("")')),
    ("read", rows("read(x)", SHARED)),
    ("create", lambda count: "resource r()\nend\n" + main_of("import r", each(count, "create r()"))),
    ("create and destroy", lambda count: "resource r()\nend\n"
        + main_of("import r", "var c : cap r", each(count, "c := create r(); destroy c"))),
    ("if", rows("if true -> fi")),
    ("if with else", rows("if false -> [] else -> fi")),
    ("do", rows("do false -> od")),
    ("do with exit", rows("do true -> exit od")),
    ("fa", rows("fa i := 1 to 1 -> af")),
    ("in", rows("in f(n) -> skip [] else -> ni", TAKES)),
    ("co", rows("co f() oc", "procedure f()\nend")),
    ("co with a block", rows("co f() -> skip oc", "procedure f()\nend")),
    ("statements on one line", listed("", "skip", "", "; ")),
    ("statements in if", rows("skip", "if true ->", "fi")),
    ("statements in do", rows("skip", "do true ->", "exit\nod")),
    ("statements in fa", rows("skip", "fa i := 1 to 1 ->", "af")),
    ("statements in an arm", rows("skip", TAKES + "\nsend f(1)\nin f(n) ->", "ni")),
    ("statements in an arm of co", rows("skip", "procedure f()\nend\nco f() ->", "oc")),
    ("statements in else", rows("skip", "if false -> [] else ->", "fi")),
]

PARTS = [
    ("guards of if", listed("if ", "false ->", " fi", " [] ")),
    ("guards of if with blocks", listed("if ", "x = @ -> x := 0", " [] else -> skip fi", "\n[] ", SHARED)),
    ("guards of do", listed("do ", "false ->", " od", " [] ")),
    ("guards of do with blocks", listed("do ", "x = @ -> x := 0", " [] else -> exit od", "\n[] ", SHARED)),
    ("quantifiers of fa", listed("fa ", "i@ := 1 to 1", " -> skip af")),
    ("quantifiers of fa, down by a step and with st", listed("fa ", "i@ := 1 downto 1 by 1 st true", " -> skip af")),
    ("quantifiers of fa that see the one before", listed("fa i0 := 1 to 1, ", "i@ := i^ to 1", " -> skip af")),
    ("quantifiers of fa without values", listed("fa i0 := 1 to 0, ", "i@ := 1 to 1", " -> skip af")),
    ("arms of in", listed("in ", "f(n) -> skip", " ni", "\n[] ", TAKES + "\nsend f(1)")),
    ("arms of in with and", listed("in ", "f(n) and n = @ -> skip", " [] else -> skip ni", "\n[] ", TAKES + "\nsend f(0)")),
    ("arms of in with by", listed("in ", "f(n) by n -> skip", " ni", "\n[] ", TAKES + "\nsend f(1)")),
    ("arms of in of an operation each", lambda count: main_of(each(count, "op f@()"), "send f1()",
        "in " + each(count, "f@() ->", "\n[] ") + " ni")),
    ("arms of co", listed("co ", "f()", " oc", "\n// ", "procedure f()\nend")),
    ("arms of co with blocks", listed("co ", "f() -> skip", " oc", "\n// ", "procedure f()\nend")),
    ("arms of co with places", listed("co ", "x := f()", " oc", "\n// ", SHARED + "\nprocedure f() returns r : int\nend")),
    ("arms of co with quantifiers", listed("co ", "(i := 1 to 1) f()", " oc", "\n// ", "procedure f()\nend")),
    ("quantifiers of an arm of co", listed("co (", "i@ := 1 to 1", ") f() oc", before="procedure f()\nend")),
    ("arguments of an arm of co", lambda count: main_of(f"procedure f({each(count, 'a@', ', ')} : int)", "end",
        f"co f({each(count, '1', ', ')}) oc")),
]

EXPRESSIONS = [
    ("arguments of write", listed("write(", "1", ")")),
    ("texts as arguments of write", listed("write(", '"@"', ")")),
    ("arguments of writes", listed("writes(", "1", ")")),
    ("arguments of read, shared", listed("x := read(", "x", ")", before=SHARED)),
    ("arguments of read, own", lambda count: main_of("procedure f()", "var x : int", f"x := read({each(count, 'x', ', ')})",
        "end", "f()")),
    ("arguments of create", lambda count: f"resource r({each(count, 'a@', ', ')} : int)\nend\n"
        + main_of("import r", f"create r({each(count, '1', ', ')})")),
    ("parts of an array", listed("var b := (", "@", ")", after="write(b[1])")),
    ("parts with counts", listed("var b := (", "[2] @", ")", after="write(b[1])")),
    ("parts that are arrays", listed("var b := (", "(1, 2)", ")", after="write(b[1, 2])")),
    ("parts that are loaded", listed("var b := (", "x", ")", before=SHARED)),
    ("bytes of texts in a row", rows('write("' + "x" * 200 + '")')),
    ("bytes of a comment", lambda count: "# " + "x" * count + "\n" + main_of("skip")),
    ("digits of a number", lambda count: main_of("write(" + "0" * count + "7)")),
    ("letters of a name", lambda count: main_of("var " + "x" * count + " : int")),
]

KINDS = COMPONENTS + DECLARATIONS + PROCS + STATEMENTS + PARTS + EXPRESSIONS
