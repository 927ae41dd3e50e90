"""What becomes of the clauses of specifications on lists, worked out from the manual.

Each row of TRIALS has a list, a specification of calls, and the lines that `tracenode spec` tells of it. The
others are rows for each head, each kind of term and each limit.
"""

# What a test has whose body changes flags.
ENDS = (
    "on a node: erlang:match_spec_test/3 with this list ends the node, "
    "and so do dbg:tp, dbg:tpl and dbg:tpe where the list is []"
)

TRIALS = (
    (
        "[hi,1]",
        "[{['$1','_'],[{is_integer,'$1'}],[]},{['$1','_'],[],[{message,{{second,'$1'}}}]},{'_',[],["
        "]}]",
        (
            "clause 1: condition 1 is false: '$1' is hi",
            "clause 2 fires: message {second,hi}",
            "  '$1' is hi",
            "=> a message that ends in {second,hi}",
        ),
    ),
    # The head has another number of elements, or stops behind some.
    (
        "[1,2]",
        "[{['_'],[],[]},{[],[],[]},{['$1','$1'],[],[]},{[2,'_'],[],[]}]",
        (
            "clause 1: the head has another number of elements",
            "clause 2: the head has another number of elements",
            "clause 3: the head doesn't match at element 2: '$1' is 1, found 2",
            "clause 4: the head doesn't match at element 1: 2 expected, found 1",
            "=> no message: no clause fires",
        ),
    ),
    # A condition behind others is told by its number and its value.
    (
        "[3]",
        "[{['$1'],[true,{'>','$1',2},{'+','$1',1}],[]}]",
        (
            "clause 1: condition 3 is 4: '$1' is 3",
            "=> no message: no clause fires",
        ),
    ),
    # The variables that stand in it come by rising number, `'$$'` has all of them, and `'$_'` has none.
    (
        "[a,[1],x]",
        "[{['$1','$0','$2'],[{'>','$1','$0'}],[]},{['$1','$0','$2'],[{'==','$$',[]}],[]},"
        "{['$1','$0','$2'],[{'==','$_',[]}],[]},{'$3',[{'==',{hd,'$3'},b}],[]}]",
        (
            "clause 1: condition 1 is false: '$0' is [1], '$1' is a",
            "clause 2: condition 1 is false: '$0' is [1], '$1' is a, '$2' is x",
            "clause 3: condition 1 is false",
            "clause 4: condition 1 is false: '$3' is [a,[1],x]",
            "=> no message: no clause fires",
        ),
    ),
    # A fault is told by the part that faults.
    (
        "[[]]",
        "[{['$1'],[{'>',{hd,'$1'},3}],[]},{['$1'],[{'not',{element,1,{{}}}}],[]}]",
        (
            "clause 1: condition 1 faults at {hd,'$1'}",
            "clause 2: condition 1 faults at {element,1,{{}}}",
            "=> no message: no clause fires",
        ),
    ),
    # `andalso` and `orelse` stop early.
    (
        "[a]",
        "[{['$1'],[{'andalso',false,{hd,'$1'}}],[]},{['$1'],[{'andalso',true,{hd,'$1'}}],[]},{['$1'"
        "],[{'orelse',true,{hd,'$1'}}],[]}]",
        (
            "clause 1: condition 1 is false: '$1' is a",
            "clause 2: condition 1 faults at {hd,'$1'}",
            "clause 3 fires",
            "  '$1' is a",
            "=> a message",
        ),
    ),
    # Expressions are spelled as they are read.
    (
        "[a]",
        "[{['$1'],[{hd,{const,{x,'$1'}}}],[]},{['$1'],[{tl,{{'$_','$$',[b,'$1']}}}],[]},{['$1'],[{a"
        "bs,{const,'$1'}}],[]},{['$1'],[{'div',1,{'-',1,1}}],[]}]",
        (
            "clause 1: condition 1 faults at {hd,{const,{x,'$1'}}}",
            "clause 2: condition 1 faults at {tl,{{'$_','$$',[b,'$1']}}}",
            "clause 3: condition 1 faults at {abs,{const,'$1'}}",
            "clause 4: condition 1 faults at {'div',1,{'-',1,1}}",
            "=> no message: no clause fires",
        ),
    ),
    # A head that is a variable is bound to the whole list, which is its one binding.
    (
        "[a,b]",
        "[{'$3',[{'==','$3','$_'}],[{message,'$$'}]}]",
        (
            "clause 1 fires: message [[a,b]]",
            "  '$3' is [a,b]",
            "=> a message that ends in [[a,b]]",
        ),
    ),
    # A term is written as it is read, an atom between quotes where it has to be.
    (
        "[\"hi\",'receive','a b',\t'it\\'s',maybe, -9223372036854775808,<0.104.0>,[],{}] % a comment",
        "[{'$1',[],[]}]",
        (
            "clause 1 fires",
            "  '$1' is [[104,105],'receive','a b','it\\'s','maybe',-9223372036854775808,<0.104.0>,[],{}]",
            "=> a message",
        ),
    ),
    # The first clause whose conditions are true fires.
    (
        "[]",
        "[{'_',[false],[{message,a}]},{'_',[],[{message,b}]},{'_',[],[{message,c}]}]",
        (
            "clause 1: condition 1 is false",
            "clause 2 fires: message b",
            "=> a message that ends in b",
        ),
    ),
    # Variables come by rising number.
    (
        "[a,{b,c}]",
        "[{['$20',{'$3','_'}],[],[]}]",
        (
            "clause 1 fires",
            "  '$3' is b",
            "  '$20' is a",
            "=> a message",
        ),
    ),
    # `true` adds nothing, and `false` is no message; the last one counts.
    (
        "[]",
        "[{'_',[],[{message,a},{message,true}]}]",
        (
            "clause 1 fires: message a, message true",
            "=> a message",
        ),
    ),
    (
        "[]",
        "[{'_',[],[{message,true},{message,false}]}]",
        (
            "clause 1 fires: message true, message false",
            "=> no message: it is false",
        ),
    ),
    (
        "[]",
        "[{'_',[],[{message,false},{message,b}]}]",
        (
            "clause 1 fires: message false, message b",
            "=> a message that ends in b",
        ),
    ),
    # Marks, and `silent`.
    (
        "[]",
        "[{'_',[],[{return_trace},{exception_trace},{silent,false}]}]",
        (
            "clause 1 fires: return_trace, exception_trace, silent false",
            "=> a message",
        ),
    ),
    (
        "[]",
        "[{'_',[],[{silent,true},{message,b}]}]",
        (
            "clause 1 fires: silent true, message b",
            "=> no message: silent",
        ),
    ),
    (
        "[]",
        "[{'_',[],[{silent,true},{silent,false}]}]",
        (
            "clause 1 fires: silent true, silent false",
            "=> a message",
        ),
    ),
    # Flags of processes.
    (
        "[]",
        "[{'_',[],[{enable_trace,send},{disable_trace,{self},'receive'}]}]",
        (
            "clause 1 fires: <0.100.0> gets send, <0.100.0> loses 'receive'",
            "=> a message",
            ENDS,
        ),
    ),
    (
        "[<0.101.0>]",
        "[{['$1'],[],[{enable_trace,'$1',silent}]}]",
        (
            "clause 1 fires: <0.101.0> gets silent",
            "  '$1' is <0.101.0>",
            "=> a message",
            ENDS,
        ),
    ),
    (
        "[]",
        "[{'_',[],[{enable_trace,silent}]}]",
        (
            "clause 1 fires: <0.100.0> gets silent",
            "=> no message: silent",
            ENDS,
        ),
    ),
    (
        "[]",
        "[{'_',[],[{silent,true},{disable_trace,silent}]}]",
        (
            "clause 1 fires: silent true, <0.100.0> loses silent",
            "=> a message",
            ENDS,
        ),
    ),
    # Flags that are cleared and then set; the process has the flag call alone, and no process another.
    (
        "[]",
        "[{'_',[],[{trace,[call],[send,arity]}]}]",
        (
            "clause 1 fires: <0.100.0> loses call gets send gets arity",
            "=> a message",
            ENDS,
        ),
    ),
    (
        "[<0.101.0>]",
        "[{['$1'],[],[{message,{trace,'$1',[],[set_on_link,call,call,'receive']}}]}]",
        (
            "clause 1 fires: <0.101.0> gets 'receive' gets call gets set_on_link, message true",
            "  '$1' is <0.101.0>",
            "=> a message",
            ENDS,
        ),
    ),
    (
        "[]",
        "[{'_',[],[{message,{trace,{self},[procs,send],[]}}]}]",
        (
            "clause 1 fires: <0.100.0> loses send loses procs, message false",
            "=> no message: it is false",
            ENDS,
        ),
    ),
    # It keeps its flags where both lists name none.
    (
        "[]",
        "[{'_',[],[{trace,[],[]},{message,{trace,<0.163.0>,[],[]}}]}]",
        (
            "clause 1 fires: <0.100.0> keeps its flags, <0.163.0> keeps its flags, message false",
            "=> no message: it is false",
        ),
    ),
    # Whether flags change depends on what the actions before changed, and a flag of both lists is set.
    (
        "[]",
        "[{'_',[],[{message,[{trace,[],[call]},{trace,[],[send]},{trace,[],[send]},{trace,[send],[]},"
        "{trace,[call],[call]},{trace,[arity],[arity]}]}]}]",
        (
            "clause 1 fires: <0.100.0> gets call, <0.100.0> gets send, <0.100.0> gets send, <0.100.0> loses send, "
            "<0.100.0> loses call gets call, <0.100.0> loses arity gets arity, message [false,true,false,true,false,true]",
            "=> a message that ends in [false,true,false,true,false,true]",
            ENDS,
        ),
    ),
    (
        "[]",
        "[{'_',[],[{enable_trace,send},{disable_trace,<0.101.0>,call},{message,[{trace,[],[send]},"
        "{trace,<0.101.0>,[call],[]},{trace,<0.101.0>,[],[call]},{trace,<0.102.0>,[],[call]}]}]}]",
        (
            "clause 1 fires: <0.100.0> gets send, <0.101.0> loses call, <0.100.0> gets send, <0.101.0> loses call, "
            "<0.101.0> gets call, <0.102.0> gets call, message [false,false,true,true]",
            "=> a message that ends in [false,false,true,true]",
            ENDS,
        ),
    ),
    (
        "[]",
        "[{'_',[],[{silent,true},{message,[{trace,[],[silent]},{trace,[silent],[]},{silent,true},{trace,[silent],[]}]}]}]",
        (
            "clause 1 fires: silent true, <0.100.0> gets silent, <0.100.0> loses silent, silent true, "
            "<0.100.0> loses silent, message [false,true,true,true]",
            "=> a message that ends in [false,true,true,true]",
            ENDS,
        ),
    ),
    (
        "[]",
        "[{'_',[],[{message,b},{trace,[],[silent]}]}]",
        (
            "clause 1 fires: message b, <0.100.0> gets silent",
            "=> no message: silent",
            ENDS,
        ),
    ),
    # An argument comes before the call, and what isn't evaluated changes nothing.
    (
        "[]",
        "[{'_',[],[{message,[{element,{hd,[2,{trace,[],[send]}]},{{a,{trace,[],[send]}}}},"
        "{'orelse',{trace,[],[procs]},{trace,[],[arity]}},{'andalso',{trace,[],[procs]},{trace,[],[arity]}},"
        "{trace,[],[arity]}]}]}]",
        (
            "clause 1 fires: <0.100.0> gets send, <0.100.0> gets send, <0.100.0> gets procs, <0.100.0> gets procs, "
            "<0.100.0> gets arity, message [false,true,false,true]",
            "=> a message that ends in [false,true,false,true]",
            "on a node: arguments and elements of tuples are evaluated from the right, and two of them have actions here",
            ENDS,
        ),
    ),
    # What is no living process's pid, or no list of flags, is a fault, and changes nothing.
    (
        "[[send,call],send]",
        "[{['$1','$2'],[],[{message,[{trace,<0.99.0>,[],[send]},{trace,<0.164.0>,[call],[]},{trace,100,[],[send]},"
        "{trace,'$2',[],[]},{trace,[],'$2'},{trace,[nope],[]},{trace,[],[send,nope]},{trace,[[send]],[]},"
        "{trace,[],\"send\"},{trace,[],[{hd,[]}]},{trace,[],['$2']},{trace,'$1',[call]}]}]}]",
        (
            "clause 1 fires: <0.100.0> gets send, <0.100.0> loses send loses call gets call, message "
            "['EXIT','EXIT','EXIT','EXIT','EXIT','EXIT','EXIT','EXIT','EXIT','EXIT',true,true]",
            "  '$1' is [send,call]",
            "  '$2' is send",
            "=> a message that ends in "
            "['EXIT','EXIT','EXIT','EXIT','EXIT','EXIT','EXIT','EXIT','EXIT','EXIT',true,true]",
            ENDS,
        ),
    ),
    # A call that faults in a body has no effect of its own, and the value 'EXIT'.
    (
        "[a]",
        "[{['$1'],[],[{message,{hd,'$1'}}]}]",
        (
            "clause 1 fires: message 'EXIT'",
            "  '$1' is a",
            "=> a message that ends in 'EXIT'",
        ),
    ),
    # What calls the function.
    (
        "[]",
        "[{'_',[],[{message,{caller}}]}]",
        (
            "clause 1 fires: message undefined",
            "=> a message that ends in undefined",
        ),
    ),
)

# Conditions on the list [a,[1]] under the head ['$1','$0'], and whether the clause fires.
CONDITIONS = (
    ("", True),
    ("true", True),
    ("true,true", True),
    ("false", False),
    ("7", False),
    ("{{}}", False),
    ("true,false", False),
    ("true,{hd,a}", False),
    ("{'==',{self},<0.100.0>}", True),
    ("{'==',{node},nonode@nohost}", True),
    ("{'==','$_',[a,[1]]}", True),
    ("{'==','$$',[[1],a]}", True),
    ("{'==',{{'$1',['$0']}},{const,{a,[[1]]}}}", True),
    ("{'==',{element,2,{{x,{tl,'$0'}}}},[]}", True),
    ("{'andalso',{is_atom,'$1'},{is_list,'$0'}}", True),
    ("{'andalso',{is_pid,'$1'},{hd,'$1'}}", False),
    ("{'andalso',{is_atom,'$1'},{hd,'$1'}}", False),
    ("{'orelse',{hd,'$1'},true}", False),
    ("{'orelse',7,{hd,'$0'},true}", True),
    ("{'orelse',7,{hd,'$0'}}", False),
    ("{'and',false,{hd,'$1'}}", False),
    ("{'and',true,7}", False),
    ("{'not',{'and',true,7}}", True),
    ("{'not',{'andalso',7,{hd,a}}}", True),
    ("{is_list,[{hd,a}]}", False),
    ("{is_tuple,{{{hd,a}}}}", False),
)

# Events of which a body is tried, the body, and what it asks for. The processes 100 to 163 are alive.
CALLS, SENDS, RECEIVES, CHANGES = ("call",), ("send",), ("receive",), ("call", "send")
FLAGS = "send 'receive' call procs silent arity set_on_spawn set_on_first_spawn set_on_link set_on_first_link".split()
BODIES = (
    # A call that faults has the value 'EXIT', and evaluation goes on.
    (CALLS, "true,7,{hd,[]}", ()),
    (CALLS, "{message,[{hd,[]},{tl,[]},7]}", ("message ['EXIT','EXIT',7]",)),
    (CALLS, "{message,{{{abs,a}}}}", ("message {'EXIT'}",)),
    (CALLS, "{message,{is_atom,{hd,[]}}}", ("message true",)),
    (CALLS, "{message,{'not',{hd,[]}}}", ("message false",)),
    (CALLS, "{message,{'+',{hd,[]},1}}", ("message 'EXIT'",)),
    (CALLS, "{message,{'orelse',{hd,[]},true}}", ("message true",)),
    (CALLS, "{message,{'andalso',{hd,[]},true}}", ("message false",)),
    (CALLS, "{message,{self}}", ("message <0.100.0>",)),
    (CALLS, "{message,{node,{self}}}", ("message nonode@nohost",)),
    (CALLS, "{message,{const,{hd,[]}}}", ("message {hd,[]}",)),
    (CALLS, "{message,{{}}}", ("message {}",)),
    (CALLS, "{message,'$$'}", ("message []",)),
    # An argument's effects come before its call's, from left to right.
    (CALLS, "{message,1},{message,2}", ("message 1", "message 2")),
    (CALLS, "{message,{message,1}}", ("message 1", "message true")),
    (CALLS, "[{message,1},{{{message,2}}},{message,3}]", ("message 1", "message 2", "message 3")),
    (CALLS, "{'or',{message,1},{message,2}}", ("message 1", "message 2")),
    (CALLS, "{'andalso',{message,1},false,{message,2}}", ("message 1",)),
    (CALLS, "{'orelse',{message,1},{message,2}}", ("message 1",)),
    (CALLS, "{'orelse',{hd,[]},{message,2}}", ("message 2",)),
    (CALLS, "{'andalso',{hd,[]},{message,2}}", ()),
    (CALLS, "{'+',{message,1},{message,2}}", ("message 1", "message 2")),
    (CALLS, "{enable_trace,{message,nope}}", ("message nope",)),
    (CALLS, "{silent,{message,1}}", ("message 1", "silent true")),
    (CALLS, "{return_trace},{message,1},{return_trace}", ("return_trace", "message 1", "return_trace")),
    # What the actions of calls answer.
    (CALLS, "{message,{return_trace}}", ("return_trace", "message true")),
    (CALLS, "{message,{exception_trace}}", ("exception_trace", "message true")),
    (CHANGES, "{message,{silent,true}}", ("silent true", "message true")),
    (CHANGES, "{message,{silent,false}}", ("silent false", "message true")),
    (CHANGES, "{message,{silent,7}}", ("message true",)),
    (CALLS, "{message,{silent,{hd,[]}}}", ("message true",)),
    # Changes of one flag; with no flag, or of no living process, there is none.
    (CHANGES, "{message,{enable_trace,arity}}", ("<0.100.0> gets arity", "message true")),
    (CHANGES, "{message,{disable_trace,{self},call}}", ("<0.100.0> loses call", "message true")),
    *(
        (CHANGES, "{enable_trace,%s},{disable_trace,<0.101.0>,%s}" % (flag, flag), (f"<0.100.0> gets {flag}", f"<0.101.0> loses {flag}"))
        for flag in FLAGS
    ),
    *(
        (CHANGES, "{message,%s}" % change, ("message 'EXIT'",))
        for change in (
            "{enable_trace,nope}",
            "{disable_trace,[call]}",
            "{enable_trace,<0.164.0>,call}",
            "{disable_trace,<0.99.0>,call}",
            "{enable_trace,<0.4294967295.0>,call}",
            "{disable_trace,100,call}",
            "{enable_trace,<0.101.0>,nope}",
            "{disable_trace,call,<0.101.0>}",
        )
    ),
    (CALLS, "{message,{trace,[],[{message,1}]}}", ("message 1", "message 'EXIT'")),
    # What sends and receives take for the actions of calls.
    (SENDS + RECEIVES, "{message,{message,a}}", ("message a", "message true")),
    (SENDS + RECEIVES, "{message,{return_trace}}", ("message true",)),
    (SENDS + RECEIVES, "{message,{exception_trace}}", ("message true",)),
    (RECEIVES, "{message,{hd,[]}}", ("message 'EXIT'",)),
)

# What is told of a head with another number of elements than the list has.
OTHER = "the head has another number of elements"


def at(*place, part, term):
    """What is told of a head that first differs at a place, by the numbers of elements down to it."""
    numbers = ", ".join(f"element {number}" for number in place)
    return f"the head doesn't match at {numbers}: {part}, found {term}"


def expected(part):
    """A term, or a tuple or list of so many, that a head has at a place."""
    return f"{part} expected"


# A head, the list that it is held against, and the values that its variables are bound to, or why it doesn't match.
HEADS = (
    # Heads of no list.
    ("'_'", "[]", {}),
    ("'_'", "[a,[b]]", {}),
    ("'$0'", "[]", {"$0": "[]"}),
    ("'$999'", "[a,{b}]", {"$999": "[a,{b}]"}),
    # A pattern for each element.
    ("[]", "[]", {}),
    ("[]", "[a]", OTHER),
    ("['_']", "[]", OTHER),
    ("['_']", "[a]", {}),
    ("['_']", "[a,b]", OTHER),
    ("['_','_']", "[a,b]", {}),
    ("['$1','$2']", "[a]", OTHER),
    ("['$1']", "[[]]", {"$1": "[]"}),
    ("['$1','_','$2']", "[a,{},<0.100.0>]", {"$1": "a", "$2": "<0.100.0>"}),
    # Patterns with parts.
    ("[{'$2'},a]", "[{7},a]", {"$2": "7"}),
    ("[{'$2'},a]", "[[7],a]", at(1, part=expected("a tuple of 1"), term="[7]")),
    ("[{'$2'},a]", "[{7},b]", at(2, part=expected("a"), term="b")),
    ("[{'$2'},a]", "[7,a]", at(1, part=expected("a tuple of 1"), term="7")),
    ("[{'$2'},a]", "[{},a]", at(1, part=expected("a tuple of 1"), term="{}")),
    ("[{'$2'},a]", "[{7,7},a]", at(1, part=expected("a tuple of 1"), term="{7,7}")),
    ("[['$2','_']]", "[[{7},8]]", {"$2": "{7}"}),
    ("[['$2','_']]", "[{7,8}]", at(1, part=expected("a list of 2"), term="{7,8}")),
    ("[{const,'$1'}]", "[{const,b}]", {"$1": "b"}),
    ("[{const,'$1'}]", "['$1']", at(1, part=expected("a tuple of 2"), term="'$1'")),
    # The first difference is told, left to right and depth first.
    ("[a,b]", "[c,d]", at(1, part=expected("a"), term="c")),
    ("[{a,b},c]", "[{a,d},e]", at(1, 2, part=expected("b"), term="d")),
    ("['$1',[{a},'$1']]", "[b,[{c},d]]", at(2, 1, 1, part=expected("a"), term="c")),
    ("['_',{a,['$1','$1']}]", "[0,{a,[b,c]}]", at(2, 2, 2, part="'$1' is b", term="c")),
    ("[{'_',[]}]", "[{0,[1]}]", at(1, 2, part=expected("a list of 0"), term="[1]")),
    ("[['$1',a,'_']]", "[[1,2]]", at(1, part=expected("a list of 3"), term="[1,2]")),
    # A second occurrence must equal the first.
    ("['$1','$1']", "[a,a]", {"$1": "a"}),
    ("['$1','$1']", "[a,b]", at(2, part="'$1' is a", term="b")),
    ("['$1',{'$1'}]", "[[a],{[a]}]", {"$1": "[a]"}),
    ("['$1',{'$1'}]", "[[a],{{a}}]", at(2, 1, part="'$1' is [a]", term="{a}")),
    ("['$1','$2','$1']", "[a,b,b]", at(3, part="'$1' is a", term="b")),
    ("['$1','$2','$1']", "[a,b,a]", {"$1": "a", "$2": "b"}),
    ("['$2','$1','$2']", "[0,0,1]", at(3, part="'$2' is 0", term="1")),
    ("['_','_']", "[a,b]", {}),
    # Variables come by rising number.
    ("['$3','$1']", "[a,b]", {"$1": "b", "$3": "a"}),
    ("['$2',{'$999','$0'},['$10']]", "[a,{b,c},[d]]", {"$0": "c", "$2": "a", "$10": "d", "$999": "b"}),
)

# Terms that are no variable, nor '_': each matches itself alone.
CONSTANTS = ("0", "-1", "a", "'$_'", "'$$'", "<0.0.0>", "{}", "{a}", "[]", "[a]")

# What is expected where such a tuple or list stands in a head and another term is there.
SIZES = {"{}": "a tuple of 0", "{a}": "a tuple of 1", "[]": "a list of 0", "[a]": "a list of 1"}

# The most elements of a list and of a tuple, and what stands around an expression that is as deep as it may be.
ELEMENTS, FIELDS, DEEPEST = 4096, 255, 29


LOGIC = (
    "on a node: logic on what is no boolean is a fault, but the last argument of andalso or orelse is its value"
)


def fires(bindings, asks=(), end=""):
    """The lines of a first clause that fires, with what its body asks for and the message's last element."""
    yield "clause 1 fires" + (f": {', '.join(asks)}" if asks else "")
    for name, value in bindings.items():
        yield f"  '{name}' is {value}"
    yield "=> a message" + (f" that ends in {end}" if end else "")


def fails(why, clause=1):
    """The lines of one clause that doesn't fire."""
    return (f"clause {clause}: {why}", "=> no message: no clause fires")


def of_heads():
    """Each head, and each kind of term behind all others: a list, a specification and its lines."""
    for head, terms, answer in HEADS:
        yield terms, f"[{{{head},[],[]}}]", fails(answer) if isinstance(answer, str) else fires(answer)
    for own in CONSTANTS:
        others = [kind for kind in CONSTANTS if kind != own]
        clauses = ",".join(f"{{[{kind}],[],[]}}" for kind in [*others, own])
        told = [
            f"clause {number + 1}: {at(1, part=expected(SIZES.get(kind, kind)), term=own)}"
            for number, kind in enumerate(others)
        ]
        yield f"[{own}]", f"[{clauses}]", (*told, f"clause {len(CONSTANTS)} fires", "=> a message")


def nested(before, inner, behind, levels):
    """The inner text between so many openings and as many ends."""
    return before * levels + inner + behind * levels


def of_conditions():
    """Each list of conditions: a specification on [a,[1]], and whether its clause fires."""
    for conditions, holds in CONDITIONS:
        yield f"[{{['$1','$0'],[{conditions}],[]}}]", holds


def of_bodies():
    """Each body: the event, a specification, and the line of its clause."""
    for events, body, asks in BODIES:
        for event in events:
            yield event, f"[{{'_',[],[{body}]}}]", next(fires({}, asks))


def many(item, count=ELEMENTS):
    """So many of the item, with a comma between any two."""
    return ",".join([item] * count)


def of_depth():
    """Heads and expressions by which a specification is as deep as a term may be."""
    for before, behind, levels in (("[", "]", DEEPEST), ("{", "}", DEEPEST)):
        head = nested(before, "'$1'", behind, levels)
        yield f"[{nested(before, 'true', behind, levels)}]", f"[{{[{head}],['$1'],['$1']}}]", fires({"$1": "true"})
    head, terms = nested("{'_',[b,", "['$1']", "],a}", 14), nested("{x,[b,", "[true]", "],a}", 14)
    yield f"[{terms}]", f"[{{[{head}],['$1'],['$1']}}]", fires({"$1": "true"})
    for before, inner, behind, levels, value in (
        ("[", "'$1'", "]", DEEPEST, nested("[", "false", "]", DEEPEST)),
        ("{{", "{self}", "}}", 14, nested("{", "<0.100.0>", "}", 14)),
        ("{'not',", "'$1'", "}", DEEPEST, "true"),
        ("{'and',true,", "'$_'", ",{is_pid,a}}", DEEPEST - 1, "false"),
        ("{'orelse',", "'$$'", ",true}", DEEPEST, "true"),
        ("{const,", "{const,[]}", "}", DEEPEST - 2, nested("{const,", "{const,[]}", "}", DEEPEST - 3)),
    ):
        expression = nested(before, inner, behind, levels)
        fired = (*fires({"$1": "false"}), *([LOGIC] if inner in ("'$_'", "'$$'") else []))
        bound = ": '$1' is false" if inner in ("'$1'", "'$$'") else ""
        yield "[false]", f"[{{['$1'],[{expression}],[]}}]", fired if value == "true" else fails(f"condition 1 is {value}{bound}")
        yield "[false]", f"[{{['$1'],[],[{expression}]}}]", fired
    asks = ["return_trace", *["message true"] * (DEEPEST - 1)]
    action = nested("{message,", "{return_trace}", "}", DEEPEST - 1)
    yield "[]", f"[{{'_',[],[{action}]}}]", fires({}, asks)


def of_length():
    """Lists of 4,096 clauses, expressions and patterns, tuples of 255 elements, and all variables."""
    all_fire, none_fires = many("{'_',[],[]}"), many("{[],[],[]}", ELEMENTS - 1)
    yield "[a]", f"[{all_fire}]", fires({})
    told = [f"clause {number}: {OTHER}" for number in range(1, ELEMENTS)]
    last = (f"clause {ELEMENTS} fires: message last", "=> a message that ends in last")
    yield "[a]", f"[{none_fires},{{'_',[],[{{message,last}}]}}]", (*told, *last)
    values = "[" + many("'$1'") + "]"
    lists, lists_but_one, pids = many("{is_list,'$1'}"), many("{is_list,'$1'}", ELEMENTS - 1), many("{is_pid,'$1'}")
    yield "[]", f"[{{'$1',[{lists}],[{values},{{const,{values}}}]}}]", fires({"$1": "[]"})
    yield "[]", f"[{{'$1',[{lists_but_one},{{is_pid,'$1'}}],[]}}]", fails(f"condition {ELEMENTS} is false: '$1' is []")
    yield "[]", f"[{{'$1',[{pids}],[]}}]", fails("condition 1 is false: '$1' is []")
    for body, value in ((values, f"[{many('[]')}]"), (f"{{const,{values}}}", values)):
        yield "[]", f"[{{'$1',[],[{{message,{body}}}]}}]", fires({"$1": "[]"}, [f"message {value}"], value)
    args, fields = many("true", FIELDS - 1), "{" + many("7", FIELDS) + "}"
    spec = f"[{{'_',[{{'or',{args}}},{{'andalso',{args}}}],[{{message,{{{fields}}}}}]}}]"
    yield "[]", spec, fires({}, [f"message {fields}"], fields)
    for name in ("and", "andalso"):
        args = many("true", FIELDS - 2)
        yield "[]", f"[{{'_',[{{'{name}',{args},false}}],[]}}]", fails("condition 1 is false")
    same, short = many("a"), many("a", ELEMENTS - 1)
    for pattern, bindings, of_other in (
        ("'_'", {}, fires({})),
        ("'$999'", {"$999": "a"}, fails(at(ELEMENTS, part="'$999' is a", term="b"))),
        ("a", {}, fails(at(ELEMENTS, part=expected("a"), term="b"))),
    ):
        spec = f"[{{[{many(pattern)}],[],[]}}]"
        yield f"[{same}]", spec, fires(bindings)
        yield f"[{short}]", spec, fails(OTHER)
        yield f"[{short},b]", spec, of_other
    variables = ",".join(f"'${number}'" for number in range(999, -1, -1))
    bindings = {f"${number}": "1" if number == 0 else "0" for number in range(1000)}
    yield f"[{many('0', 999)},1]", f"[{{[{variables}],[],['$0','$999']}}]", fires(bindings)


def of_faults():
    """Faults at the greatest depth and in the last clause of 4,096: an event, a specification, and its refusal."""
    for call, fault in (("{max}", "unsupported function max"), ("{'$1'}", "no function '$1'/0; a tuple is written {{'$1'}}")):
        condition = nested("{'not',", call, "}", DEEPEST - 1)
        yield "call", f"[{{['$1'],[{condition}],[]}}]", f"clause 1: condition 1: {fault}"
    clauses = many("{'_',[],[]}", ELEMENTS - 1)
    yield "receive", f"[{clauses},{{'_',[],[{{ceil}}]}}]", f"clause {ELEMENTS}: body 1: unsupported function ceil"
