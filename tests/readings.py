"""Which terms are specifications, and the first fault of others, worked out from the manual.

An answer is `ok`, `badarg` or the name that isn't supported.
"""

# What sets a specification in each dialect: of calls, of sends, of receives.
COMMANDS = ("{{function,s,{{m,f,1}},{},[]}}", "{{send,s,{},[]}}", "{{recv,s,{},[]}}")

# More arguments than any call here has.
ANY = 9

# The functions that take these numbers of arguments, from the least to the greatest; names of no function take none.
FUNCTIONS = {
    (1, 1): (
        "is_atom is_integer is_list is_tuple is_pid is_number is_boolean is_float is_port is_reference "
        "is_map is_binary is_bitstring is_function hd tl length size tuple_size abs bnot not"
    ),
    (2, 2): "element + - * div rem band bor bxor > >= < =< == =:= /= =/= xor",
    (0, 0): "self",
    (0, 1): "node",
    (1, ANY): "and or andalso orelse",
}
NO_FUNCTIONS = ("IS_ATOM", "")

# The names that aren't supported.
UNSUPPORTED = """
is_record is_seq_trace set_seq_token get_seq_token set_tcw get_tcw display process_dump caller_line
current_stacktrace bsl bsr max min float round trunc ceil floor map_get map_size is_map_key bit_size
byte_size binary_part
"""

# Calls of actions, and the dialects in which a body has them: of calls, of sends, of receives.
ACTIONS = (
    ("{message,1}", (True, True, True)),
    ("{message}", (False, False, False)),
    ("{message,1,2}", (False, False, False)),
    ("{return_trace}", (True, True, True)),
    ("{return_trace,1}", (False, False, False)),
    ("{exception_trace}", (True, True, True)),
    ("{exception_trace,1}", (False, False, False)),
    ("{silent,true}", (True, True, False)),
    ("{silent,7}", (True, True, False)),
    ("{silent}", (False, False, False)),
    ("{silent,true,true}", (False, False, False)),
    ("{enable_trace,call}", (True, True, False)),
    ("{enable_trace,<0.100.0>,call}", (True, True, False)),
    ("{enable_trace}", (False, False, False)),
    ("{enable_trace,1,2,3}", (False, False, False)),
    ("{disable_trace,call}", (True, True, False)),
    ("{disable_trace,1,2}", (True, True, False)),
    ("{disable_trace,1,2,3}", (False, False, False)),
    ("{trace,[],[]}", (True, True, False)),
    ("{trace,<0.100.0>,[],[]}", (True, True, False)),
    ("{trace}", (False, False, False)),
    ("{trace,[]}", (False, False, False)),
    ("{trace,1,2,3,4}", (False, False, False)),
    ("{caller}", (True, False, False)),
    ("{caller,1}", (False, False, False)),
)

# Terms, and the answer on each as a specification of calls.
TEXTS = (
    # Shapes.
    ("[{'_',[],[]}]", "ok"),
    ("[{[],[],[]}]", "ok"),
    ("[{'_',[true],[true]},{'$1',[],[]}]", "ok"),
    ("0", "badarg"),
    ("-9223372036854775808", "badarg"),
    ("'_'", "badarg"),
    ("<0.100.0>", "badarg"),
    ("{}", "badarg"),
    ("{'_',[],[]}", "badarg"),
    ("[0]", "badarg"),
    ("[a]", "badarg"),
    ("[<0.100.0>]", "badarg"),
    ("[{}]", "badarg"),
    ("[[]]", "badarg"),
    ("[{a,b,c}]", "badarg"),
    ("[{'_'}]", "badarg"),
    ("[{'_',[]}]", "badarg"),
    ("[{'_',[],[],[]}]", "badarg"),
    ("[['_',[],[]]]", "badarg"),
    ("[{'_',a,[]}]", "badarg"),
    ("[{'_',[],a}]", "badarg"),
    ("[{'_',{},[]}]", "badarg"),
    ("[{'_',[],{}}]", "badarg"),
    ("[{'_',[],[]},0]", "badarg"),
    ("[{'_',[],[]},[]]", "badarg"),
    # The first fault: clauses in order; of a clause its shape, the head, the conditions, the body; of an
    # expression first itself, then its arguments.
    ("[{'_',[{max}],a}]", "badarg"),
    ("[{7,[{max}],[]}]", "badarg"),
    ("[{'_',[{max}],[{no_such}]}]", "max"),
    ("[{'_',[{no_such}],[{max}]}]", "badarg"),
    ("[{'_',[{max},{no_such}],[]}]", "max"),
    ("[{'_',[{no_such},{max}],[]}]", "badarg"),
    ("[{'_',[],[{trunc},{no_such}]},a]", "trunc"),
    ("[{'_',[],[]},a,{'_',[{max}],[]}]", "badarg"),
    ("[{'_',[],[]},{'_',[{max}],[]},a]", "max"),
    ("[{'_',[{no_such,{max}}],[]}]", "badarg"),
    ("[{'_',[{is_pid,{max},a}],[]}]", "badarg"),
    ("[{'_',[{message,{max}}],[]}]", "badarg"),
    ("[{'_',[{is_pid,{max}}],[]}]", "max"),
    ("[{'_',[{max,{no_such}}],[]}]", "max"),
    ("[{'_',[{min,'$2'}],[]}]", "min"),
    ("[{'_',[{element,{max},{min}}],[]}]", "max"),
    ("[{'_',[{element,'$1',{min}}],[]}]", "badarg"),
    ("[{'_',[],[[{max},{min}]]}]", "max"),
    ("[{'_',[],[{{{min},{max}}}]}]", "min"),
    ("[{'_',[],[{'andalso',{'orelse',{'bsl'}},{'bsr'}}]}]", "bsl"),
    ("[{'_',[],[{display,1}]}]", "display"),
    # Variables of heads.
    ("[{'$3',['$3'],['$3']}]", "ok"),
    ("[{'$3',[],['$0']}]", "badarg"),
    ("[{[{a,['$7']}],['$7'],[]}]", "ok"),
    ("[{['$7',{'$0','$999'}],[],[['$999','$0']]}]", "ok"),
    ("[{['$7'],[],[]},{['_'],['$7'],[]}]", "badarg"),
    ("[{[{const,'$7'}],['$7'],[]}]", "ok"),
    # A variable that no head binds.
    ("[{'_',[],[{message,'$1'}]}]", "badarg"),
    # A name that isn't supported.
    ("[{'_',[{is_record,'$_',a}],[]}]", "is_record"),
)

# Heads of a clause, and the answer on each.
HEADS = (
    ("'_'", "ok"),
    ("'$0'", "ok"),
    ("'$10'", "ok"),
    ("'$999'", "ok"),
    ("[]", "ok"),
    ("['$0','$999','_',[],{},a,-1,<0.0.0>]", "ok"),
    ("['$1',{'$1',['$1',{}]}]", "ok"),
    ("['$_',{'$$'},'$','$a','$1a','$-1']", "ok"),
    ("[{const,a}]", "ok"),
    ("'$_'", "badarg"),
    ("'$$'", "badarg"),
    ("'$1000'", "badarg"),
    ("'$01'", "badarg"),
    ("'$00'", "badarg"),
    ("'$'", "badarg"),
    ("a", "badarg"),
    ("7", "badarg"),
    ("<0.100.0>", "badarg"),
    ("{}", "badarg"),
    ("{'$1'}", "badarg"),
    ("['$1000']", "badarg"),
    ("['$99999999999999999999']", "badarg"),
    ("[a,{'$01'}]", "badarg"),
    ("[[['$00']]]", "badarg"),
    ("[{const,'$1000'}]", "badarg"),
)

# What stands as a condition and in a body, and the answer on each.
EXPRESSIONS = (
    # Expressions.
    ("'$1'", "ok"),
    ("'$_'", "ok"),
    ("'$$'", "ok"),
    ("0", "ok"),
    ("a", "ok"),
    ("'_'", "ok"),
    ("'$'", "ok"),
    ("<0.100.0>", "ok"),
    ("[]", "ok"),
    ("['$1',[{{}}],a]", "ok"),
    ("{{}}", "ok"),
    ("{{'$1',{{a}}}}", "ok"),
    ("{const,'$1000'}", "ok"),
    ("{const,{}}", "ok"),
    ("{const,{max}}", "ok"),
    # Terms that are none.
    ("'$2'", "badarg"),
    ("'$0'", "badarg"),
    ("'$1000'", "badarg"),
    ("'$01'", "badarg"),
    ("{}", "badarg"),
    ("{0}", "badarg"),
    ("{<0.100.0>}", "badarg"),
    ("{[]}", "badarg"),
    ("{{},0}", "badarg"),
    ("{{a},{b}}", "badarg"),
    ("{{{}}}", "badarg"),
    ("[{}]", "badarg"),
    ("{{'$2'}}", "badarg"),
    ("['$2']", "badarg"),
    ("{const}", "badarg"),
    ("{const,a,b}", "badarg"),
    ("{'$1'}", "badarg"),
    ("{'_'}", "badarg"),
    ("{no_such,'$1'}", "badarg"),
)


def in_condition(expression):
    """A specification with this condition."""
    return f"[{{['$1'],[{expression}],[]}}]"


def in_body(expression):
    """A specification with this body."""
    return f"[{{['$1'],[],[{expression}]}}]"


def call_of(name, count):
    """A call of the name with so many arguments."""
    return "{'%s'%s}" % (name, ",1" * count)


def of_calls():
    """Each call as an expression, and the answer on it: of functions, of no functions and of unsupported names."""
    for (least, most), names in FUNCTIONS.items():
        for name in names.split():
            for count in range(5):
                yield call_of(name, count), "ok" if least <= count <= most else "badarg"
    for name in NO_FUNCTIONS:
        for count in range(5):
            yield call_of(name, count), "badarg"
    for name in UNSUPPORTED.split():
        for count in (0, 1, 4):
            yield call_of(name, count), name


def rows():
    """Each specification with its dialect, by its place in COMMANDS, and the answer on it."""
    for spec, answer in TEXTS:
        yield 0, spec, answer
    for head, answer in HEADS:
        yield 0, "[{%s,[],[]}]" % head, answer
    for expression, answer in (*EXPRESSIONS, *of_calls()):
        for dialect in range(3):
            yield dialect, in_condition(expression), answer
            yield dialect, in_body(expression), answer
    for action, bodies in ACTIONS:
        for dialect, is_allowed in enumerate(bodies):
            yield dialect, in_condition(action), "badarg"
            yield dialect, in_body(action), "ok" if is_allowed else "badarg"


def reply(answer):
    """The reply to a command with a specification of this answer: one function, or one setting.

    A name that is a reserved word is written between quotes.
    """
    name = f"'{answer}'" if answer in ("bsl", "bsr") else answer
    return {"ok": "1", "badarg": "badarg"}.get(answer, "{unsupported,%s}" % name)
