"""Cases of funs: the command `fun`, its specifications and its refusals. In a fun that is refused `^` is where."""
import json
import re

from format_cases import line_members
from harness import TEXT_BYTES, TOP, check, run, wants

# Each fun, and its specification.
FUNS = (
    ("fun([X,Y]) -> message(bindings()) end", "[{['$1','$2'],[],[{message,'$*'}]}]"),
    ("fun([X]) -> {'$1','$_','$a','$',X} end", "[{['$1'],[],[{{{const,'$1'},{const,'$_'},{const,'$a'},{const,'$'},'$1'}}]}]"),
    ("fun([X]) -> message({a,{X,{}},[{X}]}) end", "[{['$1'],[],[{message,{{a,{{'$1',{{}}}},[{{'$1'}}]}}}]}]"),
    ("fun([X]) when X > 60 * 60 * 24 -> message(7 div 2 - 7 rem 2) end", "[{['$1'],[{'>','$1',86400}],[{message,2}]}]"),
    (
        'fun([X]) when "a" == "a", [97] == "a", "" == [] -> true end',
        "[{['$1'],[{'==',[97],[97]},{'==',[97],[97]},{'==',[],[]}],[true]}]",
    ),
    ("fun([M,N]) when N > 3 -> return_trace() end", "[{['$1','$2'],[{'>','$2',3}],[{return_trace}]}]"),
    ("fun(Args) when length(Args) > 6 -> true end", "[{'$1',[{'>',{length,'$1'},6}],[true]}]"),
    ("fun([toy_table,_]) -> true end", "[{[toy_table,'_'],[],[true]}]"),
    (
        "fun([toy_table,{A,_}]) when is_atom(A) ->\n    message(caller())\nend",
        "[{[toy_table,{'$1','_'}],[{is_atom,'$1'}],[{message,{caller}}]}]",
    ),
    ("fun([a,_] = A) -> A end", "[{[a,'_'],[],['$_']}]"),
    ("fun([a,_]) -> object() end", "[{[a,'_'],[],['$_']}]"),
    ("fun([toy_table,_]) -> return_trace() end", "[{[toy_table,'_'],[],[{return_trace}]}]"),
    ("fun([A]) when is_atom(A) -> return_trace() end", "[{['$1'],[{is_atom,'$1'}],[{return_trace}]}]"),
    ("fun([_,_]) -> true end", "[{['_','_'],[],[true]}]"),
    (
        "fun([X]) when X == 1; X == 2 -> message(X) end",
        "[{['$1'],[{'==','$1',1}],[{message,'$1'}]},{['$1'],[{'==','$1',2}],[{message,'$1'}]}]",
    ),
    (
        "fun([X]) when is_atom(X), X =/= a; is_list(X); X > 3, X < 9 -> true; (_) -> message(false) end",
        "[{['$1'],[{is_atom,'$1'},{'=/=','$1',a}],[true]},{['$1'],[{is_list,'$1'}],[true]},"
        "{['$1'],[{'>','$1',3},{'<','$1',9}],[true]},{'_',[],[{message,false}]}]",
    ),
    ("fun(All = [X]) -> {All,X} end", "[{['$1'],[],[{{'$_','$1'}}]}]"),
    (
        "fun([{B,A},[A,C],_,_X]) -> {A,B,C,_X} end",
        "[{[{'$1','$2'},['$2','$3'],'_','$4'],[],[{{'$2','$1','$3','$4'}}]}]",
    ),
    ("fun([X,Y,X]) -> Y end", "[{['$1','$2','$1'],[],['$2']}]"),
    # Tokens: blanks, comments, a full stop, integers, characters, escapes, atoms and strings.
    (" % c\nfun ( [ ] )\t->\r\n true end . % d", "[{[],[],[true]}]"),
    ("fun(_)->true end.", "[{'_',[],[true]}]"),
    ("fun([007,$a,$\\n,$\\s,$',-1,- 2]) -> 9223372036854775807 end", "[{[7,97,10,32,39,-1,-2],[],[9223372036854775807]}]"),
    ("fun(['a b',a@B_1,'\\'\\\\']) -> 'end' end", "[{['a b',a@B_1,'\\'\\\\'],[],['end']}]"),
    ('fun(["a\\"b\\t", "c" "d", ""]) -> "e" "f" end', "[{[[97,34,98,9],[99,100],[]],[],[[101,102]]}]"),
    ("fun([X]) -> X=<-1 end", "[{['$1'],[],[{'=<','$1',-1}]}]"),
    # Levels.
    ("fun([X,Y]) -> not X == Y end", "[{['$1','$2'],[],[{'==',{'not','$1'},'$2'}]}]"),
    ("fun([X,Y,Z]) -> X or Y and Z end", "[{['$1','$2','$3'],[],[{'or','$1',{'and','$2','$3'}}]}]"),
    ("fun([X,Y]) -> X == 1 and Y end", "[{['$1','$2'],[],[{'==','$1',{'and',1,'$2'}}]}]"),
    ("fun([X,Y,Z]) -> X - Y - Z end", "[{['$1','$2','$3'],[],[{'-',{'-','$1','$2'},'$3'}]}]"),
    ("fun([X,Y,Z]) -> X - (Y - Z) end", "[{['$1','$2','$3'],[],[{'-','$1',{'-','$2','$3'}}]}]"),
    ("fun([X,Y,Z]) -> X andalso Y andalso Z end", "[{['$1','$2','$3'],[],[{'andalso','$1',{'andalso','$2','$3'}}]}]"),
    ("fun([X,Y,Z]) -> X andalso Y orelse Z end", "[{['$1','$2','$3'],[],[{'orelse',{'andalso','$1','$2'},'$3'}]}]"),
    ("fun([X,Y]) -> bnot X * Y end", "[{['$1','$2'],[],[{'*',{'bnot','$1'},'$2'}]}]"),
    # Names, heads and patterns.
    ("fun(X) -> X end", "[{'$1',[],['$1']}]"),
    ("fun(N = V) -> {N,V} end", "[{'$1',[],[{{'$_','$1'}}]}]"),
    ("fun([X,_] = _) -> {X,_} end", "[{['$1','$_'],[],[{{'$1','$_'}}]}]"),
    ("fun([X,Y] = X) -> Y end", "[{['$_','$1'],[],['$1']}]"),
    ("fun(_) -> message(_) end", "[{'_',[],[{message,'_'}]}]"),
    ("fun(['$_','$$','$a','$',{a,{}}]) -> true end", "[{['$_','$$','$a','$',{a,{}}],[],[true]}]"),
    ('fun([a|[b|"c"]]) -> [a|[b|("c")]] end', "[{[a,b,99],[],[[a,b,99]]}]"),
    ("fun([X]) -> true; ([Y,X]) -> X end", "[{['$1'],[],[true]},{['$1','$2'],[],['$2']}]"),
    # Constants.
    ("fun([X]) -> 1 + 2 + X, X + 1 + 2 end", "[{['$1'],[],[{'+',3,'$1'},{'+',{'+','$1',1},2}]}]"),
    ("fun([X]) -> 1 div 0 > X, not 1 end", "[{['$1'],[],[{'>',{'div',1,0},'$1'},{'not',1}]}]"),
    ("fun(_) -> -7 div 2, -7 rem 2, 6 band 3, 6 bor 3, 6 bxor 3, bnot 5, - -3 end", "[{'_',[],[-3,-1,2,7,5,-6,3]}]"),
    ("fun(_) -> 1 < a, [a|[b]] == [a,b], {} =:= {a}, a >= b, [$a] == \"a\" end", "[{'_',[],[true,true,false,false,{'==',[97],[97]}]}]"),
    ("fun(_) -> true and false, true or false, true xor true, not true, true and 1 end", "[{'_',[],[false,true,false,false,{'and',true,1}]}]"),
    ("fun(_) -> true andalso false, true orelse false end", "[{'_',[],[{'andalso',true,false},{'orelse',true,false}]}]"),
    ("fun(_) -> '$1' == '$1', -9223372036854775808 end", "[{'_',[],[true,-9223372036854775808]}]"),
    # Functions and actions.
    (
        "fun([X,Y]) when abs(X) == element(1,Y), hd(X), tl(X), size(Y), node() == node(X), self() == Y -> true end",
        "[{['$1','$2'],[{'==',{abs,'$1'},{element,1,'$2'}},{hd,'$1'},{tl,'$1'},{size,'$2'},{'==',{node},{node,'$1'}},"
        "{'==',{self},'$2'}],[true]}]",
    ),
    (
        "fun(_) -> exception_trace(), silent(true), enable_trace(call), enable_trace(self(),call), disable_trace(call),"
        " disable_trace(self(),call), trace([],[call]), trace(self(),[],[call]) end",
        "[{'_',[],[{exception_trace},{silent,true},{enable_trace,call},{enable_trace,{self},call},{disable_trace,call},"
        "{disable_trace,{self},call},{trace,[],[call]},{trace,{self},[],[call]}]}]",
    ),
)

# Each fun that is refused, and the line.
REFUSED = (
    ("fun([X]) when ^message(X) -> true end", "23 no function message/1"),
    ("fun([X]) when X^<-1 -> true end", "21 no <-"),
    ("fun([^<<X>>]) -> X end", "21 no <<"),
    ("fun([X]) -> message(X), ^end", "2 token"),
    ("fun([X]) -> ^display(X) end", "24 unsupported display"),
    ("fun([X]) -> ^end", "2 token"),
    ("fun([X]) -> ^fun(Y) -> Y end end", "21 no fun"),
    ("fun(^{X}) -> X end", "2 token"),
    ("fun([X|^_]) -> X end", "26 list with a tail"),
    ("fun([X]) -> Y ^= X, message(Y) end", "21 no ="),
    ("fun([X]) -> ^maybe X end end", "21 no maybe"),
    ("fun ^F([X]) -> X end", "2 token"),
    ("fun([X]) -> X^", "2 token"),
    ("fun([X]) when ^+X > 1 -> true end", "2 token"),
    ("fun([X]) when erlang^:element(1,X) == a -> true end", "21 no :"),
    ("fun([X]) when X ^bsl 1 > 1 -> true end", "21 no bsl"),
    (f"fun([X]) -> ^{'[' * 30}X{']' * 30} end", "3 too deep"),
    ("fun([X]) when ^tuple_size(X) == 2 -> true end", "23 no function tuple_size/1"),
    ("fun([X]) when X > ^Limit -> true end", "22 unbound Limit"),
    ("fun([X]) -> ^enable_trace(a,b,X) end", "23 no function enable_trace/3"),
    # Tokens.
    ("^", "2 token"),
    ("fun(_) -> ^1.5 end", "21 no float"),
    ("fun(_) -> ^16#ff end", "21 no number"),
    ("fun(_) -> ^1_000 end", "21 no number"),
    ("fun(_) -> ^\"a\"\"b\" end", "2 token"),
    ("fun(_) -> ^'a end", "2 token"),
    ("fun(_) -> ^\"\\x41\" end", "2 token"),
    ("fun(_) -> ^'\\n' end", "2 token"),
    ("fun(_) -> true end. ^a", "2 token"),
    ("fun(_) -> true end^.a", "2 token"),
    # The grammar.
    ("fun([X]) -> 1 < X ^< 5 end", "2 token"),
    ("fun(^([X])) -> X end", "2 token"),
    ("fun([^|X]) -> X end", "2 token"),
    ("fun([^X + 1]) -> X end".replace("^X +", "X ^+"), "2 token"),
    ("fun([- ^- 1]) -> true end", "2 token"),
    ("fun(X = Y ^= Z) -> X end", "21 no ="),
    ("^foo", "2 token"),
    # Limits.
    ("fun(_) -> ^9223372036854775808 end", "4 too large"),
    ("fun(_) -> -^9223372036854775809 end", "4 too large"),
    ("fun(_) -> 9223372036854775807 ^+ 1 end", "4 too large"),
    ("fun(_) -> 9223372036854775807 ^+ 1 - 1 end", "4 too large"),
    ("fun(_) -> ^- (-9223372036854775807 - 1) end", "4 too large"),
    (f"fun(_) -> ^{'a' * 256} end", "4 too large"),
    (f"fun(^{'X' * 256}) -> true end", "4 too large"),
    (f"fun(_) -> ^\"{'a' * 4097}\" end", "4 too large"),
    (f"fun(_) -> \"{'a' * 4096}\" ^\"b\" end", "4 too large"),
    (f"fun(_) -> {{{','.join('a' * 255)}^,a}} end", "4 too large"),
    (f"fun(_) -> [{','.join('a' * 4096)}^,a] end", "4 too large"),
    (f"fun(_) -> [{','.join('a' * 4095)}|^[a,b]] end", "4 too large"),
    (f"fun(_) -> {'(' * 64}^(a{')' * 65} end", "3 too deep"),
    (f"fun([X]) -> X{' + X' * 64} ^+ X end", "3 too deep"),
    (f"fun(^{'[' * 31}{']' * 31}) -> true end", "3 too deep"),
    (f"fun([{','.join(f'X{i}' for i in range(999))},^X999]) -> true end", "4 too large"),
    (f"fun(_) when {'true;' * 4095}true^; true -> true end", "4 too large"),
    (f"fun^(_) when {'a;' * 300}a -> \"{'a' * 4000}\" end", "4 too large"),
    # Translation.
    ("fun([^'$1']) -> true end", "25 head atom '$1'"),
    ("fun([^'$01']) -> true end", "25 head atom '$01'"),
    ("fun([^'$+1']) -> true end", "25 head atom '$+1'"),
    ("fun([^'$-1']) -> true end", "25 head atom '$-1'"),
    ("fun([X]) -> [a|^X] end", "26 list with a tail"),
    ("fun([X]) -> ^-X end", "27 minus"),
    ("fun([X]) -> ^- - X end".replace("^- - X", "- ^- X"), "27 minus"),
    ("fun(N = ^N) -> true end", "28 whole head N"),
    ("fun(_ = ^_) -> true end", "28 whole head _"),
    # Which is first.
    ("fun(N = ^N) when Z -> true end", "28 whole head N"),
    ("fun([^'$1']) when Z -> true end", "25 head atom '$1'"),
    ("fun([X]) when X; Z -> ^Y end", "22 unbound Y"),
    ("fun([X]) when ^Z; X -> Y end", "22 unbound Z"),
    ("fun([X]) -> ^display(Y) end", "24 unsupported display"),
    ("fun([X]) -> ^foo(Y) end", "23 no function foo/1"),
    ("fun([X]) -> ^Z + -Y end", "22 unbound Z"),
    ("fun([X]) -> -^Y end", "22 unbound Y"),
    # Names.
    ("fun([X]) when ^is_boolean(X) -> true end", "23 no function is_boolean/1"),
    ("fun([X]) when ^is_bitstring(X) -> true end", "23 no function is_bitstring/1"),
    ("fun([X]) when ^is_record(X,a,2) -> true end", "24 unsupported is_record"),
    ("fun([X]) when ^is_function(X,2) -> true end", "23 no function is_function/2"),
    ("fun([X]) -> ^object(X) end", "23 no function object/1"),
    ("fun([X]) -> ^'A b'(X) end", "23 no function 'A b'/1"),
)

# Each specification, and the fun that it is of.
PRETTY = (
    ("[{['$1','$2'],[{'>','$2',3}],[{message,'$1'}]}]", "fun([X1, X2]) when X2 > 3 -> message(X1) end"),
    ("[{'_',[],[true]}]", "fun(_) -> true end"),
    ("[{'$1',[],['$1','$_','$*']}]", "fun(X1) -> X1, object(), bindings() end"),
    ("[{['$1'],[{'==','$1',1}],[true]},{['$1'],[{'==','$1',2}],[true]}]", "fun([X1]) when X1 == 1 -> true;\n   ([X1]) when X1 == 2 -> true end"),
    ("[{['$1'],[{is_atom,'$1'},{'not',{is_list,'$1'}}],[{{a,'$1',{{}}}},{const,'$a'}]}]", "fun([X1]) when is_atom(X1), not is_list(X1) -> {a, X1, {}}, '$a' end"),
    ("[{[{a,'$1'},'_',-1,\"ab\"],[],[\"a\\\"b\\\\\",[1],[]]}]", 'fun([{a, X1}, _, -1, "ab"]) -> "a\\"b\\\\", [1], [] end'),
    ("[{\"ab\",[],[a]}]", "fun([97, 98]) -> a end"),
    ("[{['$1'],[],[{'-','$1',-1},{'*',{'+','$1',1},2},{'+','$1',{'*','$1',2}}]}]", "fun([X1]) -> X1 - -1, (X1 + 1) * 2, X1 + X1 * 2 end"),
    ("[{['$1'],[],[{'-','$1',{'-','$1',1}},{'-',{'-','$1',1},2},{'andalso',{'andalso','$1',a},b}]}]", "fun([X1]) -> X1 - (X1 - 1), X1 - 1 - 2, (X1 andalso a) andalso b end"),
    ("[{['$1'],[],[{'==',{'<','$1',1},true},{'not',{'==','$1',1}}]}]", "fun([X1]) -> (X1 < 1) == true, not (X1 == 1) end"),
    ("[{'_',[],[{'==',[],[1]},{'==',[1],[]},{'==',{{[1]}},a}]}]", 'fun(_) -> "" == [1], [1|""] == [], {[1|""]} == a end'),
    ("[{['$_','$*','$a'],[],[{return_trace}]}]", "fun(['$_', '$*', '$a']) -> return_trace() end"),
)

# Each specification that no fun has, and why.
NO_FUNS = (
    ("[{['$1'],[],[{message,'$$'}]}]", "clause 1: body 1: no expression of a fun is '$$'"),
    ("[{['$1'],[{'==',1,1}],[true]}]", "clause 1: condition 1: a fun computes {'==',1,1} before it is a specification"),
    (
        "[{['$1'],[{'==','$1',{const,{a}}}],[true]}]",
        "clause 1: condition 1: a fun has {const,T} of atoms that begin with $ alone, and {const,{a}} is another",
    ),
    ("[{'_',[],[]}]", "clause 1: body: the body is empty, and that of a fun has an expression; true there has no effect"),
    (
        "[{'_',[],[true]},{['$2','$1'],[],[true]}]",
        "clause 2: head: '$2' comes before '$1': the variables of a fun have the numbers from 1 in their order",
    ),
    ("[{['$1',<0.101.0>],[],[true]}]", "clause 1: head: a fun has no pids, and <0.101.0> is one"),
    ("[{['$1'],[],[true,{'and',true,'$1',a}]}]", "clause 1: body 2: a fun has no call and/3"),
    ("[{['$1'],[{tuple_size,'$1'}],[true]}]", "clause 1: condition 1: a fun has no call tuple_size/1"),
)

# What standard error says of each refusal.
WORDS = {
    2: "no fun has this here, or the text ends too soon",
    3: "this nests too deep",
    4: "this is past a limit",
    21: "a match specification has nothing for this",
    22: "the head doesn't bind this variable; write a value in its place",
    23: "no such function may be called here; actions are in bodies",
    24: "this function isn't modelled",
    25: "an atom of $ and a number is a variable in a head",
    26: "a tail is a list or a string here",
    27: "write 0 - X",
    28: "both parts of the head are this variable",
}

# The words and symbols that are left out, each where an operand or an operator may be.
LEFT_OUT_WORDS = "after begin case catch cond else if let maybe of receive try".split()
LEFT_OUT_SYMBOLS = "<- <= << >> => := :: : ++ -- / || ... .. ?= ? ! # ~ bsl bsr".split()

# Each event, and an action that its bodies haven't.
LACKING = (("send", "caller()", 0), ("receive", "caller()", 0), ("receive", "silent(true)", 1), ("receive", "trace([],[])", 2))


def fun_specifications():
    """Funs that have a specification, what it is, and that `spec` takes it."""
    for fun, spec in FUNS:
        wants(f"fun {fun}", run(["fun", fun]), 0, f"{spec}\n".encode(), notes_on(fun))
        tried = run(["spec", "--list", "[a]", spec])
        check(f"the specification of {fun}", tried.returncode == 0, tried)
    fun, spec = FUNS[0]
    wants("a fun from standard input", run(["fun"], f"{fun}\n".encode()), 0, f"{spec}\n".encode(), notes_on(fun))
    wants("a fun from -", run(["fun", "-"], fun.encode()), 0, f"{spec}\n".encode(), notes_on(fun))
    for event in ("call", "send", "receive"):
        wants(f"a fun for {event}", run(["fun", "--for", event, fun]), 0, f"{spec}\n".encode(), notes_on(fun))


def pretty_funs():
    """Specifications and the funs that they are of, which are translated back; specifications that no fun has; other terms."""
    for spec, fun in PRETTY:
        wants(f"the fun of {spec}", run(["fun", "--pretty", spec]), 0, f"{fun}\n".encode())
        whole = spec.replace('"ab"', "[97,98]").replace('"a\\"b\\\\"', "[97,34,98,92]")
        wants(f"the specification of {fun}", run(["fun", fun]), 0, f"{whole}\n".encode(), notes_on(fun))
    for fun, spec in FUNS:
        shown = run(["fun", "--pretty", spec])
        again = run(["fun"], shown.stdout)
        check(f"the fun of {spec}", shown.returncode == 0 and again.stdout == f"{spec}\n".encode(), (shown, again))
    for spec, reason in NO_FUNS:
        wants(f"no fun of {spec}", run(["fun", "--pretty", spec]), 2, b"", f"no fun: {reason}\n".encode())
    spec, fun = PRETTY[0]
    for words, text in (([], f"{spec}.\n"), (["-"], spec), (["--for", "send"], spec)):
        wants(f"a specification by {words}", run(["fun", "--pretty", *words], text.encode()), 0, f"{fun}\n".encode())
    for text, told in (("[", "specification:1:2: "), ("[]", "specification: "), ("[{a,[],[]}]", "specification: ")):
        ran = run(["fun", "--pretty", text])
        check(f"the fun of {text}", ran.returncode == 2 and not ran.stdout and ran.stderr.decode().startswith(told), ran)
    ran = run(["fun", "--pretty", "--for", "receive", "[{'_',[],[{caller}]}]"])
    check("the fun of a body for other events", ran.returncode == 2 and ran.stderr.startswith(b"specification: "), ran)


# Lists on which the specifications of funs are tested.
LISTS = ("[]", "[1]", "[a]", "[7,8]", "[a,{b,c}]")

# Funs whose words are easily mixed up: guards in several lines, comments, brackets, names that differ in case.
WORDS_OF_FUNS = (
    "fun([X]) when X  > % c, d; e ->\n\t3 -> message(X) end",
    "fun([X]) when X == 1, true; element( 1,{X,X} )==[X,$,|\"b,;\"] , not(X) ;X==a->X end",
    "% one (\nfun\n ([X,_]) when X > 8 -> X;\n\n\t([x,Y]) when % (\n is_atom(Y) -> true;\n   (All = [Who,{b,Id}]) when is_atom(Who),\n     hd(Id) -> All;\n   ([P,Q]=_R) -> {P,Q} end .",
    "fun([A,{A,_}]) -> A;([A,{B,A}])->{A,B};\n([a,{Aa,'A'}]) when Aa=:='A';Aa =/= 'A', Aa == \"x\" ; hd( Aa ) -> Aa; (_) -> 1 end",
    "fun(X) when length(X)>1,hd(X)==$\\s;length(X) == 1 -> X; (Y) when Y == [] ; (Y == [a]) -> Y; (Z) -> Z end",
    "fun([X1,X]) when X1 == X; X < X1 -> X end",
)

# A token of a fun: a comment, a quoted text, a character, a variable, a word or a number, two signs or one.
TOKEN = re.compile(r"%[^\n]*|'(?:\\.|[^'\\])*'|\"(?:\\.|[^\"\\])*\"|\$(?:\\.|.)|[A-Za-z0-9_@]+|->|=:=|=/=|[=/<>]=|=<|<-|[^\s]", re.S)
VARIABLE = re.compile(r"[A-Z_][A-Za-z0-9_@]*")


def parts_of(tokens, separators):
    """The tokens between separators that are in no bracket, each with the separator after it; and the tokens after the last."""
    parts, part, opened = [], [], 0
    for token in tokens:
        if not opened and token.group() in separators:
            parts.append((part, token.group()))
            part = []
        else:
            opened += (token.group() in "([{") - (token.group() in ")]}")
            part.append(token)
    return parts, part


def clauses_of(fun):
    """Of each clause of a fun its `(`, and the tokens of its head, its guards and its body."""
    tokens = [token for token in TOKEN.finditer(fun) if not token.group().startswith("%")]
    at, end = 1, ";"
    while end == ";":
        opening = tokens[at]
        head = parts_of(tokens[at + 1 :], (")",))[0][0][0]
        at += len(head) + 2
        guards = parts_of(tokens[at:], ("->",))[0][0][0]
        at += len(guards) + 1
        body, end = parts_of(tokens[at:], (";", "end"))[0][0]
        at += len(body) + 1
        yield opening, head, guards[1:], body


def parts_between(tokens, separator):
    """All tokens by parts, between separators that are in no bracket."""
    parts, last = parts_of(tokens, (separator,))
    return [*(part for part, _ in parts), last]


def whole_and_rest(head):
    """The name of the whole of a head, where it has one, and the tokens of what is matched."""
    parts = parts_between(head, "=")
    if len(parts) == 1:
        return None, head
    first, second = parts
    if len(first) == 1 and VARIABLE.fullmatch(first[0].group()):
        return first[0].group(), second
    return second[0].group(), first


def names_of(head):
    """The names of a head's variables in the order of their numbers."""
    whole, rest = whole_and_rest(head)
    found = [token.group() for token in rest if VARIABLE.fullmatch(token.group())]
    return list(dict.fromkeys(name for name in found if name not in ("_", whole)))


def guard_text(tokens):
    """The tokens as they stand, with one blank where blanks or comments are between two."""
    pairs = zip(tokens, [None, *tokens])
    return "".join((" " if last and last.end() != token.start() else "") + token.group() for token, last in pairs)


def words_of(fun):
    """Of each clause of a fun's specification the line of the fun's clause, the texts of its guards, and its names."""
    words = []
    for opening, head, guards, _ in clauses_of(fun):
        line = fun.count("\n", 0, opening.start()) + 1
        for guard in parts_between(guards, ";"):
            texts = [guard_text(part) for part in parts_between(guard, ",") if part]
            words.append((line, texts, names_of(head)))
    return words


def note_on(token, after, whole):
    """What is noted of a token of a guard or a body, before another token."""
    word = token.group().strip("'")
    if word == "_" != whole:
        return "_ is the atom '_' here"
    if after == "(" and word == "bindings":
        return "bindings() is the atom '$*', on a node and here"
    if after == "(" and word in ("enable_trace", "disable_trace", "trace"):
        return f"erlang:match_spec_test/3 of OTP 27 can end the node at {word}"
    return None


def notes_on(fun):
    """The notes on a fun, each with its place."""
    notes = []
    for _, head, guards, body in clauses_of(fun):
        whole, rest = whole_and_rest(head)
        said = f"{whole} is the whole, and in the list it is the atom '$_'"
        notes += [(token.start(), said) for token in rest if token.group() == whole]
        for tokens in (guards, body):
            afters = [*(token.group() for token in tokens[1:]), None]
            notes += [(token.start(), note_on(token, after, whole)) for token, after in zip(tokens, afters)]
    places = ((fun.count("\n", 0, at) + 1, at - fun.rfind("\n", 0, at), note) for at, note in notes if note)
    return "".join(f"fun:{line}:{column}: {note}\n" for line, column, note in places).encode()


def in_words(fun, lines):
    """The lines of `spec` in the words of the fun."""
    words, answer, names = words_of(fun), [], []
    for line in lines:
        found = re.match(r"clause (\d+)(: condition (\d+)|: the head doesn't match at element [^:]*: '\$(\d+)'|)", line)
        if found:
            number, reason, condition, variable = found.groups()
            where, guards, names = words[int(number) - 1]
            said = reason
            if condition:
                said = f": guard {guards[int(condition) - 1]}"
            elif variable:
                said = reason.replace(f"'${variable}'", names[int(variable) - 1])
            rest = line[found.end() :]
            if condition:
                rest = re.sub(r"(: |, )'\$(\d+)' is ", lambda name: f"{name[1]}{names[int(name[2]) - 1]} is ", rest)
            line = f"clause {number} (line {where}){said}{rest}"
        elif line.startswith("  '$"):
            number = re.match(r"  '\$(\d+)'", line).group(1)
            line = f"  {names[int(number) - 1]}{line[len(number) + 5 :]}"
        answer.append(line)
    return answer


def in_json(answers):
    """The lines of several answers as JSON lines."""
    rows = ({"line": i + 1, "text": line, **line_members(line)} for lines in answers for i, line in enumerate(lines))
    dumped = (json.dumps(row, separators=(",", ":")) for row in rows)
    return "".join(f"{line}\n" for line in dumped)


# What is noted of a fun: the notes on it, each with its place.
NOTES = (
    ("fun([X,Y] = X) -> Y end", ("1:6: X is the whole, and in the list it is the atom '$_'",)),
    ("fun(_ = [_,{_}]) ->\n  {_} end", ("1:10: _ is the whole, and in the list it is the atom '$_'", "1:13: _ is the whole, and in the list it is the atom '$_'")),
    ("fun([X]) when hd(bindings()) == X -> bindings() end", ("1:18: bindings() is the atom '$*', on a node and here", "1:38: bindings() is the atom '$*', on a node and here")),
    ("fun([_]) when _ == 1; true ->\n message(_), [a|[_]] end", ("1:15: _ is the atom '_' here", "2:10: _ is the atom '_' here", "2:18: _ is the atom '_' here")),
    ("fun([X]) when is_atom(X) -> X;\n   (_) -> enable_trace(call) end", ("2:11: erlang:match_spec_test/3 of OTP 27 can end the node at enable_trace",)),
    (
        "fun(_) -> disable_trace(self(),call), message(trace([],[])) end",
        (
            "1:11: erlang:match_spec_test/3 of OTP 27 can end the node at disable_trace",
            "1:47: erlang:match_spec_test/3 of OTP 27 can end the node at trace",
        ),
    ),
    ("fun(All = [X,_]) when X == bindings -> trace, All, caller(), silent(true) end", ()),
)


def notes_on_funs():
    """The notes on a fun, of `fun` and once of `spec --fun`, after which the status is that of an answer."""
    for fun, notes in NOTES:
        said = "".join(f"fun:{note}\n" for note in notes).encode()
        made = run(["fun", fun])
        check(f"the notes on {fun}", made.returncode == 0 and made.stderr == said == notes_on(fun), made)
        spec = made.stdout.decode().strip()
        one = run(["spec", "--fun", "--list", "[1]", "--list", "[a,b]", fun])
        other = run(["spec", "--list", "[1]", "--list", "[a,b]", spec])
        check(f"the notes on a trial of {fun}", one.returncode == 0 and said in one.stderr and len(one.stderr) == len(said + other.stderr), (one, other))


def tried_funs():
    """`spec --fun` answers of a fun what `spec` answers of its specification, in the fun's words; of one that is refused, what `fun` does."""
    specs = [*FUNS, *((fun, run(["fun", fun]).stdout.decode().strip()) for fun in WORDS_OF_FUNS)]
    for fun, spec in specs:
        for text in LISTS:
            for more in ([], ["--me", "101", "--caller", "{m,f,1}"]):
                one, other = (run(["spec", "--list", text, *more, *words]) for words in (["--fun", fun], [spec]))
                said = in_words(fun, other.stdout.decode().splitlines())
                expected = "".join(f"{line}\n" for line in said).encode()
                check(f"a trial of {fun} on {text} {more}", (one.returncode, one.stdout) == (0, expected), (one, expected))
                dumped = run(["spec", "--json", "--list", text, *more, "--fun", fun])
                check(f"the JSON of a trial of {fun} on {text} {more}", dumped.stdout.decode() == in_json([said]), dumped)
    fun, spec = specs[-2]
    lists = [word for text in LISTS for word in ("--list", text)]
    one, other = (run(["spec", *lists, *words]) for words in (["--fun", fun], [spec]))
    expected = "".join(f"{line}\n" for line in in_words(fun, other.stdout.decode().splitlines())).encode()
    check("trials of a fun on several lists", (one.returncode, one.stdout) == (0, expected), one)
    fun, spec = FUNS[0]
    expected = in_words(fun, run(["spec", "--list", "[1,2]", spec]).stdout.decode().splitlines())
    for words, text in (([], f"{fun}.\n"), (["-"], fun), (["--for", "call"], fun)):
        ran = run(["spec", "--fun", "--list", "[1,2]", *words], text.encode())
        check(f"a trial of a fun by {words}", ran.returncode == 0 and ran.stdout.decode().splitlines() == expected, ran)
    for marked, _ in REFUSED[:12]:
        fun = marked.replace("^", "")
        one, other = run(["spec", "--fun", "--list", "[1]"], fun.encode()), run(["fun"], fun.encode())
        same = (one.returncode, one.stdout, one.stderr) == (other.returncode, other.stdout, other.stderr)
        check(f"a trial of {marked[:80]}", same, (one, other))
    fun = FUNS[0][0]
    ran = run(["spec", "--fun", "--list", "[1|", fun])
    check("a trial of a fun on no list", ran.returncode == 2 and not ran.stdout and ran.stderr.startswith(notes_on(fun) + b"list:"), ran)


def fun_refusals():
    """Funs that have none, and the line that says why and where."""
    for marked, line in REFUSED:
        at, fun = marked.index("^"), marked.replace("^", "")
        ran = run(["fun"], fun.encode())
        before = fun[:at].split("\n")
        said = f"fun:{len(before)}:{len(before[-1]) + 1}: {WORDS[int(line.split()[0])]}\n"
        wants(f"fun {marked[:80]}", ran, 2, f"refused {line} at {at}\n".encode(), said.encode())
    for word in LEFT_OUT_WORDS:
        wants(f"the word {word}", run(["fun", f"fun(_) -> {word} end"]), 2, f"refused 21 no {word} at 10\n".encode())
    for symbol in LEFT_OUT_SYMBOLS:
        ran = run(["fun", f"fun(X) -> X {symbol} 1 end"])
        wants(f"the symbol {symbol}", ran, 2, f"refused 21 no {symbol} at 12\n".encode())
    for event, call, count in LACKING:
        name = call.partition("(")[0]
        line = f"refused 23 no function {name}/{count} at 10\n".encode()
        wants(f"{call} for {event}", run(["fun", "--for", event, f"fun(_) -> {call} end"]), 2, line)


def fun_limits():
    """Funs at a limit: at it they have a specification, past it the refusal is that of the limit."""
    longest = "fun(_) -> true end".ljust(TEXT_BYTES)
    wants("the longest fun", run(["fun"], longest.encode()), 0, b"[{'_',[],[true]}]\n")
    said = b"fun: the text has more than 1048576 bytes\n"
    wants("a fun that is too long", run(["fun"], f"{longest} ".encode()), 2, b"refused 1 too long\n", said)
    inner = f"{'[' * 28}{']' * 28}"
    wants("the deepest expression", run(["fun", f"fun(_) -> [{inner}] end"]), 0, f"[{{'_',[],[[{inner}]]}}]\n".encode())
    inner = f"{'[' * 30}{']' * 30}"
    wants("the deepest head", run(["fun", f"fun({inner}) -> true end"]), 0, f"[{{{inner},[],[true]}}]\n".encode())
    names = ",".join(f"X{i}" for i in range(999))
    atoms = ",".join(f"'${i + 1}'" for i in range(999))
    wants("999 variables", run(["fun", f"fun([{names}]) -> true end"]), 0, f"[{{[{atoms}],[],[true]}}]\n".encode())
    many = "1 + " * 43000
    deep = run(["fun"], f"fun(_) -> {many}1 end".encode())
    wants("many operators", deep, 2, b"refused 3 too deep at %d\n" % (10 + 4 * 64 + 2))
    ones = ",".join(["1"] * 4096)
    guards = ";".join(["a"] * 4096)
    spec = ",".join(["{'_',[a],[1]}"] * 4096)
    wants("the most clauses", run(["fun"], f"fun(_) when {guards} -> 1 end".encode()), 0, f"[{spec}]\n".encode())
    long = run(["fun"], f"fun(_) when {guards} -> [{ones}] end".encode())
    check("clauses past the length of a script", long.returncode == 2 and long.stdout == b"refused 4 too large at 3\n", long.stdout[:80])


def fun_table():
    """The manual's rows of tools for a running node: each fun of the first column is given the specification of the second."""
    lines = (TOP / "docs" / "MANUAL.md").read_text().splitlines()
    rows = [line.strip("| ").split(" | ") for line in lines if re.match(r"\| `(dbg|recon_trace):", line)]
    funs = [(fun, right) for left, right in rows for fun in re.findall(r"fun\(.*? end(?=[,)}])", left)]
    check("the manual has funs", len(funs) >= 5, funs)
    for fun, right in funs:
        made = run(["fun", fun])
        text = made.stdout.decode().strip()
        check(f"the manual's {fun}", made.returncode == 0 and text in right, made)
