"""Refused scripts, each with the line on standard error that says how it can be mended.

The lines were worked out by hand. A script goes by the name script.term.
"""

# What a name and what a function must be, what is no step and no command must be a tuple of, and the words of the
# limits on scripts and on terms.
NAME = " must be a name, an atom that begins with no capital letter and is not '_', found "
CALLEE = " must be two names, a module and a function without its arity, found "
STEPS = "send, 'receive', call, 'catch', spawn, link, unlink, return, error, throw or exit"
COMMANDS = "session_create, session_destroy, process, function, send or recv"
COUNTS = "at most 64 functions, 64 steps in each, 16 processes, 256 commands, 128 sessions"
SIZES = "integers have 64 bits, atoms 255 characters, tuples 255 elements, lists 4096"

# A form without a shape, alone in its text, and which part of it has none.
SHAPES = (
    ("a", "it must be {function,M,F,Vis,Params,Steps}, {process,M,F,Args} or {control,[Command,..]}, found a"),
    ("{function,m,f,exported,[]}", "{function,M,F,Vis,Params,Steps} has 6 elements, found 5"),
    ("{function,'M',f,exported,[],[]}", "M" + NAME + "'M'"),
    ("{function,m,'_',exported,[],[]}", "F" + NAME + "'_'"),
    ("{function,m,f,exported,x,[]}", "Params must be a list, found x"),
    ("{function,m,f,exported,[" + ",".join(["'A'"] * 256) + "],[]}", "a function has at most 255 parameters, found 256"),
    (
        "{function,m,f,exported,['X',y],[]}",
        "each of Params must be a variable other than 'Self', in quotes, found y",
    ),
    ("{function,m,f,exported,['X','Y','X'],[]}", "Params must be distinct, found 'X'"),
    ("{function,m,f,exported,[],x}", "Steps must be a list, found x"),
    ("{process,m,f}", "{process,M,F,Args} has 4 elements, found 3"),
    (
        "{process,s,all,true,[send]}",
        "{process,M,F,Args} has 4 elements, and the command {process,S,Procs,How,Flags} stands in"
        " {control,[Command,..]}, found 5",
    ),
    ("{process,1,f,[]}", "M" + NAME + "1"),
    ("{process,m,'F',[]}", "F" + NAME + "'F'"),
    ("{process,m,f,a}", "Args must be a list, found a"),
    ("{process,m,f,[" + ",".join("0" * 256) + "]}", "a list of arguments has at most 255 elements, found 256"),
    ("{control}", "{control,Commands} has 2 elements, found 1"),
    ("{control,x}", "Commands must be a list, found x"),
)

# A term that is no step, the only one of its function, and why.
STEP_SHAPES = (
    ("{'receive'}", "{'receive',V} has 2 elements, found 1"),
    ("{call,'_',m}", "{call,V,{M,F},Args} or {call,V,F,Args} has 4 elements, found 3"),
    ("{'catch','_',{m,f}}", "{'catch',V,{M,F},Args} has 4 elements, found 3"),
    ("{spawn,'_'}", "{spawn,V,{M,F},Args} has 4 elements, found 2"),
    ("{link}", "{link,P} has 2 elements, found 1"),
    ("{unlink,1,2}", "{unlink,P} has 2 elements, found 3"),
    ("{return}", "{return,T} has 2 elements, found 1"),
    ("{error,1,2}", "{error,T} has 2 elements, found 3"),
    ("{exit}", "{exit,T} has 2 elements, found 1"),
    ("{'receive','Self'}", "V must be '_' or a variable other than 'Self', in quotes, found 'Self'"),
    ("{call,v,f,[]}", "V must be '_' or a variable other than 'Self', in quotes, found v"),
    ("{call,'_',1,[]}", "F" + NAME + "1"),
    ("{spawn,'_',{m},[]}", "{M,F}" + CALLEE + "{m}"),
    ("{spawn,'_',rest,[]}", "{M,F}" + CALLEE + "rest"),
    ("{call,'_',{m,f,1},[1]}", "{M,F}" + CALLEE + "{m,f,1}"),
    ("{call,'_',f,x}", "Args must be a list, found x"),
    (
        "{spawn_link,'X',{m,f},[]}",
        "spawn_link isn't modelled: write spawn, and then link, found {spawn_link,'X',{m,f},[]}",
    ),
    ("{monitor,'X'}", "monitor isn't modelled: link is, found {monitor,'X'}"),
    (
        "{process_flag,trap_exit,true}",
        "process_flag isn't modelled: no process traps exits, found {process_flag,trap_exit,true}",
    ),
    ("{'case','X'}", "'case' isn't modelled: a function has no branches, found {'case','X'}"),
    ("{'if','X'}", "'if' isn't modelled: a function has no branches, found {'if','X'}"),
    ("{jump,1}", "it must be a tuple of " + STEPS + ", found {jump,1}"),
)

# A term that is no command, the only one of its control form, and why; of a term 60 bytes are shown.
COMMAND_SHAPES = (
    ("{session_create,a,t}", "{session_create,S,T,[]} has 4 elements, found 3"),
    ("{session_destroy}", "{session_destroy,S} has 2 elements, found 1"),
    ("{process,a}", "{process,S,Procs,How,Flags} has 5 elements, found 2"),
    ("{function,a}", "{function,S,MFA,Spec,Opts} has 5 elements, found 2"),
    ("{recv,a}", "{recv,S,Spec,[]} has 4 elements, found 2"),
    ("{session_create,'A',t,[]}", "S" + NAME + "'A'"),
    ("{send,a,[],[x]}", "the last element must be [], found [x]"),
    ("{session_create,a,'T',[]}", "T" + NAME + "'T'"),
    ("{'receive',a,true,[]}", "'receive' is no command: recv is meant, found {'receive',a,true,[]}"),
    ("{trace,all,true,[]}", "trace is no command: process is meant, found {trace,all,true,[]}"),
    (
        "{trace_pattern,{m,f,1},true}",
        "trace_pattern is no command: function is meant, found {trace_pattern,{m,f,1},true}",
    ),
    ("{info,a,all,flags}", "info of OTP 27 isn't modelled, found {info,a,all,flags}"),
    ("{delivered,a,all}", "delivered of OTP 27 isn't modelled, found {delivered,a,all}"),
    ("{session_info,all}", "session_info of OTP 27 isn't modelled, found {session_info,all}"),
    ("x", "it must be a tuple of " + COMMANDS + ", found x"),
    ("\"" + "a" * 59 + "\"", "it must be a tuple of " + COMMANDS + ", found [" + "97," * 19 + "97.."),
)

# A text, the column on its first line at which a token is refused, and what is said of it.
TOKENS = (
    ("}.", 1, "a form expected, found '}': nothing is open"),
    ("{a b}.", 4, "',' or '}' expected, found the atom b"),
    ("{a 'b c'}.", 4, "',' or '}' expected, found the atom 'b c'"),
    ("{a 7}.", 4, "',' or '}' expected, found the number 7"),
    ("{a[b]}.", 3, "',' or '}' expected, found '['"),
    ("{,a}.", 2, "a term or '}' expected, found ','"),
    (
        "{'a}.",
        2,
        "a term or '}' expected, found a quoted atom that is not closed: "
        "it has characters 32 to 126, and \\' and \\\\ for ' and \\",
    ),
    (
        "{\"a}.",
        2,
        "a term or '}' expected, found a string that is not closed: "
        "it has characters 32 to 126, and \\\" and \\\\ for \" and \\",
    ),
    ("{a.", 3, "',' or '}' expected, found the full stop: '{' at 1:1 is not closed"),
    (
        "{a.b}.",
        3,
        "',' or '}' expected, found a dot: a full stop has a blank, a comment or the end of the text after it",
    ),
    ("{<0.007.0>}.", 2, "a term or '}' expected, found the pid <0.007.0>: a pid is <0.N.0>, N without leading zeros"),
    ("{<a>}.", 2, "a term or '}' expected, found '<': a pid is <0.N.0>, N without leading zeros"),
    ("{#r}.", 2, "a term or '}' expected, found '#': there are no references, ports or records, and numbers are decimal"),
    ("{$a}.", 2, "a term or '}' expected, found the character $a: a character is written as its number"),
    ("[a|b].", 3, "',' or ']' expected, found '|': a list has no tail, though one of a node may have"),
    ("{a,fun}.", 4, "a term expected, found the reserved word fun: there are no funs, and the atom is written 'fun'"),
    ("{a,\1}.", 4, "a term expected, found the byte 1"),
    (
        "{1_000}.",
        3,
        "',' or '}' expected, found the variable _000: numbers have no '_', and variables are written in quotes, '_000'",
    ),
    ("{self()}.", 6, "',' or '}' expected, found '(': a term has no calls, and 'Self' is the own pid"),
    ("{- 1}.", 2, "a term or '}' expected, found '-': a sign stands before its digits, as in -1"),
    (
        "-module(m).",
        1,
        "a form expected, found '-': a script is no module, and its forms are {function,..}, {process,..} and {control,..}",
    ),
    (
        "{a,\u2018b\u2019}.",
        4,
        "a term expected, found the byte 226: a typographic quote begins with it, and ' is meant",
    ),
    (
        "\ufeff{process,m,f,[]}.",
        1,
        "a form expected, found the byte 239: a byte order mark begins with it, and a script has none",
    ),
)

# A text with a token past a limit of terms, its column, the words of the rule, and what is said of it.
LARGE_TOKENS = (
    ("[" * 32 + "\"a\"", 33, "terms nest at most 32 levels deep: level 33 begins with the string \"a\", which is a list"),
    ("{" + "0," * 255 + "0}.", 511, SIZES + ": the tuple at 1:1 goes on after element 255"),
    ("[" + "0," * 4096 + "0].", 8193, SIZES + ": the list at 1:1 goes on after element 4096"),
    ("a" * 256 + ".", 1, SIZES + ": the atom has 256 characters"),
    ("'" + "A" * 256 + "'.", 1, SIZES + ": the atom has 256 characters"),
    ("\"" + "a" * 4097 + "\".", 1, SIZES + ": the string has 4097 characters"),
    ("<0.4294967296.0>.", 1, SIZES + ": found the pid <0.4294967296.0>"),
)

# The words that introduce a form without a shape.
NO_SHAPE = "no form has this shape: "

REFUSALS = [
    *((text + ".", "script.term:1: form 1: " + NO_SHAPE + why) for text, why in SHAPES),
    *(
        ("{function,m,f,exported,[],[" + text + "]}.", "script.term:1:28: form 1: " + NO_SHAPE + "step 1: " + why)
        for text, why in STEP_SHAPES
    ),
    *(
        ("{control,[" + text + "]}.", "script.term:1:11: form 1: " + NO_SHAPE + "command 1: " + why)
        for text, why in COMMAND_SHAPES
    ),
    *((text, f"script.term:1:{column}: syntax error: {why}") for text, column, why in TOKENS),
    *((text, f"script.term:1:{column}: {why}") for text, column, why in LARGE_TOKENS),
    (
        "{function,m,f,exported,['A'],[]}.\n{process,m,f,['X']}.",
        "script.term:2: form 2: variable not bound: 'X' in the arguments of a process, where no variable is",
    ),
    (
        "".join("{function,m,f%d,exported,[],[]}.\n" % number for number in range(65)),
        "script.term:65: form 65: " + COUNTS + ": 65 functions up to here",
    ),
    (
        "{function,m,go,exported,['To'],\n  [{send,To,1}]}.\n",
        "script.term:2:10: syntax error: a term expected, found the variable To: variables are written in quotes, 'To'",
    ),
    (
        "{process,m,f,[]}",
        "script.term:1:17: syntax error: '.' expected, found the end of the text: a form ends with a full stop",
    ),
    (
        "{process,m,f,[1.5]}.",
        "script.term:1:16: syntax error: ',' or ']' expected, found the float 1.5: there are no floats",
    ),
    (
        "{function,m,f,exported,[],[{receive,'X'}]}.",
        "script.term:1:29: syntax error: a term or '}' expected, found the reserved word receive: "
        "reserved words are written in quotes, 'receive'",
    ),
    (
        "{control,[a,]}.",
        "script.term:1:13: syntax error: a term expected, found ']': no comma stands before a closing bracket",
    ),
    (
        "{control,[a}.",
        "script.term:1:12: syntax error: ',' or ']' expected, found '}': '[' at 1:10 is not closed",
    ),
    (
        "{process,m,f,[<<1>>]}.",
        "script.term:1:15: syntax error: a term or ']' expected, found a binary: there are no binaries",
    ),
    (
        "{process,m,f,#{}}.",
        "script.term:1:14: syntax error: a term expected, found a map: there are no maps",
    ),
    (
        "% a\n% b\n{\"a\" \"b\"}.",
        "script.term:3:6: syntax error: ',' or '}' expected, found the string \"b\": strings are not joined",
    ),
    (
        "[[[[[[[[[[[[[[[[[[[[[[[[[[[[[[[[[",
        "script.term:1:33: terms nest at most 32 levels deep: level 33 begins with '['",
    ),
    (
        "{a,\n\n9223372036854775808}.",
        "script.term:3:1: integers have 64 bits, atoms 255 characters, tuples 255 elements, lists 4096: "
        "found the number 9223372036854775808",
    ),
    (
        "{a,?}.",
        "script.term:1:4: syntax error: a term expected, found '?'",
    ),
    (
        "% two forms\n{process,m,f,[]}.\n{function,m,f,public,[],[]}.\n",
        "script.term:3: form 2: no form has this shape: Vis must be exported or internal, found public",
    ),
    (
        "{function,m,f,exported,[],[{return,1},{send,1}]}.",
        "script.term:1:39: form 1: no form has this shape: step 2: {send,To,Msg} has 3 elements, found 2",
    ),
    (
        "{function,m,f,exported,[],[]}.\n\n{function,m,f,internal,[],[]}.",
        "script.term:3: form 2: declared twice: function m:f/0, in form 1 too",
    ),
    (
        "{function,m,f,exported,[],[{return,1},{call,'_',{m,g},[1,2]}]}.",
        "script.term:1:39: form 1: not declared: function m:g/2, in step 2; is m:f/0 meant?",
    ),
    (
        "\n{process,m,go,[]}.",
        "script.term:2: form 1: not declared: function m:go/0",
    ),
    (
        "{control,[{session_destroy,s}]}.",
        "script.term:1:11: form 1, command 1: not declared: session s, which no earlier command creates",
    ),
    (
        "{function,m,f,internal,[],[]}.\n{process,m,f,[]}.",
        "script.term:2: form 2: not exported: function m:f/0 is internal",
    ),
    (
        "{function,m,f,exported,['X'],[{return,'X'},{return,'Y'}]}.",
        "script.term:1:44: form 1: variable not bound: 'Y' in step 2 of function m:f/1",
    ),
    (
        "{function,m,f,exported,[],[{'catch','X',{m,g},[1,2]}]}.",
        "script.term:1:28: form 1: not declared: function m:g/2, in step 1; is m:f/0 meant?",
    ),
    (
        "{function,m,go,exported,[],[]}.\n{function,m,rest,exported,['X'],[]}.\n{process,m,resst,[]}.",
        "script.term:3: form 3: not declared: function m:resst/0; is m:rest/1 meant?",
    ),
    (
        "{function,m,go,exported,[],[]}.\n{function,n,rest,exported,[],[]}.\n{process,m,rest,[]}.",
        "script.term:3: form 3: not declared: function m:rest/0; is n:rest/0 meant?",
    ),
    (
        "{function,m,go,exported,[],[{call,'_',{m,ff},[1]}]}.\n{function,m,f,exported,['X'],[]}.",
        "script.term:1:29: form 1: not declared: function m:ff/1, in step 1; is m:f/1 meant?",
    ),
    (
        "{function,m,go,exported,[],[{call,'_',{k,far},[1]}]}.\n{function,m,f,exported,['X'],[]}.",
        "script.term:1:29: form 1: not declared: function k:far/1, in step 1",
    ),
    (
        "{function,m,f,exported,[],[{return,'\u00fc'}]}.",
        "script.term:1:36: syntax error: a term expected, found a quoted atom with the byte 195: "
        "it has characters 32 to 126, and \\' and \\\\ for ' and \\",
    ),
    (
        "{function,m,f,exported,[],[{return,\"a\u00fc\"}]}.",
        "script.term:1:36: syntax error: a term expected, found a string with the byte 195: "
        "it has characters 32 to 126, and \\\" and \\\\ for \" and \\",
    ),
    (
        "{function,m,f,internal,[],[]}.\n{function,m,g,exported,[],[{return,1},{'catch','_',{m,f},[]}]}.",
        "script.term:2:39: form 2: not exported: function m:f/0 is internal, in step 2",
    ),
    (
        "{function,m,f,exported,['X'],[{'catch','Y',{m,f},['Y']},{return,'Y'}]}.",
        "script.term:1:31: form 1: variable not bound: 'Y' in step 1 of function m:f/1",
    ),
    (
        "{function,m,f,exported,[],[{error,[a,'Y']}]}.",
        "script.term:1:28: form 1: variable not bound: 'Y' in step 1 of function m:f/0",
    ),
    (
        "{function,m,f,exported,['X'],[{'catch','_',{m,f},[]}]}.",
        "script.term:1:31: form 1: wrong number of arguments: function m:f/0 is declared with the arity 1 alone, in step 1",
    ),
    (
        "{function,m,f,exported,[],[{catch,'X',{m,f},[]}]}.",
        "script.term:1:29: syntax error: a term or '}' expected, found the reserved word catch: "
        "reserved words are written in quotes, 'catch'",
    ),
    (
        "{function,m,f,exported,[],[{'catch','X',f,[]}]}.",
        "script.term:1:28: form 1: no form has this shape: step 1: {M,F}" + CALLEE + "f",
    ),
    (
        "{function,m,f,exported,[],[{throw,1,2}]}.",
        "script.term:1:28: form 1: no form has this shape: step 1: {throw,T} has 2 elements, found 3",
    ),
    (
        "{control,[{session_create,a,t,[]},{session_create,b,t,[]}]}.",
        "script.term:1:35: form 1, command 2: tracer taken: t is the tracer of session a",
    ),
    (
        "{function,m,f,exported,[],[]}.\n{function,m,f,exported,['X'],[]}.\n{process,m,f,[1,2]}.",
        "script.term:3: form 3: wrong number of arguments: function m:f/2 is declared with the arity 0 or 1 alone",
    ),
    (
        "{control,[{session_create,a,t,[]}]}.\n{control,[{session_create,a,u,[]}]}.",
        "script.term:2:11: form 2, command 2: declared twice: session a",
    ),
    (
        "{function,m,f,exported,[],[]}.\n" + "{process,m,f,[]}.\n" * 17,
        "script.term:18: form 18: at most 64 functions, 64 steps in each, 16 processes, 256 commands, 128 sessions: "
        "17 processes up to here",
    ),
    (
        "{control,[" + ",".join("{session_create,s%d,t%d,[]}" % (number, number) for number in range(129)) + "]}.",
        "script.term:1:3631: form 1, command 129: at most 64 functions, 64 steps in each, 16 processes, 256 commands, "
        "128 sessions: 129 sessions up to here",
    ),
    (
        "{control,[{session_create,a,t,[]}," + ",".join(["{session_destroy,a}"] * 256) + "]}.",
        "script.term:1:5135: form 1, command 257: at most 64 functions, 64 steps in each, 16 processes, 256 commands, "
        "128 sessions: 257 commands up to here",
    ),
    (
        "{function,m,f,exported,[],[" + ",".join(["{return,1}"] * 65) + "]}.",
        "script.term:1:732: form 1: at most 64 functions, 64 steps in each, 16 processes, 256 commands, 128 sessions: "
        "65 steps in function m:f/0",
    ),
    (
        "{control,[{session_create,a,t,[]},{send,a}]}.",
        "script.term:1:35: form 1: no form has this shape: command 2: {send,S,Spec,[]} has 4 elements, found 2",
    ),
    (
        "{control,[\n  {session_create,a,t,[]}, % one, [two\n  {process,b,all,true,[call]}\n]}.",
        "script.term:3:3: form 1, command 2: not declared: session b, which no earlier command creates",
    ),
    (
        "{control,[{session_create,a,t,[]}]}.\n{'control',[{session_create,b,u,[]},{session_destroy,c}]}.",
        "script.term:2:37: form 2, command 3: not declared: session c, which no earlier command creates",
    ),
    (
        "{function,m,f,exported,['X','Y'],\n [{send,'X',{a,[b,{c,d}]}},\n  {return,'Z'}]}.",
        "script.term:3:3: form 1: variable not bound: 'Z' in step 2 of function m:f/2",
    ),
    (
        "{function,m,f,exported,[],\"a\"}.",
        "script.term:1:27: form 1: no form has this shape: step 1: it must be a tuple of send, 'receive', call, 'catch', "
        "spawn, link, unlink, return, error, throw or exit, found 97",
    ),
    (
        "% a. {form} '\n{process,m,'f. {',[\"a. [\\\"b\",<0.0.0>]}.\n"
        "{function,m,g,exported,[],[{return,'{. '},{send,a}]}.",
        "script.term:3:43: form 2: no form has this shape: step 2: {send,To,Msg} has 3 elements, found 2",
    ),
    (
        "{control,[{session_create,'a,}. ',t,[]},\n % two. {\n {session_destroy,'b. \\'{'}]}.",
        "script.term:3:2: form 1, command 2: not declared: session 'b. \\'{', which no earlier command creates",
    ),
    ("a.\n" * 257, "script.term: a script has at most 256 forms: there are 257"),
    ("%" * 1_048_577, "script.term: a script has at most 1048576 bytes: there are 1048577"),
]
