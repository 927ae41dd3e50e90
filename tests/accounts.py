"""Accounts of runs, worked out from the manual: a script, its picks, and what `tracenode explain` tells."""

# A send to another process, traced by one session and not by the other.
SENDS = """{function,m,go,exported,[],[{send,<0.101.0>,hi}]}.
{function,m,peer,exported,[],[]}.
{process,m,go,[]}.
{process,m,peer,[]}.
{control,[{session_create,s1,t1,[]},{session_create,s2,t2,[]},{process,s1,all,true,[send]}]}.
"""

# Each command, and a process that takes a message out of its mailbox.
COMMANDS = """{function,m,go,exported,[],[{send,<0.101.0>,hi}]}.
{function,m,peer,exported,[],[{'receive','X'}]}.
{process,m,go,[]}.
{process,m,peer,[]}.
{control,[{session_create,s1,t1,[]},{function,s1,{m,'_','_'},true,[local]},{send,s1,[],[]},
  {recv,s1,false,[]},{session_destroy,s1}]}.
"""

PICKS = "0 0 7 0 0 0 100 100 101 101 102"

WHOLE = """1 0 {session_create,s1,t1,[]}
  s1: replies {session,s1}
2 0 {session_create,s2,t2,[]}
  s2: replies {session,s2}
3 0 {process,s1,all,true,[send]}
  s1: replies 2
4 100 <0.100.0> call {m,go,[]}
  s1: no flag call
  s2: no flag call
5 100 <0.100.0> send hi <0.101.0>
  s1: => {trace,<0.100.0>,send,hi,<0.101.0>}
  s2: no flag send
5 100 <0.101.0> 'receive' hi
  s1: no flag 'receive'
  s2: no flag 'receive'
6 101 <0.101.0> call {m,peer,[]}
  s1: no flag call
  s2: no flag call
7 101 <0.101.0> return_from {m,peer,0} ok
  s1: the call has no mark
  s2: the call has no mark
7 101 <0.101.0> exit normal
  s1: no flag procs
  s1: <0.101.0> loses send
  s2: no flag procs
"""

SECOND_SESSION = """1 0 {session_create,s1,t1,[]}
2 0 {session_create,s2,t2,[]}
  s2: replies {session,s2}
3 0 {process,s1,all,true,[send]}
4 100 <0.100.0> call {m,go,[]}
  s2: no flag call
5 100 <0.100.0> send hi <0.101.0>
  s2: no flag send
5 100 <0.101.0> 'receive' hi
  s2: no flag 'receive'
6 101 <0.101.0> call {m,peer,[]}
  s2: no flag call
7 101 <0.101.0> return_from {m,peer,0} ok
  s2: the call has no mark
7 101 <0.101.0> exit normal
  s2: no flag procs
"""

FIFTH_MOVE = """5 100 <0.100.0> send hi <0.101.0>
  s1: => {trace,<0.100.0>,send,hi,<0.101.0>}
  s2: no flag send
5 100 <0.101.0> 'receive' hi
  s1: no flag 'receive'
  s2: no flag 'receive'
"""

SECOND_COMMAND = """2 0 {function,s1,{m,'_','_'},true,[local]}
  s1: replies 2
"""

LAST_MOVE = """9 101 nothing
"""

# A call that fails, marked for exceptions in s1 and for returns in s2.
FAILS = """{function,m,go,exported,[],[{'catch','X',{m,f},[1]}]}.
{function,m,f,exported,['X'],[{error,{bad,'X'}}]}.
{process,m,go,[]}.
{control,[{session_create,s1,t1,[]},{process,s1,all,true,[call]},{function,s1,{m,f,1},[{'_',[],[{exception_trace}]}],[]},
  {session_create,s2,t2,[]},{process,s2,all,true,[call]},{function,s2,{m,f,1},[{'_',[],[{return_trace}]}],[]},
  {session_create,s3,t3,[]},{process,s3,all,true,[call]}]}.
"""

FAILS_PICKS = "0 0 0 0 0 0 0 0 100 100 100"

MARKING_CALL = """10 100 <0.100.0> call {m,f,[1]}
  s1: clause 1 fires: exception_trace
  s1: => {trace,<0.100.0>,call,{m,f,[1]}}
  s1: the call is marked for exceptions
  s2: clause 1 fires: return_trace
  s2: => {trace,<0.100.0>,call,{m,f,[1]}}
  s2: the call is marked
  s3: no setting for m:f/1
"""

EXCEPTION = """11 100 <0.100.0> exception_from {m,f,1} {error,{bad,1}}
  s1: => {trace,<0.100.0>,exception_from,{m,f,1},{error,{bad,1}}}
  s1: the mark is gone
  s2: the call is marked for returns alone
  s2: the mark is gone
  s3: the call has no mark
"""

# Calls whose specification in s1 changes flags of the process itself and of the other, and in s2 names none.
CHANGES = """{function,m,go,exported,[],[{call,'_',{m,f},[1]},{call,'_',{m,f},[2]}]}.
{function,m,f,exported,['X'],[{return,'X'}]}.
{process,m,go,[]}.
{process,m,go,[]}.
{control,[{session_create,s1,t1,[]},{process,s1,<0.100.0>,true,[call]},
  {function,s1,{m,f,1},[{'_',[],[{message,[{trace,[],[arity]},{trace,<0.101.0>,[send],[call,procs]}]}]}],[]},
  {session_create,s2,t2,[]},{process,s2,<0.100.0>,true,[call]},
  {function,s2,{m,f,1},[{'_',[],[{message,{trace,[],[]}}]}],[]}]}.
"""

CHANGES_PICKS = "0 0 0 0 0 0 100 100 100 100 101 101 101 101 101 101"

FIRST_CHANGE = """8 100 <0.100.0> call {m,f,[1]}
  s1: clause 1 fires: <0.100.0> gets arity, <0.101.0> loses send gets call gets procs, message [true,true]
  s1: => {trace,<0.100.0>,call,{m,f,1},[true,true]}
  s2: clause 1 fires: <0.100.0> keeps its flags, message false
  s2: message false
"""

SECOND_CHANGE = """10 100 <0.100.0> call {m,f,[2]}
  s1: clause 1 fires: <0.100.0> gets arity, <0.101.0> loses send gets call gets procs, message [false,false]
  s1: => {trace,<0.100.0>,call,{m,f,1},[false,false]}
  s2: clause 1 fires: <0.100.0> keeps its flags, message false
  s2: message false
"""

ENTRY_OF_THE_OTHER = """11 101 <0.101.0> call {m,go,[]}
  s1: no setting for m:go/0
  s2: no flag call
"""

CHANGE_OF_THE_OTHER = """12 101 <0.101.0> call {m,f,[1]}
  s1: clause 1 fires: <0.101.0> gets arity, <0.101.0> loses send gets call gets procs, message [true,false]
  s1: => {trace,<0.101.0>,call,{m,f,1},[true,false]}
  s2: no flag call
"""

END_OF_THE_OTHER = """16 101 <0.101.0> return_from {m,go,0} ok
  s1: the call has no mark
16 101 <0.101.0> exit normal
  s1: => {trace,<0.101.0>,exit,normal}
  s1: <0.101.0> loses call loses procs loses arity
"""

REFUSED = """{function,m,go,exported,[],[]}.
{function,m,own,internal,[],[]}.
{process,m,go,[]}.
{control,[{session_create,s,t,[]},{process,s,m,true,[]},{process,s,<0.101.0>,true,[call]},
  {process,s,all,yes,[call]},{process,s,all,true,call},{process,s,all,true,[call,recv]},
  {function,s,{m,f},true,[]},{function,s,{m,go,0},true,[meta]},{function,s,{m,go,0},no,[]},
  {function,s,{m,go,1},true,[]},{function,s,{m,own,0},true,[]},
  {function,s,{m,go,0},[{'_',[],[]},{'_',[{'!=','$1',1}],[]}],[]},{recv,s,[{'_',[],[{caller}]}],[]},
  {session_destroy,s},{send,s,true,[]}]}.
"""

REFUSED_PICKS = "0 0 0 0 0 0 0 0 0 0 0 0 0 0 0"

REFUSALS = """1 0 {session_create,s,t,[]}
  s: replies {session,s}
2 0 {process,s,m,true,[]}
  s: replies badarg: Procs is a pid, all, existing or new, found m
3 0 {process,s,<0.101.0>,true,[call]}
  s: replies badarg: <0.101.0> isn't alive
4 0 {process,s,all,yes,[call]}
  s: replies badarg: How is true or false, found yes
5 0 {process,s,all,true,call}
  s: replies badarg: Flags is a list of flags, found call
6 0 {process,s,all,true,[call,recv]}
  s: replies badarg: no flag recv; the flags are send, 'receive', call, procs, silent, arity, set_on_spawn, \
set_on_first_spawn, set_on_link, set_on_first_link
7 0 {function,s,{m,f},true,[]}
  s: replies badarg: MFA is {M,F,A}, {M,F,'_'}, {M,'_','_'} or {'_','_','_'}, A from 0 to 255, found {m,f}
8 0 {function,s,{m,go,0},true,[meta]}
  s: replies badarg: Opts is [], [global] or [local], found [meta]: meta of OTP 27 isn't modelled
9 0 {function,s,{m,go,0},no,[]}
  s: replies badarg: Spec is true, false or a list of clauses, found no
10 0 {function,s,{m,go,1},true,[]}
  s: replies 0: no function matches; is m:go/0 meant?
11 0 {function,s,{m,own,0},true,[]}
  s: replies 0: no exported function matches; [local] is for the others too
12 0 {function,s,{m,go,0},[{'_',[],[]},{'_',[{'!=','$1',1}],[]}],[]}
  s: replies badarg: clause 2: condition 1: no function '!='; '/=' is meant?
13 0 {recv,s,[{'_',[],[{caller}]}],[]}
  s: replies badarg: clause 1: body 1: caller stands in bodies of specifications for calls alone
14 0 {session_destroy,s}
  s: replies true
15 0 {send,s,true,[]}
  s: replies badarg: the session is destroyed
"""

# A script, its picks, further words of an explanation, and its text.
ACCOUNTS = (
    (SENDS, PICKS, (), WHOLE),
    (SENDS, PICKS, ("--session", "s2"), SECOND_SESSION),
    (SENDS, PICKS, ("--move", "5"), FIFTH_MOVE),
    (COMMANDS, PICKS, ("--move", "2"), SECOND_COMMAND),
    (COMMANDS, PICKS, ("--move", "9"), LAST_MOVE),
    (FAILS, FAILS_PICKS, ("--move", "10"), MARKING_CALL),
    (FAILS, FAILS_PICKS, ("--move", "11"), EXCEPTION),
    (CHANGES, CHANGES_PICKS, ("--move", "8"), FIRST_CHANGE),
    (CHANGES, CHANGES_PICKS, ("--move", "10"), SECOND_CHANGE),
    (CHANGES, CHANGES_PICKS, ("--move", "11"), ENTRY_OF_THE_OTHER),
    (CHANGES, CHANGES_PICKS, ("--move", "12"), CHANGE_OF_THE_OTHER),
    (CHANGES, CHANGES_PICKS, ("--move", "16", "--session", "s1"), END_OF_THE_OTHER),
    (REFUSED, REFUSED_PICKS, (), REFUSALS),
)
