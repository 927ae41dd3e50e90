%% The part of bench/free that runs in a real node of OTP 27: scripts that run freely, traced by sessions of the module trace.
%%
%% It reads questions, each a term with a full stop, from standard input and writes one line for each. Questions are as
%% those of node_gate, whose functions it uses. In answers the atom '<0.N.0>' stands for the pid that the node itself
%% writes so.
%%
%%   {free,Sessions,Modules,Processes,Commands,Runs}
%%       gives the commands and then lets all processes go, once for each of Runs, which say whether the processes pause
%%       between their steps at times. It is answered by a list with one {Pids,[{Session,Messages}]} for each run, with the
%%       pids of the first processes and the trace messages in the order of their arrival, or restless in its place where
%%       the processes come to no rest.
%%
%% No process is sent a word of the gate: each first process is suspended while the commands are given, and resumed then.
-module(free_gate).
-export([serve/0, begins/2, pauses/0]).

-define(TABLE, node_gate).
-define(PATIENCE, 10000).

%% Answers questions until standard input ends.
serve() ->
    node_gate:serve(fun answer/1).

answer({free, Sessions, Modules, Processes, Commands, Runs}) ->
    Functions = lists:append([node_gate:loaded(Name, Text) || {Name, Text} <- Modules]),
    Answers = [ran(Functions, Sessions, Processes, Commands, Pausing) || Pausing <- Runs],
    [node_gate:unloaded(Name) || {Name, _} <- Modules],
    Answers.

ran(Functions, Sessions, Processes, Commands, Pausing) ->
    ets:delete_all_objects(?TABLE),
    ets:insert(?TABLE, [{functions, Functions}, {pausing, Pausing}]),
    %% The tracers come first, so that no session's flags for new processes are theirs.
    Tracers = node_gate:tracers(Sessions),
    Others = processes(),
    Go = atomics:new(1, []),
    Numbers = lists:seq(100, 99 + length(Processes)),
    Pids = [suspended(Go, Number) || Number <- Numbers],
    node_gate:number_all(100, Pids),
    ets:insert(?TABLE, [{{entry, Number}, node_gate:real(Entry)} || {Number, Entry} <- lists:zip(Numbers, Processes)]),
    [node_gate:replied(Command) || Command <- Commands],
    atomics:put(Go, 1, 1),
    [erlang:resume_process(Pid) || Pid <- mixed(Pids)],
    Answer = answered(is_at_rest(Others, false, deadline()), Pids, Tracers),
    node_gate:destroyed(),
    [node_gate:end_of(Pid) || Pid <- (processes() -- Others) ++ [Tracer || {_, Tracer} <- Tracers]],
    Answer.

suspended(Go, Number) ->
    Pid = spawn(?MODULE, begins, [Go, Number]),
    erlang:suspend_process(Pid),
    Pid.

mixed(Pids) ->
    [Pid || {_, Pid} <- lists:sort([{rand:uniform(), Pid} || Pid <- Pids])].

answered(false, _, _) ->
    restless;
answered(true, Pids, Tracers) ->
    {as_written(Pids), [{Name, as_written(node_gate:traced(Name, Tracer))} || {Name, Tracer} <- Tracers]}.

%% ---- scripted processes

%% A first process goes when all commands are given. The entry call is the last one here, so that the entry has no
%% calling function.
begins(Go, Number) ->
    case atomics:get(Go, 1) of
        0 ->
            erlang:yield(),
            begins(Go, Number);
        1 ->
            [{_, {Module, Function, Arguments}}] = ets:lookup(?TABLE, {entry, Number}),
            apply(Module, Function, Arguments)
    end.

%% Before a step a process lets others run, at times, where the run has pauses.
pauses() ->
    case ets:lookup(?TABLE, pausing) =:= [{pausing, true}] andalso rand:uniform(3) =:= 1 of
        true -> erlang:yield();
        false -> ok
    end.

%% ---- rest

deadline() ->
    erlang:monotonic_time(millisecond) + ?PATIENCE.

%% All processes that aren't these have ended, or wait for a message without having one, twice with a millisecond between.
is_at_rest(Others, Before, Deadline) ->
    receive after 1 -> ok end,
    Now = lists:all(fun waits/1, processes() -- Others),
    case Now andalso Before of
        true -> true;
        false -> erlang:monotonic_time(millisecond) < Deadline andalso is_at_rest(Others, Now, Deadline)
    end.

%% One that is ending is among the node's processes, and has no such information.
waits(Pid) ->
    process_info(Pid, [status, message_queue_len]) =:= [{status, waiting}, {message_queue_len, 0}].

%% ---- terms as the node writes them

%% A pid is an atom with its text. A map, which stands in the list of calls of an error alone, is an atom too.
as_written(Term) ->
    node_gate:mapped(fun written/1, Term).

written(Pid) when is_pid(Pid) -> list_to_atom(pid_to_list(Pid));
written(Map) when is_map(Map) -> map;
written(Other) -> Other.
