%% Asks two questions of one `tracenode serve`, by a port; needs OTP 27 for the module json.
%%
%%   erlc examples/ask.erl
%%   erl -noshell -run ask main ./tracenode -s init stop
-module(ask).
-export([main/1]).

main([Program]) ->
    Port = open_port({spawn_executable, Program}, [{args, ["serve"]}, {line, 65536}, binary]),
    Specification = <<"[{['$1'],[{'>','$1',3}],[{return_trace}]}]">>,
    show(ask(Port, [<<"spec">>, <<"--list">>, <<"[5]">>, Specification])),
    show(ask(Port, [<<"spec">>, <<"--list">>, <<"[2]">>, Specification])),
    port_close(Port).

%% The answer to a command line whose command reads nothing from standard input.
ask(Port, Words) ->
    ask(Port, Words, <<>>).

%% The answer to a command line, and to what its command reads from standard input.
ask(Port, Words, Input) ->
    Request = json:encode(#{<<"command">> => Words, <<"input">> => Input}),
    port_command(Port, [Request, $\n]),
    json:decode(line(Port, [])).

%% The next line of the port, whose parts may have 65536 bytes each.
line(Port, Before) ->
    receive
        {Port, {data, {noeol, Part}}} -> line(Port, [Before, Part]);
        {Port, {data, {eol, Part}}} -> iolist_to_binary([Before, Part])
    end.

show(#{<<"status">> := Status, <<"output">> := Output, <<"errors">> := Errors}) ->
    io:format("status ~b~n~ts~ts", [Status, Output, Errors]);
show(#{<<"error">> := Reason}) ->
    io:format("error ~ts~n", [Reason]).
