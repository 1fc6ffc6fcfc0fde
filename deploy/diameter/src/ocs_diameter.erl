%% The command: `ocs-diameter [--check] FILE` starts this by `erl -s ocs_diameter`. Exit status 0
%% after SIGTERM or a good check, 1 where the bridge can't run, 2 where the words are off.
-module(ocs_diameter).

-export([start/0]).

-spec start() -> ok.
start() ->
    case init:get_plain_arguments() of
        [Home, "run", File] -> run(Home, File);
        [Home, "check", File] -> check(Home, File);
        _ -> halted(2, "usage: ocs-diameter [--check] [FILE]")
    end.

-spec run(string(), string()) -> ok.
run(Home, File) ->
    read(Home, File),
    #{listen := Listen} = ocs_diameter_config:get(),
    lists:foreach(fun is_free/1, Listen),
    case application:ensure_all_started(?MODULE) of
        {ok, _} -> opened();
        {error, {_, Reason}} -> halted(1, io_lib:format("not started: ~0p", [Reason]))
    end.

%% Ends the program where a port is taken: OTP opens it in a process of its own and doesn't say so.
-spec is_free(ocs_diameter_config:listen()) -> ok.
is_free(#{ip := Ip, port := Port}) ->
    case gen_tcp:listen(Port, [{ip, Ip}, {reuseaddr, true}]) of
        {ok, Socket} ->
            gen_tcp:close(Socket);
        {error, Why} ->
            halted(1, io_lib:format("~s port ~p: ~s",
                                    [inet:ntoa(Ip), Port, inet:format_error(Why)]))
    end.

-spec opened() -> ok.
opened() ->
    case ocs_diameter_service:open() of
        ok -> watched();
        {error, Not} -> halted(1, io_lib:format("not listening: ~0p", [Not]))
    end.

%% Ends the program where the application ends and nobody asked for it.
-spec watched() -> ok.
watched() ->
    _ = spawn(fun() ->
                      Ref = monitor(process, ocs_diameter_app),
                      receive {'DOWN', Ref, process, _, Reason} -> ended(Reason) end
              end),
    ok.

-spec ended(term()) -> ok.
ended(Reason) ->
    case init:get_status() of
        {stopping, _} -> ok;
        _ -> halted(1, io_lib:format("ended: ~0p", [Reason]))
    end.

-spec check(string(), string()) -> no_return().
check(Home, File) ->
    read(Home, File),
    halted(0, [File, " is read"]).

-spec read(string(), string()) -> ok.
read(Home, File) ->
    case ocs_diameter_table:load(filename:join(Home, "mapping.json")) of
        ok -> ok;
        {error, {mapping, Table, Reason}} -> halted(1, [Table, ": ", file:format_error(Reason)])
    end,
    case ocs_diameter_config:load(File) of
        ok -> ok;
        {error, Fault} -> halted(1, [File, ": ", ocs_diameter_config:told(Fault)])
    end.

-spec halted(0..2, iodata()) -> no_return().
halted(Status, Text) ->
    io:format(standard_error, "ocs-diameter: ~ts~n", [Text]),
    erlang:halt(Status).
