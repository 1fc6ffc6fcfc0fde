%% The configuration: a file of one Erlang map, with comments. It is read at the start, and again at
%% a reload; handlers read it from a persistent term, which costs nothing. A key more is a line of
%% keys/0 and of config().
-module(ocs_diameter_config).

-export([load/1, reload/0, get/0, told/1]).
-export_type([config/0, listen/0, office/0, hints/0, fault/0]).

-type listen() :: #{ip := inet:ip_address(), port := inet:port_number(),
                    tls => ocs_diameter_tls:tls()}.
-type office() :: {inet:ip_address(), inet:port_number()} | {local, string()}.
-type hints() :: #{holding_time => non_neg_integer(), threshold => non_neg_integer()}.
-type config() :: #{origin_host := string(), origin_realm := string(), listen := [listen()],
                    office := office(), watch := {inet:ip_address(), inet:port_number()} | off,
                    hosts := [string()], realms := [string()], peers := any | [string()],
                    units := #{non_neg_integer() => ocs_diameter_units:kind()},
                    groups := none | string(),
                    default_groups := #{binary() | any => non_neg_integer()},
                    subscribers := [ocs_diameter_subscriber:kind()], opening := check | balance,
                    hints := #{non_neg_integer() => hints()}, in_flight := pos_integer(),
                    idle_connections := non_neg_integer(), answer_time := pos_integer(),
                    queue_time := non_neg_integer(),
                    failure_handling := 0..2, strict_mbit := boolean(),
                    origin_state_id := non_neg_integer(), watchdog_timer := pos_integer(),
                    pool_size := pos_integer(), sessions_at_final_units := non_neg_integer()}.
-type fault() :: {unread, string(), string()} | {missing, atom()} | {unknown, term()}
               | {wrong, atom(), string()} | {revocation_list, string(), term()}.

%% Reads and checks a file, and makes it the configuration.
-spec load(string()) -> ok | {error, fault()}.
load(File) ->
    try
        Config = with_groups(checked(read(File))),
        case ocs_diameter_certificate:load([T || #{tls := T} <- maps:get(listen, Config)]) of
            ok -> persistent_term:put(?MODULE, {File, Config});
            {error, Fault} -> {error, Fault}
        end
    catch
        throw:{fault, Why} -> {error, Why}
    end.

%% Reads the same file again. Ports, names and the office's address hold from the next start on.
-spec reload() -> ok | {error, fault()}.
reload() ->
    {File, _} = persistent_term:get(?MODULE),
    load(File).

-spec get() -> config().
get() ->
    {_, Config} = persistent_term:get(?MODULE),
    Config.

%% A fault in words.
-spec told(fault()) -> string().
told({unread, File, Why}) -> lists:flatten(io_lib:format("~s: ~s", [File, Why]));
told({missing, Key}) -> lists:flatten(io_lib:format("~p is missing", [Key]));
told({unknown, Key}) -> lists:flatten(io_lib:format("~p is no key of this file", [Key]));
told({wrong, Key, Takes}) -> lists:flatten(io_lib:format("~p takes ~s", [Key, Takes]));
told({revocation_list, File, unread}) ->
    lists:flatten(io_lib:format("crlfile ~s isn't a revocation list", [File]));
told({revocation_list, File, Why}) ->
    lists:flatten(io_lib:format("crlfile ~s: ~s", [File, file:format_error(Why)])).

-spec read(string()) -> map().
read(File) ->
    case file:consult(File) of
        {ok, [#{} = Given]} -> Given;
        {ok, _} -> throw({fault, {unread, File, "is one map, #{ .. }."}});
        {error, Why} -> throw({fault, {unread, File, lists:flatten(file:format_error(Why))}})
    end.

%% Every key that the file may have: its default, a test, and what it takes in words.
-spec keys() -> [{atom(), required | {default, term()}, fun((term()) -> boolean()), string()}].
keys() ->
    [{origin_host, required, fun is_name/1, "a name, \"ocs.example\""},
     {origin_realm, required, fun is_name/1, "a name, \"example\""},
     {listen, required, fun is_listen/1,
      "[#{ip => {127,0,0,1}, port => 3868}], tls => #{certfile, keyfile, cacertfile, crlfile}"},
     {office, required, fun is_office/1, "{{127,0,0,1}, 8080} or {local, \"/path/of/a/socket\"}"},
     {watch, {default, {{127, 0, 0, 1}, 9868}}, fun(W) -> W == off orelse is_address(W) end,
      "{{127,0,0,1}, 9868} or off"},
     {hosts, {default, none}, fun is_names/1, "names, [\"ocs.example\"]"},
     {realms, {default, none}, fun is_names/1, "names, [\"example\"]"},
     {peers, {default, any}, fun(P) -> P == any orelse is_names(P) end, "any, or names"},
     {units, {default, #{}}, fun is_units/1, "#{10 => time, 20 => octets, 30 => events}"},
     {groups, {default, none}, fun(F) -> F == none orelse is_name(F) end,
      "a file of `office diameter`"},
     {default_groups, {default, #{}}, fun is_defaults/1, "#{<<\"32260@3gpp.org\">> => 10}"},
     {subscribers, {default, [e164, sip, tel]}, fun is_subscribers/1,
      "some of e164, sip and tel, or [imsi]"},
     {opening, {default, check}, fun(O) -> lists:member(O, [check, balance]) end,
      "check or balance"},
     {hints, {default, #{}}, fun is_hints/1,
      "#{20 => #{holding_time => 600, threshold => 1048576}}"},
     {in_flight, {default, 200}, within(1, 100000), "1 to 100000 requests"},
     {idle_connections, {default, 64}, within(0, 10000), "0 to 10000 connections"},
     {answer_time, {default, 8000}, within(100, 60000), "100 to 60000 milliseconds"},
     {queue_time, {default, 5000}, within(0, 60000), "0 to 60000 milliseconds"},
     {failure_handling, {default, 2}, within(0, 2), "0 to 2"},
     {strict_mbit, {default, true}, fun is_boolean/1, "true or false"},
     {origin_state_id, {default, 1}, within(0, 16#FFFFFFFF), "0 to 4294967295"},
     {watchdog_timer, {default, 30000}, within(6000, 3600000), "6000 to 3600000 milliseconds"},
     {pool_size, {default, 32}, within(1, 1000), "1 to 1000 processes"},
     {sessions_at_final_units, {default, 100000}, within(0, 10000000), "0 to 10000000 sessions"}].

-spec checked(map()) -> config().
checked(Given) ->
    Keys = keys(),
    Known = [K || {K, _, _, _} <- Keys],
    [throw({fault, {unknown, K}}) || K <- maps:keys(Given), not lists:member(K, Known)],
    Full = maps:from_list([{K, taken(Line, Given)} || {K, _, _, _} = Line <- Keys]),
    #{origin_host := Host, origin_realm := Realm, hosts := Hosts, realms := Realms} = Full,
    Full#{hosts := or_own(Hosts, Host), realms := or_own(Realms, Realm)}.

-spec taken({atom(), required | {default, term()}, fun((term()) -> boolean()), string()}, map()) ->
          term().
taken({Key, Default, IsRight, Takes}, Given) ->
    case {Given, Default} of
        {#{Key := Value}, _} ->
            fits(IsRight, Value) orelse throw({fault, {wrong, Key, Takes}}),
            Value;
        {_, {default, Value}} ->
            Value;
        {_, required} ->
            throw({fault, {missing, Key}})
    end.

%% A value may be any term, a list without an end among them.
-spec fits(fun((term()) -> boolean()), term()) -> boolean().
fits(IsRight, Value) ->
    try IsRight(Value)
    catch error:_ -> false
    end.

-spec or_own(none | [string()], string()) -> [string()].
or_own(none, Own) -> [Own];
or_own(Names, _) -> Names.

%% The kinds of groups that `office diameter` wrote, over those of the file itself.
-spec with_groups(config()) -> config().
with_groups(#{groups := none} = Config) ->
    Config;
with_groups(#{groups := File, units := Own} = Config) ->
    case file:read_file(File) of
        {ok, Text} ->
            try
                Made = maps:from_list([{binary_to_integer(Group), binary_to_existing_atom(Kind)}
                                       || {Group, Kind} <- maps:to_list(
                                                             jiffy:decode(Text, [return_maps]))]),
                is_units(Made) orelse error(units),
                Config#{units := maps:merge(Own, Made)}
            catch
                _:_ -> throw({fault, {unread, File, "isn't a file of `office diameter`"}})
            end;
        {error, Why} ->
            throw({fault, {unread, File, lists:flatten(file:format_error(Why))}})
    end.

%% ------------------------------------------------------------------------------------------------
%% Tests of values
%% ------------------------------------------------------------------------------------------------
-spec within(integer(), integer()) -> fun((term()) -> boolean()).
within(Least, Most) ->
    fun(N) -> is_integer(N) andalso N >= Least andalso N =< Most end.

-spec is_name(term()) -> boolean().
is_name(Text) ->
    is_list(Text) andalso Text /= [] andalso lists:all(within(16#20, 16#7E), Text).

-spec is_names(term()) -> boolean().
is_names(Names) ->
    is_list(Names) andalso Names /= [] andalso lists:all(fun is_name/1, Names).

-spec is_address(term()) -> boolean().
is_address({Ip, Port}) -> inet:is_ip_address(Ip) andalso (within(0, 65535))(Port);
is_address(_) -> false.

-spec is_office(term()) -> boolean().
is_office({local, Path}) -> is_name(Path);
is_office(Address) -> is_address(Address).

-spec is_listen(term()) -> boolean().
is_listen(Ports) ->
    is_list(Ports) andalso Ports /= [] andalso lists:all(fun is_port/1, Ports).

-spec is_port(term()) -> boolean().
is_port(#{ip := Ip, port := Port} = Listen) ->
    is_address({Ip, Port}) andalso maps:keys(maps:without([ip, port, tls], Listen)) == []
        andalso is_tls(maps:get(tls, Listen, none));
is_port(_) ->
    false.

-spec is_tls(term()) -> boolean().
is_tls(none) ->
    true;
is_tls(#{certfile := _, keyfile := _, cacertfile := _} = Tls) ->
    lists:all(fun is_name/1, maps:values(Tls))
        andalso maps:keys(maps:without([certfile, keyfile, cacertfile, crlfile], Tls)) == [];
is_tls(_) ->
    false.

-spec is_group(term()) -> boolean().
is_group(Group) ->
    (within(0, 16#FFFFFFFF))(Group).

-spec is_units(term()) -> boolean().
is_units(Units) ->
    is_map(Units) andalso lists:all(fun({G, K}) ->
                                            is_group(G) andalso
                                                lists:member(K, [time, octets, events])
                                    end, maps:to_list(Units)).

-spec is_defaults(term()) -> boolean().
is_defaults(Groups) ->
    is_map(Groups) andalso lists:all(fun({C, G}) ->
                                             (C == any orelse is_binary(C)) andalso is_group(G)
                                     end, maps:to_list(Groups)).

%% 15 digits of an IMSI may be somebody's number, so imsi goes with no other kind.
-spec is_subscribers(term()) -> boolean().
is_subscribers([imsi]) ->
    true;
is_subscribers(Kinds) ->
    is_list(Kinds) andalso Kinds /= [] andalso Kinds -- [e164, sip, tel] == [].

-spec is_hints(term()) -> boolean().
is_hints(Hints) ->
    is_map(Hints) andalso lists:all(fun({G, H}) -> is_group(G) andalso is_hint(H) end,
                                    maps:to_list(Hints)).

-spec is_hint(term()) -> boolean().
is_hint(#{} = Hint) ->
    maps:keys(maps:without([holding_time, threshold], Hint)) == []
        andalso lists:all(fun is_group/1, maps:values(Hint));
is_hint(_) ->
    false.
