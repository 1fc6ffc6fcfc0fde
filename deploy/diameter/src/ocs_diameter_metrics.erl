%% Counters of the bridge, and their text for Prometheus (exposition format 0.0.4). Counting is an
%% atomic addition to a table. Called from everywhere; the text by ocs_diameter_watch.
-module(ocs_diameter_metrics).

-export([init/0, count/1, answered/3, peer/2, text/0]).

%% Peers that are told apart; with `peers => any' a stranger could make up names without an end.
-define(MOST_ROWS, 5000).
%% Upper bounds of the histogram of answer times, in milliseconds.
-define(BOUNDS, [5, 10, 25, 50, 100, 250, 500, 1000, 2500, 5000, 8000]).

%% Makes the table; its owner is the caller.
-spec init() -> ok.
init() ->
    ?MODULE = ets:new(?MODULE, [named_table, public, ordered_set, {write_concurrency, true}]),
    ok.

%% One more of this: a name, or a name with its labels' values.
-spec count(term()) -> ok.
count(What) ->
    add(What, 1).

-spec add(term(), integer()) -> ok.
add(What, By) ->
    _ = ets:update_counter(?MODULE, What, By, {What, 0}),
    ok.

%% An answer to this peer, with its Result-Code, after so many milliseconds.
-spec answered(unicode:chardata(), pos_integer(), non_neg_integer()) -> ok.
answered(Who, Code, Ms) ->
    Peer = unicode:characters_to_binary(Who),
    count(row({answers, Peer, Code}, {answers, <<"other">>, Code})),
    add(answer_ms, Ms),
    count({answer_bound, bound(Ms)}).

%% The row of a peer, or where there are too many that of all others.
-spec row(tuple(), tuple()) -> tuple().
row(Own, Other) ->
    case ets:member(?MODULE, Own) orelse ets:info(?MODULE, size) < ?MOST_ROWS of
        true -> Own;
        false -> Other
    end.

-spec bound(non_neg_integer()) -> pos_integer() | infinity.
bound(Ms) ->
    hd([B || B <- ?BOUNDS, Ms =< B] ++ [infinity]).

%% A connection of this peer more, or less.
-spec peer(unicode:chardata(), 1 | -1) -> ok.
peer(Who, By) ->
    add(row({connections, unicode:characters_to_binary(Who)}, {connections, <<"other">>}), By).

-spec text() -> iodata().
text() ->
    Rows = ets:tab2list(?MODULE),
    [counter("answers_total", "Answers by peer and Result-Code", ["peer", "code"],
             [{[P, C], N} || {{answers, P, C}, N} <- Rows]),
     histogram(Rows),
     gauge("peer_connections", "Connections of a peer that are up", ["peer"], connections(Rows)),
     counter("peers_refused_total", "Capabilities exchanges that were turned away", ["reason"],
             [{[R], N} || {{peer_refused, R}, N} <- Rows]),
     counter("watchdog_total", "Changes of the watchdog's state (RFC 3539)", ["from", "to"],
             [{[F, T], N} || {{watchdog, F, T}, N} <- Rows]),
     counter("office_tries_total", "Tries to ask the office by HTTP status or what came of them",
             ["outcome"], [{[O], N} || {{office, O}, N} <- Rows]),
     counter("reauth_total", "Re-Auth-Requests by Result-Code or what came of them", ["result"],
             [{[R], N} || {{reauth, R}, N} <- Rows]),
     counter("lines_dropped_total", "Lines that standard output took too slowly, or not at all", [],
             [{[], N} || {lines_dropped, N} <- Rows]),
     gauge("in_flight", "Requests under way", [], [{[], ocs_diameter_order:in_flight()}]),
     gauge("in_flight_limit", "Requests that may be under way", [],
           [{[], maps:get(in_flight, ocs_diameter_config:get())}]),
     gauge("sessions_at_final_units", "Sessions that a top-up would reach", [],
           [{[], ocs_diameter_reauth:remembered()}]),
     gauge("office_connections_idle", "Connections to the office that are kept", [],
           [{[], ocs_diameter_pool:idle()}]),
     gauge("memory_bytes", "Memory that the virtual machine has taken", [],
           [{[], erlang:memory(total)}])].

%% A configured peer without a connection is 0, so that an alarm sees it.
-spec connections([tuple()]) -> [{[binary()], integer()}].
connections(Rows) ->
    Seen = [{string:lowercase(P), N} || {{connections, P}, N} <- Rows],
    Named = case ocs_diameter_config:get() of
                #{peers := any} -> [];
                #{peers := Peers} -> [string:lowercase(unicode:characters_to_binary(P))
                                      || P <- Peers]
            end,
    [{[P], N} || {P, N} <- Seen] ++ [{[P], 0} || P <- Named, not lists:keymember(P, 1, Seen)].

-spec histogram([tuple()]) -> iodata().
histogram(Rows) ->
    Counts = maps:from_list([{B, N} || {{answer_bound, B}, N} <- Rows]),
    {Below, All} = lists:mapfoldl(fun(B, Sum) ->
                                          Now = Sum + maps:get(B, Counts, 0),
                                          {{B, Now}, Now}
                                  end, 0, ?BOUNDS ++ [infinity]),
    Name = "answer_seconds",
    Total = hd([N || {answer_ms, N} <- Rows] ++ [0]),
    [heading(Name, "histogram", "Seconds from a request to its answer"),
     [sample(Name ++ "_bucket", ["le"], [le(B)], N) || {B, N} <- Below],
     sample(Name ++ "_sum", [], [], Total / 1000),
     sample(Name ++ "_count", [], [], All)].

-spec le(pos_integer() | infinity) -> iodata().
le(infinity) -> "+Inf";
le(Ms) -> io_lib:format("~p", [Ms / 1000]).

-spec counter(string(), string(), [string()], [{list(), number()}]) -> iodata().
counter(Name, Help, Labels, Samples) ->
    [heading(Name, "counter", Help), [sample(Name, Labels, V, N) || {V, N} <- Samples]].

-spec gauge(string(), string(), [string()], [{list(), number()}]) -> iodata().
gauge(Name, Help, Labels, Samples) ->
    [heading(Name, "gauge", Help), [sample(Name, Labels, V, N) || {V, N} <- Samples]].

-spec heading(string(), string(), string()) -> iodata().
heading(Name, Type, Help) ->
    ["# HELP ocs_diameter_", Name, " ", Help, "\n# TYPE ocs_diameter_", Name, " ", Type, "\n"].

-spec sample(string(), [string()], list(), number()) -> iodata().
sample(Name, Labels, Values, Number) ->
    Pairs = [[L, "=\"", escaped(V), "\""] || {L, V} <- lists:zip(Labels, Values)],
    Set = case Pairs of
              [] -> "";
              _ -> ["{", lists:join(",", Pairs), "}"]
          end,
    ["ocs_diameter_", Name, Set, " ", io_lib:format("~p", [Number]), "\n"].

-spec escaped(term()) -> iodata().
escaped(Value) when is_atom(Value) -> atom_to_list(Value);
escaped(Value) when is_integer(Value) -> integer_to_list(Value);
escaped(Value) ->
    [case C of
         $" -> "\\\"";
         $\\ -> "\\\\";
         $\n -> "\\n";
         _ -> C
     end || <<C>> <= iolist_to_binary(Value)].
