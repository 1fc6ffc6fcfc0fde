%% A line of JSON for each answer on standard output, with the members of the office's other doors,
%% so that one reader reads both. Under systemd they go to the journal. What OTP logs goes to
%% standard error (sys.config). The caller makes the text; a request costs a message to this
%% process. Whatever becomes of a line, its answer goes out: lines that nobody takes are counted.
-module(ocs_diameter_log).
-behaviour(gen_server).

-export([start_link/0, line/1]).
-export([init/1, handle_call/3, handle_cast/2, handle_info/2]).

-include_lib("kernel/include/logger.hrl").

%% Lines that wait for a reader that is slow; beyond it they are counted and dropped.
-define(MOST_WAITING, 10000).

-spec start_link() -> {ok, pid()} | {error, term()}.
start_link() ->
    gen_server:start_link({local, ?MODULE}, ?MODULE, [], []).

%% Writes the line of these facts. Members that they lack are "-".
-spec line(#{atom() => term()}) -> ok.
line(Facts) ->
    Moment = os:system_time(millisecond) - maps:get(took, Facts, 0),
    case is_taken(whereis(?MODULE)) of
        true -> gen_server:cast(?MODULE, {line, iolist_to_binary([written(Moment, Facts), $\n])});
        false -> ocs_diameter_metrics:count(lines_dropped)
    end.

-spec is_taken(pid() | undefined) -> boolean().
is_taken(undefined) ->
    false;
is_taken(Writer) ->
    case process_info(Writer, message_queue_len) of
        {message_queue_len, Waiting} -> Waiting < ?MOST_WAITING;
        undefined -> false
    end.

-spec init([]) -> {ok, port()}.
init([]) ->
    process_flag(trap_exit, true),
    {ok, open_port({fd, 1, 1}, [out, binary])}.

-spec handle_call(term(), term(), port()) -> {reply, nok, port()}.
handle_call(_, _, Port) ->
    {reply, nok, Port}.

-spec handle_cast({line, binary()}, port()) -> {noreply, port()}.
handle_cast({line, Line}, Port) ->
    try port_command(Port, Line)
    catch error:badarg -> ocs_diameter_metrics:count(lines_dropped)
    end,
    {noreply, Port}.

%% Where standard output has ended the bridge goes on without lines.
-spec handle_info(term(), port()) -> {noreply, port()}.
handle_info({'EXIT', Port, Reason}, Port) ->
    ?LOG_ERROR("standard output has ended (~p): answers have no line", [Reason]),
    {noreply, Port};
handle_info(_, Port) ->
    {noreply, Port}.

%% The members in the order of the other doors' lines. Numbers of the request and codes are texts
%% there, times and sizes numbers.
-spec written(integer(), map()) -> iodata().
written(Moment, Facts) ->
    Seen = case Facts of
               #{seen := #{} = S} -> S;
               _ -> #{}
           end,
    jiffy:encode(
      {[{<<"moment">>, Moment / 1000}, {<<"door">>, <<"diameter">>}]
       ++ [{atom_to_binary(Name), text(maps:get(Name, Facts, none))}
           || Name <- [peer, who]]
       ++ [{<<"what">>, text(maps:get(what, Facts, <<"CCR">>))}]
       ++ [{atom_to_binary(Name), text(maps:get(Name, Facts, none))}
           || Name <- [account, session, type, number, reference, amount, granted, code, service,
                       refusal, why]]
       ++ [{<<"status">>, maps:get(status, Seen, 0)}, {<<"shard">>, maps:get(shard, Seen, <<"-">>)},
           {<<"came">>, 0}]
       ++ [{atom_to_binary(Name), maps:get(Name, Facts, 0)}
           || Name <- [waited, answered, took, bytes]]
       ++ [{<<"end">>, <<"--">>}, {<<"id">>, maps:get(id, Seen, <<"-">>)}]}, [force_utf8]).

-spec text(term()) -> binary().
text(none) -> <<"-">>;
text(undefined) -> <<"-">>;
text(Number) when is_integer(Number) -> integer_to_binary(Number);
text(Atom) when is_atom(Atom) -> atom_to_binary(Atom);
text(Text) when is_binary(Text); is_list(Text) ->
    try iolist_to_binary(Text)
    catch error:_ -> <<"-">>
    end;
text(_) -> <<"-">>.
