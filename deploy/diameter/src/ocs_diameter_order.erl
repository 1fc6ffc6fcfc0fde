%% The processes that handle requests: requests of one session one after another, in the order in
%% which they came, and a bound on all that are under way.
%%
%% OTP starts a process for each request, so two requests of a session that come together may reach
%% the office in either order. A termination that overtakes an update closes the session, and the
%% update's use is never charged. start/1 runs in the process that reads the connection, so it sees
%% the requests in their order. A request costs a look into a table and a process.
-module(ocs_diameter_order).

-export([init/0, start/1, context/0, in_flight/0, drain/0]).
-export_type([context/0]).

-include_lib("diameter/include/diameter.hrl").

-define(CCR, 272).
-define(SESSION_ID, 263).
%% A handler's first heap, in words: most requests end before it is full, so that nothing is
%% collected. 32 KiB for each request under way.
-define(HEAP_WORDS, 4096).

%% What a handler knows of its request: whether it may ask the office, until when (milliseconds of
%% the monotonic clock), when it came, and when its turn in the session came.
-type context() :: #{admitted := boolean(), deadline := integer(), came := integer(),
                     turn := integer()}.

%% Makes the table of sessions; its owner is the caller.
-spec init() -> ok.
init() ->
    ?MODULE = ets:new(?MODULE, [named_table, public, set, {write_concurrency, true}]),
    persistent_term:put(?MODULE, #{count => counters:new(1, [atomics]), open => true}).

%% The spawn_opt MFA of the service: the process that handles a request.
-spec start(term()) -> pid().
start(Request) ->
    #{count := Count, open := Open} = persistent_term:get(?MODULE),
    #{in_flight := Most, answer_time := Time} = ocs_diameter_config:get(),
    Came = ocs_diameter_clock:ms(),
    counters:add(Count, 1, 1),
    Admitted = Open andalso counters:get(Count, 1) =< Most,
    {_, Bin} = diameter_traffic:request_info(Request),
    Session = case Admitted of
                  true -> session(Bin);
                  false -> none
              end,
    Before = [Pid || Session /= none, {_, Pid} <- ets:lookup(?MODULE, Session)],
    Context = #{admitted => Admitted, came => Came, deadline => Came + Time},
    Handler = spawn_opt(fun() -> handle(Request, Session, Before, Context, Count) end,
                        [{min_heap_size, ?HEAP_WORDS}]),
    Session == none orelse ets:insert(?MODULE, {Session, Handler}),
    Handler ! go,
    Handler.

%% Waits until the table has this process, so that it can be taken out again at the end.
-spec handle(term(), none | binary(), [pid()], map(), counters:counters_ref()) -> term().
handle(Request, Session, Before, Context, Count) ->
    receive go -> ok end,
    try
        lists:foreach(fun wait/1, Before),
        put(?MODULE, Context#{turn => ocs_diameter_clock:ms()}),
        diameter_traffic:request(Request)
    after
        counters:sub(Count, 1, 1),
        ets:delete_object(?MODULE, {Session, self()})
    end.

-spec wait(pid()) -> ok.
wait(Pid) ->
    Ref = monitor(process, Pid),
    receive {'DOWN', Ref, process, Pid, _} -> ok end.

%% Of the calling handler.
-spec context() -> context().
context() ->
    get(?MODULE).

%% How many requests are under way.
-spec in_flight() -> non_neg_integer().
in_flight() ->
    #{count := Count} = persistent_term:get(?MODULE),
    counters:get(Count, 1).

%% From now on every request is turned away with 3004; returns when those under way are answered.
-spec drain() -> ok.
drain() ->
    #{answer_time := Time} = ocs_diameter_config:get(),
    persistent_term:put(?MODULE, (persistent_term:get(?MODULE))#{open := false}),
    empty(ocs_diameter_clock:ms() + Time + 1000).

-spec empty(integer()) -> ok.
empty(Until) ->
    case in_flight() == 0 orelse ocs_diameter_clock:ms() > Until of
        true -> ok;
        false -> timer:sleep(20), empty(Until)
    end.

%% Session-Id is the first AVP of a CCR (RFC 8506 3.1). Where it isn't, the request has no order,
%% and the decoder refuses it.
-spec session(binary()) -> none | binary().
session(<<_:4/binary, _:8, ?CCR:24, _:12/binary, ?SESSION_ID:32, 0:1, _:7, Length:24, Rest/binary>>)
  when Length > 8, Length - 8 =< byte_size(Rest) ->
    binary:copy(binary:part(Rest, 0, Length - 8));
session(_) ->
    none.
