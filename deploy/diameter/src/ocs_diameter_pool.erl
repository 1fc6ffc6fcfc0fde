%% Connections to the office that are kept between two requests. Handlers take and give them; the
%% one that was used last is taken first, so that under little load few are kept. Two messages a
%% request. It holds no more than the configuration's idle_connections; a request never waits here.
%% This process owns the connections, so that none is handed from process to process; handlers send
%% and receive on them, since they are passive.
-module(ocs_diameter_pool).
-behaviour(gen_server).

-export([start_link/0, own/1, take/0, give/1, idle/0]).
-export([init/1, handle_call/3, handle_cast/2, handle_info/2]).

%% How long a connection is kept unused: below HAProxy's http-keep-alive of 75 seconds.
-define(KEPT_MS, 60000).

-type socket() :: gen_tcp:socket().

-spec start_link() -> {ok, pid()} | {error, term()}.
start_link() ->
    gen_server:start_link({local, ?MODULE}, ?MODULE, [], []).

%% Makes a new connection of the caller's one of the pool's. The caller uses it, and then gives it
%% back or closes it.
-spec own(socket()) -> {ok, socket()} | {error, term()}.
own(Socket) ->
    case gen_tcp:controlling_process(Socket, whereis(?MODULE)) of
        ok ->
            {ok, Socket};
        {error, _} = Not ->
            _ = gen_tcp:close(Socket),
            Not
    end.

%% A connection that nobody uses; the caller gives it back or closes it.
-spec take() -> socket() | none.
take() ->
    gen_server:call(?MODULE, take, infinity).

%% Gives back a connection whose answer was read to its end.
-spec give(socket()) -> ok.
give(Socket) ->
    gen_server:cast(?MODULE, {give, Socket}).

%% How many connections are kept.
-spec idle() -> non_neg_integer().
idle() ->
    gen_server:call(?MODULE, idle).

%% A connection that ends is no end of this process.
-spec init([]) -> {ok, [{socket(), integer()}]}.
init([]) ->
    process_flag(trap_exit, true),
    {ok, []}.

-spec handle_call(take | idle, {pid(), term()}, [{socket(), integer()}]) ->
          {reply, term(), [{socket(), integer()}]}.
handle_call(take, _, []) ->
    {reply, none, []};
handle_call(take, From, [{Socket, Since} | Rest]) ->
    case ocs_diameter_clock:ms() - Since < ?KEPT_MS of
        true ->
            {reply, Socket, Rest};
        false ->
            _ = gen_tcp:close(Socket),
            handle_call(take, From, Rest)
    end;
handle_call(idle, _, Kept) ->
    {reply, length(Kept), Kept}.

-spec handle_cast({give, socket()}, [{socket(), integer()}]) ->
          {noreply, [{socket(), integer()}]}.
handle_cast({give, Socket}, Kept) ->
    #{idle_connections := Most} = ocs_diameter_config:get(),
    {Left, Closed} = lists:split(min(Most, length(Kept) + 1),
                                 [{Socket, ocs_diameter_clock:ms()} | Kept]),
    lists:foreach(fun({S, _}) -> gen_tcp:close(S) end, Closed),
    {noreply, Left}.

-spec handle_info(term(), [{socket(), integer()}]) -> {noreply, [{socket(), integer()}]}.
handle_info(_, Kept) ->
    {noreply, Kept}.
