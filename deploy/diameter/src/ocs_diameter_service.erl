%% Owns the Diameter service: starts it with the options that README explains one by one, knows
%% which connections are up, and stops it in order.
-module(ocs_diameter_service).
-behaviour(gen_server).

-export([start_link/0, open/0, wait_up/2, addressed/2, address/1]).
-export([init/1, handle_continue/2, handle_call/3, handle_cast/2, handle_info/2, terminate/2]).

-include_lib("diameter/include/diameter.hrl").
-include_lib("kernel/include/logger.hrl").

-define(SERVICE, ocs).
-define(VENDOR_3GPP, 10415).
%% How long a port may take to open: on a busy machine the first one of TLS takes seconds.
-define(OPEN_MS, 30000).

-spec start_link() -> {ok, pid()} | {error, term()}.
start_link() ->
    gen_server:start_link({local, ?MODULE}, ?MODULE, [], []).

%% Opens the ports, once the application runs: a stop while it starts would leave requests without
%% an answer. The ports that couldn't be opened.
-spec open() -> ok | {error, [{inet:ip_address(), inet:port_number()}]}.
open() ->
    gen_server:call(?MODULE, open, infinity).

%% Waits until the service has told that this transport's connection is up, so many milliseconds.
-spec wait_up(pid(), non_neg_integer()) -> boolean().
wait_up(Transport, Ms) ->
    case ets:member(?MODULE, Transport) of
        true -> true;
        false when Ms > 0 -> timer:sleep(1), wait_up(Transport, Ms - 1);
        false -> false
    end.

%% Remembers the address of a connection's other end, as long as its process lives.
-spec addressed(pid(), binary()) -> ok.
addressed(Peer, Address) ->
    gen_server:cast(?MODULE, {address, Peer, Address}).

%% The address of a connection's other end, `-' where it isn't known.
-spec address(pid()) -> binary().
address(Peer) ->
    case ets:lookup(?MODULE, Peer) of
        [{_, Address}] -> Address;
        _ -> <<"-">>
    end.

-spec init([]) -> {ok, [], {continue, again}}.
init([]) ->
    process_flag(trap_exit, true),
    ?MODULE = ets:new(?MODULE, [named_table, protected, set, {read_concurrency, true}]),
    ocs_diameter_order:init(),
    true = diameter:subscribe(?SERVICE),
    ok = diameter:start_service(?SERVICE, service(ocs_diameter_config:get())),
    {ok, [], {continue, again}}.

%% A service that is started again by its supervisor opens its ports itself.
-spec handle_continue(again, []) -> {noreply, []} | {stop, term(), []}.
handle_continue(again, State) ->
    case persistent_term:get(?MODULE, closed) == open andalso opened() of
        {error, Not} -> {stop, {not_listening, Not}, State};
        _ -> {noreply, State}
    end.

-spec opened() -> ok | {error, [{inet:ip_address(), inet:port_number()}]}.
opened() ->
    #{listen := Listen} = Config = ocs_diameter_config:get(),
    case [{Ip, Port} || #{ip := Ip, port := Port} = L <- Listen, not listens(L, Config)] of
        [] -> persistent_term:put(?MODULE, open);
        Not -> {error, Not}
    end.

-spec service(ocs_diameter_config:config()) -> [term()].
service(#{origin_host := Host, origin_realm := Realm, origin_state_id := StateId,
          strict_mbit := Strict}) ->
    [{'Origin-Host', Host},
     {'Origin-Realm', Realm},
     {'Origin-State-Id', StateId},
     {'Vendor-Id', 0},
     {'Product-Name', "ocs-diameter"},
     {'Supported-Vendor-Id', [?VENDOR_3GPP]},
     {'Auth-Application-Id', [4]},
     {'Vendor-Specific-Application-Id',
      [[{'Vendor-Id', ?VENDOR_3GPP}, {'Auth-Application-Id', [4]}]]},
     {application, [{alias, common},
                    {dictionary, diameter_gen_base_rfc6733},
                    {module, [ocs_diameter_peer, common]}]},
     {application, [{alias, ro},
                    {dictionary, rfc8506},
                    {module, [ocs_diameter_peer, ro]},
                    {request_errors, callback},
                    {answer_errors, callback},
                    {call_mutates_state, false}]},
     {decode_format, map},
     {string_decode, false},
     {strict_mbit, Strict},
     {traffic_counters, false},
     {restrict_connections, false},
     {spawn_opt, {ocs_diameter_order, start, []}}].

%% OTP opens the port in a process of its own and doesn't say that it couldn't, so it is asked.
-spec listens(ocs_diameter_config:listen(), ocs_diameter_config:config()) -> boolean().
listens(#{ip := Ip, port := Port} = Listen, Config) ->
    {ok, Ref} = diameter:add_transport(?SERVICE, {listen, transport(Listen, Config)}),
    IsOpen = is_open(Ref, Port, ocs_diameter_clock:ms() + ?OPEN_MS),
    IsOpen andalso ?LOG_NOTICE("listening ~s", [ocs_diameter_address:text({Ip, Port})]),
    IsOpen.

-spec is_open(term(), inet:port_number(), integer()) -> boolean().
is_open(Ref, Port, Until) ->
    case [P || {listen, P, _} <- diameter_tcp:ports(Ref), P == Port] of
        [_ | _] -> true;
        [] -> ocs_diameter_clock:left(Until) > 0 andalso again(Ref, Port, Until)
    end.

-spec again(term(), inet:port_number(), integer()) -> boolean().
again(Ref, Port, Until) ->
    timer:sleep(50),
    is_open(Ref, Port, Until).

-spec transport(ocs_diameter_config:listen(), ocs_diameter_config:config()) -> [term()].
transport(#{ip := Ip, port := Port} = Listen, #{watchdog_timer := Watchdog, pool_size := Pool}) ->
    {Kind, First, Tls} = case Listen of
                             #{tls := T} -> {tls, [{module, ocs_diameter_tls}],
                                             ocs_diameter_tls:options(T)};
                             _ -> {plain, [], []}
                         end,
    [{transport_module, diameter_tcp},
     {transport_config, First ++
          [{ip, Ip}, {port, Port}, {reuseaddr, true}, {backlog, 1024}, {nodelay, true},
           {sender, true}, {send_timeout, 10000}, {send_timeout_close, true},
           {fragment_timer, 30000}, {message_cb, {ocs_diameter_peer, message, []}} | Tls]},
     {watchdog_timer, Watchdog},
     {capabilities_cb, {ocs_diameter_peer, known, [Kind]}},
     {capx_timeout, 10000},
     {pool_size, Pool},
     {length_errors, exit}].

-spec handle_call(open, term(), []) -> {reply, term(), []}.
handle_call(open, _, State) ->
    {reply, opened(), State}.

-spec handle_cast({address, pid(), binary()}, []) -> {noreply, []}.
handle_cast({address, Peer, Address}, State) ->
    ets:insert(?MODULE, {Peer, Address}),
    monitor(process, Peer),
    {noreply, State}.

%% The packet of the event is CER, with the mark of ocs_diameter_peer:message/2.
-spec handle_info(term(), []) -> {noreply, []}.
handle_info(#diameter_event{info = {up, _, _, _, #diameter_packet{transport_data = Pid}}}, State)
  when is_pid(Pid) ->
    ets:insert(?MODULE, {Pid}),
    monitor(process, Pid),
    {noreply, State};
handle_info(#diameter_event{info = {watchdog, _, _, {From, To}, _}}, State) ->
    ocs_diameter_metrics:count({watchdog, From, To}),
    {noreply, State};
handle_info({'DOWN', _, process, Pid, _}, State) ->
    ets:delete(?MODULE, Pid),
    {noreply, State};
handle_info(_, State) ->
    {noreply, State}.

%% First what is under way is answered, then the peers are told (DPR).
-spec terminate(term(), []) -> term().
terminate(_, _) ->
    ocs_diameter_order:drain(),
    diameter:stop_service(?SERVICE).
