%% The callbacks of the Diameter application and of its connections. handle_request/4 runs in the
%% process of one request (ocs_diameter_order), known/3 and message/2 in those of a connection.
-module(ocs_diameter_peer).

-export([peer_up/4, peer_down/4, pick_peer/5, prepare_request/4, prepare_retransmit/4,
         handle_answer/5, handle_error/5, handle_request/4]).
-export([known/3, message/2]).

-include_lib("diameter/include/diameter.hrl").
-include_lib("kernel/include/logger.hrl").

%% OTP's messages are ['NAME' | Map].
-dialyzer([no_improper_lists, {nowarn_function, prepare_request/4}]).

-define(CCR, 272).
%% Requests of a connection that are read beyond those that may be under way.
-define(MOST_AHEAD, 1000).

-type peer() :: {term(), #diameter_caps{}}.
-type packet() :: #diameter_packet{}.

%% ------------------------------------------------------------------------------------------------
%% Peers
%% ------------------------------------------------------------------------------------------------
-spec peer_up(term(), peer(), State, term()) -> State.
peer_up(_, {_, Caps}, State, _) ->
    ?LOG_NOTICE("peer ~ts up", [ocs_diameter_caps:host(Caps)]),
    ocs_diameter_metrics:peer(ocs_diameter_caps:host(Caps), 1),
    State.

-spec peer_down(term(), peer(), State, term()) -> State.
peer_down(_, {_, Caps}, State, _) ->
    ?LOG_NOTICE("peer ~ts down", [ocs_diameter_caps:host(Caps)]),
    ocs_diameter_metrics:peer(ocs_diameter_caps:host(Caps), -1),
    State.

%% A Re-Auth-Request goes to the connection that ocs_diameter_reauth names.
-spec pick_peer([peer()], [peer()], term(), term(), term()) -> {ok, peer()} | false.
pick_peer([Peer | _], _, _, _, _) -> {ok, Peer};
pick_peer([], _, _, _, _) -> false.

-spec prepare_request(packet(), term(), peer(), term()) -> {send, term()}.
prepare_request(#diameter_packet{msg = ['RAR' | Members]}, _, {_, Caps}, _) ->
    {send, ['RAR' | maps:merge(Members, ocs_diameter_caps:origin(Caps))]}.

-spec prepare_retransmit(packet(), term(), peer(), term()) -> {send, packet()}.
prepare_retransmit(Packet, _, _, _) -> {send, Packet}.

-spec handle_answer(packet(), term(), term(), peer(), term()) -> term().
handle_answer(#diameter_packet{msg = ['RAA' | Answer]}, _, _, _, _) ->
    ocs_diameter_avp:value('Result-Code', Answer);
handle_answer(#diameter_packet{msg = ['answer-message' | Answer]}, _, _, _, _) ->
    ocs_diameter_avp:value('Result-Code', Answer);
handle_answer(_, _, _, _, _) ->
    none.

-spec handle_error(term(), term(), term(), peer(), term()) -> term().
handle_error(Reason, _, _, _, _) -> Reason.

-spec handle_request(packet(), term(), peer(), term()) -> ocs_diameter_handler:reply().
handle_request(Packet, _, Peer, _) -> ocs_diameter_handler:handle(Packet, Peer).

%% ------------------------------------------------------------------------------------------------
%% Connections
%% ------------------------------------------------------------------------------------------------

%% capabilities_cb: a peer whose Origin-Host is no name, isn't configured, or isn't a name of its
%% certificate, is answered 3010 (DIAMETER_UNKNOWN_PEER).
-spec known(term(), #diameter_caps{}, plain | tls) -> ok | unknown.
known(_, Caps, Kind) ->
    #{peers := Peers} = ocs_diameter_config:get(),
    Host = ocs_diameter_caps:host(Caps),
    IsNamed = ocs_diameter_avp:is_shown(Host)
        andalso (Peers == any orelse lists:any(fun(P) -> string:equal(P, Host, true) end, Peers)),
    case IsNamed andalso (Kind == plain orelse ocs_diameter_tls:is_named(self(), Host)) of
        true ->
            ocs_diameter_service:addressed(self(), ocs_diameter_tls:address(self()));
        false ->
            ?LOG_WARNING("peer ~s turned away: ~s", [Host, case IsNamed of
                                                                true -> "its certificate";
                                                                false -> "not configured"
                                                            end]),
            ocs_diameter_metrics:count({peer_refused, reason(IsNamed)}),
            unknown
    end.

-spec reason(boolean()) -> certificate | name.
reason(true) -> certificate;
reason(false) -> name.

%% message_cb: the first request of a connection waits until the connection is up, and a connection
%% whose requests come faster than their answers go isn't read for a while.
%%
%% OTP sends CEA before the service has entered the connection into its table of peers, and a
%% request that comes in between belongs to no connection and is dropped without an answer. So CER
%% is marked with this process, and the event `up' carries the mark (ocs_diameter_service).
-spec message(recv | send | ack, term()) -> list().
message(recv, <<1, _:24, 1:1, _:7, 257:24, _/binary>> = Cer) ->
    [#diameter_packet{bin = Cer, transport_data = self()}, unanswered(1)];
message(recv, <<1, _:24, 1:1, _:7, ?CCR:24, _/binary>> = Ccr) ->
    get(up) == true orelse put(up, ocs_diameter_service:wait_up(self(), 2000)),
    [Ccr, unanswered(1)];
message(recv, <<_:32, 1:1, _/bitstring>> = Request) ->
    [Request, unanswered(1)];
message(ack, #diameter_packet{bin = Sent}) ->
    message(ack, Sent);
message(ack, <<_:32, 1:1, _/bitstring>>) ->
    [];
message(ack, _) ->
    [unanswered(-1)];
message(_, Message) ->
    [Message].

%% Counts the requests of this connection that are read and not yet answered. Whether to read on:
%% OTP would read whatever comes into the queues of its processes.
-spec unanswered(1 | -1) -> boolean().
unanswered(By) ->
    Count = case get(unanswered) of
                undefined -> By;
                Before -> Before + By
            end,
    put(unanswered, Count),
    Count < maps:get(in_flight, ocs_diameter_config:get()) + ?MOST_AHEAD.
