%% TLS of gateways (RFC 6733 2.1, from the first byte): OTP's ssl with a certificate of each
%% gateway, which ocs_diameter_certificate judges, and a bound on a handshake. This module is the
%% socket module of such a port.
-module(ocs_diameter_tls).

-export([options/1, end_revoked/0, is_named/2, address/1]).
-export([listen/2, accept/2, connect/4, send/2, recv/2, recv/3, close/1, shutdown/2, setopts/2,
         getopts/2, getstat/1, getstat/2, controlling_process/2, peername/1, sockname/1, port/1]).

-define(HANDSHAKE_MS, 5000).

-type tls() :: #{certfile := string(), keyfile := string(), cacertfile := string(),
                 crlfile => string()}.
-export_type([tls/0]).

%% The transport options of a port with TLS. `module' comes first (diameter_tcp).
-spec options(tls()) -> [term()].
options(#{certfile := Certificate, keyfile := Key, cacertfile := Authority} = Tls) ->
    [{ssl_options, true}, {certfile, Certificate}, {keyfile, Key}, {cacertfile, Authority},
     {verify, verify_peer}, {fail_if_no_peer_cert, true}, {versions, ['tlsv1.2', 'tlsv1.3']}]
        ++ [O || is_map_key(crlfile, Tls),
                 O <- [{crl_check, peer}, {crl_cache, {ocs_diameter_certificate, {internal, []}}}]].

%% Ends the connections that stand whose certificates are revoked by now; how many.
-spec end_revoked() -> non_neg_integer().
end_revoked() ->
    Ended = [Pid || {{_, _, {_, Socket}}, Pid} <- diameter_reg:match({diameter_tcp, accept, '_'}),
                    not is_port(Socket),
                    {ok, Der} <- [ssl:peercert(Socket)],
                    ocs_diameter_certificate:is_revoked(Der)],
    lists:foreach(fun(Pid) -> exit(Pid, kill) end, Ended),
    length(Ended).

%% Whether the certificate of the connection whose peer_fsm process this is names the host.
-spec is_named(pid(), unicode:chardata()) -> boolean().
is_named(Peer, Host) ->
    lists:any(fun(Der) -> ocs_diameter_certificate:is_named(Der, Host) end,
              [Der || Socket <- of_peer(Peer), {ok, Der} <- [ssl:peercert(Socket)]]).

%% The address and port of the other end of this process's connection, with TLS or without.
-spec address(pid()) -> binary().
address(Peer) ->
    Names = [case is_port(Socket) of
                 true -> inet:peername(Socket);
                 false -> ssl:peername(Socket)
             end || Socket <- of_peer(Peer)],
    case Names of
        [{ok, {_, _} = Address} | _] -> iolist_to_binary(ocs_diameter_address:text(Address));
        _ -> <<"-">>
    end.

-spec of_peer(pid()) -> [ssl:sslsocket() | port()].
of_peer(Peer) ->
    [Socket || {{_, _, Transport}, _} <- diameter_reg:match({diameter_peer_fsm, Peer, '_'}),
               Socket <- sockets(Transport)].

%% The connection of a transport process, once its handshake is done.
-spec sockets(pid()) -> [ssl:sslsocket() | port()].
sockets(Transport) ->
    [Socket || {{_, _, {_, Socket}}, Pid} <- diameter_reg:match({diameter_tcp, accept, '_'}),
               Pid == Transport].

%% ------------------------------------------------------------------------------------------------
%% The socket module: gen_tcp with a bound on a handshake. OTP's acceptors wait for a handshake
%% without an end, so a few strangers who say nothing would keep all gateways out.
%% ------------------------------------------------------------------------------------------------
-spec accept(inet:socket(), timeout()) -> {ok, inet:socket()} | {error, term()}.
accept(Listening, Time) ->
    Accepted = gen_tcp:accept(Listening, Time),
    Acceptor = self(),
    _ = element(1, Accepted) == ok andalso spawn(fun() -> bound(Acceptor) end),
    Accepted.

%% Ends an acceptor whose connection isn't known as one of diameter_tcp in time.
-spec bound(pid()) -> term().
bound(Acceptor) ->
    timer:sleep(?HANDSHAKE_MS),
    [] == sockets(Acceptor) andalso exit(Acceptor, kill).

-spec listen(inet:port_number(), list()) -> {ok, inet:socket()} | {error, term()}.
listen(Port, Options) -> gen_tcp:listen(Port, Options).

-spec connect(term(), inet:port_number(), list(), timeout()) -> {error, eacces}.
connect(_, _, _, _) -> {error, eacces}.

-spec send(inet:socket(), iodata()) -> ok | {error, term()}.
send(Socket, Bytes) -> gen_tcp:send(Socket, Bytes).

-spec recv(inet:socket(), non_neg_integer()) -> {ok, term()} | {error, term()}.
recv(Socket, Length) -> gen_tcp:recv(Socket, Length).

-spec recv(inet:socket(), non_neg_integer(), timeout()) -> {ok, term()} | {error, term()}.
recv(Socket, Length, Time) -> gen_tcp:recv(Socket, Length, Time).

-spec close(inet:socket()) -> ok.
close(Socket) -> gen_tcp:close(Socket).

-spec shutdown(inet:socket(), read | write | read_write) -> ok | {error, term()}.
shutdown(Socket, How) -> gen_tcp:shutdown(Socket, How).

-spec setopts(inet:socket(), list()) -> ok | {error, term()}.
setopts(Socket, Options) -> inet:setopts(Socket, Options).

-spec getopts(inet:socket(), list()) -> {ok, list()} | {error, term()}.
getopts(Socket, Options) -> inet:getopts(Socket, Options).

-spec getstat(inet:socket()) -> {ok, list()} | {error, term()}.
getstat(Socket) -> inet:getstat(Socket).

-spec getstat(inet:socket(), list()) -> {ok, list()} | {error, term()}.
getstat(Socket, Options) -> inet:getstat(Socket, Options).

-spec controlling_process(inet:socket(), pid()) -> ok | {error, term()}.
controlling_process(Socket, Pid) -> gen_tcp:controlling_process(Socket, Pid).

-spec peername(inet:socket()) -> {ok, term()} | {error, term()}.
peername(Socket) -> inet:peername(Socket).

-spec sockname(inet:socket()) -> {ok, term()} | {error, term()}.
sockname(Socket) -> inet:sockname(Socket).

-spec port(inet:socket()) -> {ok, inet:port_number()} | {error, term()}.
port(Socket) -> inet:port(Socket).
