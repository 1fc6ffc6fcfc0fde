%% The bridge's own small HTTP port, on loopback: OTP's httpd with this module.
%%   GET /metrics    for Prometheus
%%   GET /health     200 while the bridge takes requests
%%   POST /credited  {"Account":"49151"}: the account has got something (ocs_diameter_reauth);
%%                   answers {"Sessions":N}, the sessions whose gateways are told
%% Whoever reaches the port may ask; what a stranger could do with /credited is to have gateways ask
%% the office again.
-module(ocs_diameter_watch).

-export([start_link/1, do/1]).

-include_lib("inets/include/httpd.hrl").

-define(JSON, "application/json").

-spec start_link({inet:ip_address(), inet:port_number()}) -> {ok, pid()} | {error, term()}.
start_link({Ip, Port}) ->
    Family = case tuple_size(Ip) of
                 4 -> inet;
                 8 -> inet6
             end,
    inets:start(httpd, [{port, Port}, {bind_address, Ip}, {ipfamily, Family},
                        {server_name, "ocs-diameter"}, {server_root, "/"}, {document_root, "/"},
                        {modules, [?MODULE]}, {max_clients, 16}, {max_body_size, 4096},
                        {keep_alive_timeout, 10}],
                stand_alone).

%% The callback of httpd (mod_*): an answer to each request.
-spec do(#mod{}) -> {proceed, list()}.
do(#mod{method = Method, request_uri = Target, entity_body = Body}) ->
    {Status, Type, Text} = answer(Method, Target, Body),
    Bytes = unicode:characters_to_list(iolist_to_binary(Text)),
    Head = [{code, Status}, {content_type, Type}, {content_length, integer_to_list(length(Bytes))}],
    {proceed, [{response, {response, Head, Bytes}}]}.

-spec answer(string(), string(), string()) -> {200..599, string(), iodata()}.
answer("GET", "/metrics", _) ->
    {200, "text/plain; version=0.0.4; charset=utf-8", ocs_diameter_metrics:text()};
answer("GET", "/health", _) ->
    {200, ?JSON, "{}"};
answer("POST", "/credited", Body) ->
    try jiffy:decode(Body, [return_maps]) of
        #{<<"Account">> := Account} when is_binary(Account) ->
            {200, ?JSON, jiffy:encode(#{<<"Sessions">> => ocs_diameter_reauth:credited(Account)})};
        _ ->
            {400, ?JSON, "{}"}
    catch
        _:_ -> {400, ?JSON, "{}"}
    end;
answer(_, Target, _) when Target == "/metrics"; Target == "/health"; Target == "/credited" ->
    {405, ?JSON, "{}"};
answer(_, _, _) ->
    {404, ?JSON, "{}"}.
