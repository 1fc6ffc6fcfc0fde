%% One exchange of HTTP/1.1 with the office. Called by ocs_diameter_office for each try.
%%
%% A request has its connection to itself. OTP's httpc isn't used, since it hands a request to a
%% connection on which another one is under way, so that an account whose shard is away would hold
%% up others. A connection is closed when its request's time is over: what waits in HAProxy then
%% isn't done later (option abortonclose). An answer is mostly one packet, so it costs one reading
%% of the socket; its head is taken apart by OTP's erlang:decode_packet/3.
-module(ocs_diameter_http).

-export([once/3]).
-export_type([outcome/0]).

%% Longest head and longest body that are read: a balance of 40,000 buckets has some 5 MB.
-define(MOST_HEAD, 16#10000).
-define(MOST_BODY, 16#4000000).

%% Fields of a head by their names as decode_packet/3 gives them.
-type fields() :: #{atom() | binary() => binary()}.
%% unsent: nothing reached the office. closed: the connection ended before an answer's first byte.
%% broken: no answer in time, or none that can be read.
-type outcome() :: {answer, pos_integer(), fields(), binary(), keep | close}
                 | unsent | closed | broken.

%% One exchange: on a kept connection, or on a new one where none is kept.
-spec once(ocs_diameter_config:office(), iodata(), integer()) -> outcome().
once(Office, Request, Deadline) ->
    case ocs_diameter_pool:take() of
        none ->
            case connect(Office, Deadline) of
                {ok, Socket} -> on(Socket, Request, Deadline);
                {error, _} -> unsent
            end;
        Socket ->
            case on(Socket, Request, Deadline) of
                unsent -> closed;
                Outcome -> Outcome
            end
    end.

-spec connect(ocs_diameter_config:office(), integer()) ->
          {ok, gen_tcp:socket()} | {error, term()}.
connect(Office, Deadline) ->
    {Address, Port, Family} = case Office of
                                  {local, _} -> {Office, 0, [local]};
                                  {{_, _, _, _} = A, P} -> {A, P, [{nodelay, true}]};
                                  {A, P} -> {A, P, [inet6, {nodelay, true}]}
                              end,
    Options = [binary, {active, false}, {send_timeout, 5000}, {send_timeout_close, true}],
    case gen_tcp:connect(Address, Port, Options ++ Family,
                         min(1000, ocs_diameter_clock:left(Deadline))) of
        {ok, Socket} -> ocs_diameter_pool:own(Socket);
        {error, _} = Not -> Not
    end.

-spec on(gen_tcp:socket(), iodata(), integer()) -> outcome().
on(Socket, Request, Deadline) ->
    Outcome = try exchanged(Socket, Request, Deadline)
              catch error:_ -> broken
              end,
    case Outcome of
        {answer, _, _, _, keep} -> ocs_diameter_pool:give(Socket);
        _ -> gen_tcp:close(Socket)
    end,
    Outcome.

%% A connection that ends before its answer's first byte had carried no answer; whether the request
%% was read is then open.
-spec exchanged(gen_tcp:socket(), iodata(), integer()) -> outcome().
exchanged(Socket, Request, Deadline) ->
    case gen_tcp:send(Socket, Request) of
        ok ->
            case recv(Socket, 0, Deadline) of
                {ok, Bytes} -> answer(Socket, Deadline, Bytes);
                {error, closed} -> closed;
                {error, _} -> broken
            end;
        {error, _} ->
            unsent
    end.

%% The answer that begins with these bytes.
-spec answer(gen_tcp:socket(), integer(), binary()) -> outcome().
answer(Socket, Deadline, Bytes) ->
    case head(Bytes) of
        {Status, Fields, Rest} ->
            body(Socket, Deadline, Status, Fields, Rest);
        more when byte_size(Bytes) < ?MOST_HEAD ->
            case recv(Socket, 0, Deadline) of
                {ok, More} -> answer(Socket, Deadline, <<Bytes/binary, More/binary>>);
                {error, _} -> broken
            end;
        _ ->
            broken
    end.

%% Status and fields of a head, and the bytes behind it.
-spec head(binary()) -> {pos_integer(), fields(), binary()} | more | broken.
head(Bytes) ->
    case erlang:decode_packet(http_bin, Bytes, []) of
        {ok, {http_response, _, Status, _}, Rest} -> fields(Rest, Status, #{});
        {more, _} -> more;
        _ -> broken
    end.

-spec fields(binary(), pos_integer(), fields()) -> {pos_integer(), fields(), binary()}
                                                 | more | broken.
fields(Bytes, Status, Fields) ->
    case erlang:decode_packet(httph_bin, Bytes, []) of
        {ok, {http_header, _, Name, _, Value}, Rest} ->
            fields(Rest, Status, Fields#{Name => Value});
        {ok, http_eoh, Rest} -> {Status, Fields, Rest};
        {more, _} -> more;
        _ -> broken
    end.

%% Bytes behind an answer belong to nothing that was asked: then the connection isn't kept.
-spec body(gen_tcp:socket(), integer(), pos_integer(), fields(), binary()) -> outcome().
body(Socket, Deadline, Status, Fields, Bytes) ->
    Keep = case string:lowercase(maps:get('Connection', Fields, <<>>)) of
               <<"close">> -> close;
               _ -> keep
           end,
    case binary_to_integer(maps:get('Content-Length', Fields, <<"-">>)) - byte_size(Bytes) of
        0 ->
            {answer, Status, Fields, Bytes, Keep};
        Less when Less < 0, -Less =< byte_size(Bytes) ->
            {answer, Status, Fields, binary:part(Bytes, 0, byte_size(Bytes) + Less), close};
        More when More > 0, More =< ?MOST_BODY ->
            case recv(Socket, More, Deadline) of
                {ok, Rest} -> {answer, Status, Fields, <<Bytes/binary, Rest/binary>>, Keep};
                {error, _} -> broken
            end;
        _ ->
            broken
    end.

-spec recv(gen_tcp:socket(), non_neg_integer(), integer()) -> {ok, binary()} | {error, term()}.
recv(Socket, Length, Deadline) ->
    gen_tcp:recv(Socket, Length, ocs_diameter_clock:left(Deadline)).
