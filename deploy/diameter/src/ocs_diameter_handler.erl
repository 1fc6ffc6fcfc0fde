%% The answer to one request: called in the request's own process (ocs_diameter_order) by
%% ocs_diameter_peer.
%%
%% Whatever goes wrong, a gateway gets an answer: a callback that fails would leave it without one,
%% and so would an answer that can't be encoded. So the answer is encoded here, and all is caught.
-module(ocs_diameter_handler).

-export([handle/2]).
-export_type([reply/0]).

-include_lib("diameter/include/diameter.hrl").
-include_lib("kernel/include/logger.hrl").

%% OTP's messages are ['NAME' | Map].
-dialyzer(no_improper_lists).

-define(APPLICATION, 4).
-define(SESSION_ID, 263).

-type peer() :: {term(), #diameter_caps{}}.
-type packet() :: #diameter_packet{}.
%% What OTP takes for an answer: bytes, a message that it encodes, or an error of the protocol.
-type reply() :: {reply, binary() | list()} | {answer_message, 3000..5999}.
%% What the line of a request says beside its times; see ocs_diameter_log.
-type facts() :: #{atom() => term()}.

-spec handle(packet(), peer()) -> reply().
handle(Packet, Peer) ->
    Context = ocs_diameter_order:context(),
    try
        {Reply, Facts} = case Context of
                             #{admitted := true} -> answer(Packet, Peer, Context);
                             _ -> {{answer_message, 3004}, #{why => <<"in-flight">>}}
                         end,
        Bytes = encoded(Reply, Packet, Peer),
        seen(Packet, Peer, Context, code(Reply), Facts, Bytes),
        Bytes
    catch
        Class:Reason:Stack ->
            ?LOG_ERROR("request not answered as it should be: ~p", [{Class, Reason, Stack}]),
            seen(Packet, Peer, Context, 5012, #{why => <<"fault">>}, none),
            encoded({answer_message, 5012}, Packet, Peer)
    end.

%% A request with faults of its own: OTP puts the Result-Code and the Failed-AVP that the decoder
%% found into the answer. Without a Session-Id there is no CCA.
-spec answer(packet(), peer(), ocs_diameter_order:context()) -> {term(), facts()}.
answer(#diameter_packet{errors = [_ | _] = Errors, msg = Message}, {_, Caps}, _) ->
    Code = decoder_code(Errors),
    Reply = case Message of
                ['CCR' | #{'Session-Id' := _} = Ccr] when Code >= 4000 ->
                    {faulty, Code, (head(Ccr, Caps))#{'Result-Code' => Code}};
                _ ->
                    {answer_message, Code}
            end,
    {Reply, #{why => <<"avps">>}};
answer(#diameter_packet{msg = ['CCR' | Ccr], avps = Avps}, {_, Caps} = Peer, Context) ->
    Config = ocs_diameter_config:get(),
    case ocs_diameter_request:plan(Ccr, Config) of
        {ok, Plan} ->
            carried_out(Plan, Ccr, Avps, Peer, Context, Config);
        {refuse, Code, [Name]} when Code < 4000 ->
            {{answer_message, Code}, #{why => atom_to_binary(Name)}};
        {refuse, Code, Path} ->
            {{cca, (head(Ccr, Caps))#{'Result-Code' => Code,
                                      'Failed-AVP' => [failed([Path], Avps)]}},
             #{why => atom_to_binary(lists:last(Path))}}
    end;
answer(_, _, _) ->
    {{answer_message, 3001}, #{why => <<"command">>}}.

-spec carried_out(ocs_diameter_request:plan(), ocs_diameter_avp:avps(), list(), peer(),
                  ocs_diameter_order:context(), ocs_diameter_config:config()) -> {term(), facts()}.
carried_out(Plan, Ccr, Avps, {_, Caps} = Peer, #{deadline := Deadline}, Config) ->
    Ask = fun(Question) -> question(Question, Deadline) end,
    Answer = ocs_diameter_ask:ask(Plan, maps:get(opening, Config), Ask),
    Facts = maps:merge(#{account => account(Plan)}, told(Answer)),
    case Answer of
        {protocol, Code} ->
            {{answer_message, Code}, Facts};
        {ok, Json} ->
            ocs_diameter_reauth:note(account(Plan), Ccr, Json, Peer),
            Members = maps:merge(head(Ccr, Caps), ocs_diameter_answer:avps(Plan, Json, Config)),
            {{cca, with_failed(Members, Json, Avps)}, Facts}
    end.

-spec with_failed(ocs_diameter_avp:avps(), map(), list()) -> ocs_diameter_avp:avps().
with_failed(Members, #{<<"Failed-AVP">> := Name}, Avps) ->
    Members#{'Failed-AVP' => [failed(ocs_diameter_answer:paths(Name), Avps)]};
with_failed(Members, _, _) ->
    Members.

-spec failed([ocs_diameter_avp:path(), ...], list()) -> ocs_diameter_avp:avps().
failed(Paths, Avps) ->
    ocs_diameter_failed:failed(Paths, Avps, rfc8506).

-spec account(ocs_diameter_request:plan()) -> binary().
account(#{body := #{<<"Subscription-Id">> := #{<<"Subscription-Id-Data">> := Account}}}) ->
    Account.

%% What every CCA has. Proxy-Info goes back as it came, in its order.
-spec head(ocs_diameter_avp:avps(), #diameter_caps{}) -> ocs_diameter_avp:avps().
head(#{'Session-Id' := Session} = Ccr, Caps) ->
    Kept = [{Name, ocs_diameter_avp:list(Name, Ccr)}
            || Name <- ['CC-Request-Type', 'CC-Request-Number', 'Proxy-Info']],
    maps:merge(maps:from_list([{Name, Values} || {Name, [_ | _] = Values} <- Kept]),
               (ocs_diameter_caps:origin(Caps))#{'Session-Id' => Session,
                                                 'Auth-Application-Id' => ?APPLICATION}).

-spec decoder_code(list()) -> 3000..5999.
decoder_code([{Code, _} | _]) -> Code;
decoder_code([Code | _]) when is_integer(Code) -> Code;
decoder_code([_ | Rest]) -> decoder_code(Rest);
decoder_code([]) -> 5012.

%% The office's word, or why there is none. What the last answer's head said is kept for the line.
-spec question(ocs_diameter_ask:question(), integer()) -> ocs_diameter_ask:answer().
question(Question, Deadline) ->
    {Reply, Seen} = ocs_diameter_office:ask(Question, Deadline),
    put(seen, Seen),
    case Reply of
        {answered, Status, Body} -> read(Status, Body);
        busy -> {protocol, 3004};
        open -> {protocol, 3002}
    end.

-spec read(pos_integer(), binary()) -> ocs_diameter_ask:answer().
read(Status, Body) when Status == 200; Status == 400 ->
    try jiffy:decode(Body, [return_maps]) of
        #{<<"Result-Code">> := Code} = Answer when is_integer(Code) -> {ok, Answer};
        #{<<"Barred">> := _} = Balance -> {ok, maps:with([<<"Barred">>], Balance)};
        #{<<"Refusal">> := _} = Refusal -> {ok, Refusal};
        _ -> unread(Status, Body)
    catch
        _:_ -> unread(Status, Body)
    end;
%% A door doesn't let the bridge ask that: a refund, by a gateway without the right to it.
read(403, _) ->
    {ok, #{<<"Result-Code">> => 5003}};
read(Status, Body) ->
    unread(Status, Body).

-spec unread(pos_integer(), binary()) -> ocs_diameter_ask:answer().
unread(Status, Body) ->
    ?LOG_ERROR("the office answered ~p ~ts", [Status, binary:part(Body, 0, min(200, size(Body)))]),
    {ok, #{<<"Result-Code">> => 5012}}.

%% ------------------------------------------------------------------------------------------------
%% Answers
%% ------------------------------------------------------------------------------------------------

%% The bytes of an answer, which OTP sends as they are. An answer to a request that the decoder
%% found at fault is left to OTP, which adds what was found.
-spec encoded(term(), packet(), peer()) -> reply().
encoded({cca, Members}, #diameter_packet{header = Header}, _) ->
    Answer = Header#diameter_header{version = 1, is_request = false, is_error = false,
                                    is_retransmitted = false},
    #diameter_packet{bin = Bytes} =
        diameter_codec:encode(rfc8506, #diameter_packet{header = Answer, msg = ['CCA' | Members]}),
    true = is_binary(Bytes),
    {reply, Bytes};
encoded({faulty, _, Members}, _, _) ->
    {reply, ['CCA' | Members]};
%% OTP sends the Session-Id back, which it can't encode where it isn't UTF-8.
encoded({answer_message, Code} = Reply, #diameter_packet{avps = Avps}, {_, Caps}) ->
    case [Id || #diameter_avp{code = ?SESSION_ID, data = Id} <- Avps, not is_text(Id)] of
        [] -> Reply;
        _ -> {reply, ['answer-message' | (ocs_diameter_caps:origin(Caps))#{'Result-Code' => Code}]}
    end.

%% An AVP whose length is off has no bytes as its data.
-spec is_text(term()) -> boolean().
is_text(Data) ->
    is_binary(Data) andalso is_list(unicode:characters_to_list(Data)).

-spec code(term()) -> pos_integer().
code({cca, #{'Result-Code' := Code}}) -> Code;
code({faulty, Code, _}) -> Code;
code({answer_message, Code}) -> Code.

%% ------------------------------------------------------------------------------------------------
%% What is seen of a request
%% ------------------------------------------------------------------------------------------------
-spec told(ocs_diameter_ask:answer()) -> facts().
told({protocol, 3004}) ->
    #{why => <<"office-busy">>};
told({protocol, 3002}) ->
    #{why => <<"office-open">>};
told({ok, #{<<"Multiple-Services-Credit-Control">> := [First | _]}}) ->
    maps:merge(#{service => maps:get(<<"Result-Code">>, First)}, granted(First));
told({ok, _}) ->
    #{}.

-spec granted(map()) -> facts().
granted(#{<<"Granted-Service-Unit">> := Units}) ->
    Amounts = maps:values(maps:remove(<<"Tariff-Time-Change">>, Units)),
    maps:from_list([{granted, Amount} || Amount <- Amounts]);
granted(_) ->
    #{}.

%% Counts the answer, and writes its line.
-spec seen(packet(), peer(), ocs_diameter_order:context(), pos_integer(), facts(), term()) -> ok.
seen(Packet, {Peer, Caps}, #{came := Came, turn := Turn}, Code, Facts, Reply) ->
    Now = ocs_diameter_clock:ms(),
    Ccr = case Packet of
              #diameter_packet{msg = ['CCR' | Members]} when is_map(Members) -> Members;
              _ -> #{}
          end,
    Who = ocs_diameter_caps:host(Caps),
    ocs_diameter_metrics:answered(Who, Code, Now - Came),
    ocs_diameter_log:line(
      maps:merge(#{peer => ocs_diameter_service:address(Peer), who => Who, code => Code,
                   waited => Turn - Came, answered => Now - Turn, took => Now - Came,
                   bytes => size_of(Reply), session => ocs_diameter_avp:value('Session-Id', Ccr),
                   type => ocs_diameter_avp:value('CC-Request-Type', Ccr),
                   number => ocs_diameter_avp:value('CC-Request-Number', Ccr),
                   seen => get(seen)}, Facts)).

-spec size_of(term()) -> non_neg_integer().
size_of({reply, Bytes}) when is_binary(Bytes) -> byte_size(Bytes);
size_of(_) -> 0.
