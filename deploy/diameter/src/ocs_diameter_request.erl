%% From a Credit-Control-Request to what the office is asked. A function of the decoded request and
%% the configuration alone: nothing is kept between two requests, and the office's key, Session-Id
%% with CC-Request-Number, decides what a repeat is. Called for each CCR by ocs_diameter_handler.
-module(ocs_diameter_request).

-export([plan/2]).
-export_type([plan/0]).

-define(MSCC, 'Multiple-Services-Credit-Control').
-define(RSU, 'Requested-Service-Unit').
-define(USU, 'Used-Service-Unit').
-define(INITIAL, 1).
-define(UPDATE, 2).
-define(TERMINATION, 3).
-define(EVENT, 4).
-define(REFUND, 1).
-define(CHECK_BALANCE, 2).

%% What is asked, and what the answer is put into.
%%   kind    how the office is asked: see ocs_diameter_ask
%%   form    services: answered as MSCC; command: units beside no service
%%   ids     the Service-Identifiers of each service, to be sent back
%%   body    the request for the office
-type plan() :: #{kind := ocs_diameter_ask:kind(), form := services | command,
                  ids := [[non_neg_integer()]], type := term(), body := map()}.
-type avps() :: ocs_diameter_avp:avps().
-type group() :: none | non_neg_integer().

%% The plan for a request, or the Result-Code and the place of the AVP for which it is refused.
-spec plan(avps(), ocs_diameter_config:config()) ->
          {ok, plan()} | {refuse, 3002..5999, ocs_diameter_avp:path()}.
plan(Ccr, Config) ->
    try {ok, planned(Ccr, Config)}
    catch throw:{refuse, Code, Path} -> {refuse, Code, Path}
    end.

-spec planned(avps(), ocs_diameter_config:config()) -> plan().
planned(Ccr, Config) ->
    addressed(Ccr, Config),
    ocs_diameter_table:refuse(command, Ccr, []),
    Type = ocs_diameter_avp:value('CC-Request-Type', Ccr),
    Action = ocs_diameter_avp:value('Requested-Action', Ccr),
    Account = ocs_diameter_subscriber:account(Ccr, maps:get(subscribers, Config)),
    Head = #{<<"Session-Id">> => session(Ccr),
             <<"CC-Request-Type">> => Type,
             <<"CC-Request-Number">> => ocs_diameter_avp:value('CC-Request-Number', Ccr),
             <<"Subscription-Id">> => #{<<"Subscription-Id-Type">> => 0,
                                        <<"Subscription-Id-Data">> => Account}},
    case Type == ?EVENT andalso Action == ?REFUND of
        true -> plan(plain, command, [], Type, refund(Ccr, Head));
        false -> charge(Type, Action, services(Type, Ccr, Config), Head)
    end.

-spec plan(ocs_diameter_ask:kind(), services | command, [[non_neg_integer()]], term(), map()) ->
          plan().
plan(Kind, Form, Ids, Type, Body) ->
    #{kind => Kind, form => Form, ids => Ids, type => Type, body => Body}.

%% A request for another host or realm isn't ours to answer. Several bridges before one office
%% answer for each other's names, so that a gateway may go on with another one.
-spec addressed(avps(), ocs_diameter_config:config()) -> ok.
addressed(Ccr, #{hosts := Hosts, realms := Realms}) ->
    Host = ocs_diameter_avp:value('Destination-Host', Ccr),
    Host == none orelse among(Host, Hosts) orelse throw({refuse, 3002, ['Destination-Host']}),
    among(ocs_diameter_avp:value('Destination-Realm', Ccr), Realms)
        orelse throw({refuse, 3003, ['Destination-Realm']}),
    lists:member(ocs_diameter_avp:value('Auth-Application-Id', Ccr), [none, 4])
        orelse throw({refuse, 5004, ['Auth-Application-Id']}),
    ok.

%% Names that are written alike are told first: to fold their case costs more than all else here.
-spec among(binary(), [string()]) -> boolean().
among(Name, Names) ->
    Text = binary_to_list(Name),
    lists:member(Text, Names) orelse lists:any(fun(N) -> string:equal(N, Text, true) end, Names).

-spec session(avps()) -> binary().
session(Ccr) ->
    Id = ocs_diameter_avp:value('Session-Id', Ccr),
    Size = byte_size(Id),
    Size >= 1 andalso Size =< 128 andalso ocs_diameter_avp:is_shown(Id)
        orelse throw({refuse, 5004, ['Session-Id']}),
    Id.

%% Many gateways open a session without naming a service. The office wants one, so it is only asked
%% whether it knows the account; the first update that asks for units opens the session there.
-spec charge(term(), term(), {services | command, [map()], [[non_neg_integer()]]}, map()) -> plan().
charge(?INITIAL, _, {services, [], []}, Head) ->
    Check = #{<<"Rating-Group">> => 0, <<"Requested-Service-Unit">> => #{}},
    Body = Head#{<<"CC-Request-Type">> := ?EVENT, <<"Requested-Action">> => ?CHECK_BALANCE,
                 <<"Multiple-Services-Credit-Control">> => [Check]},
    plan(open, services, [], ?INITIAL, Body);
charge(Type, Action, {Form, Services, Ids}, Head) ->
    Body = Head#{<<"Multiple-Services-Credit-Control">> => Services},
    Acting = case Type == ?EVENT andalso Action /= none of
                 true -> Body#{<<"Requested-Action">> => Action};
                 false -> Body
             end,
    plan(kind(Type, Services), Form, Ids, Type, Acting).

-spec kind(term(), [map()]) -> ocs_diameter_ask:kind().
kind(Type, Services) ->
    Parts = lists:append([Used || #{<<"Used-Service-Unit">> := Used} <- Services]),
    IsNothing = fun(P) -> maps:values(maps:remove(<<"Tariff-Change-Usage">>, P)) == [0] end,
    case Type of
        ?UPDATE when Parts == [], Services /= [] -> may_open;
        ?TERMINATION -> case lists:all(IsNothing, Parts) of
                            true -> ending;
                            false -> plain
                        end;
        _ -> plain
    end.

%% The services of a request; units beside no service are those of the default group.
-spec services(term(), avps(), ocs_diameter_config:config()) ->
          {services | command, [map()], [[non_neg_integer()]]}.
services(Type, Ccr, Config) ->
    Services = ocs_diameter_avp:list(?MSCC, Ccr),
    Beside = [N || N <- [?RSU, ?USU], is_map_key(N, Ccr), maps:get(N, Ccr) /= []],
    Default = default_group(Ccr, Config),
    case {Services, Beside} of
        {_, []} ->
            {services, [service(Type, S, Default, Config) || S <- Services],
             [ocs_diameter_avp:list('Service-Identifier', S) || S <- Services]};
        {[], [_ | _]} when Default /= none ->
            {command, [units(Type, maps:with(Beside, Ccr), Default, [], Config)], [[]]};
        {_, [First | _]} ->
            throw({refuse, 5008, [First]})
    end.

%% A Service-Context-Id may have an operator's extension, MNC, MCC and a release before its own part
%% (TS 32.299 7.1.12): ext.01.001.8.32260@3gpp.org is 32260@3gpp.org.
-spec default_group(avps(), ocs_diameter_config:config()) -> group().
default_group(Ccr, #{default_groups := Groups}) ->
    Context = ocs_diameter_avp:value('Service-Context-Id', Ccr),
    [Front | Domain] = binary:split(Context, <<"@">>),
    Own = lists:last(binary:split(Front, <<".">>, [global])),
    Short = iolist_to_binary(lists:join($@, [Own | Domain])),
    hd([G || K <- [Context, Short, any], G <- [maps:get(K, Groups, none)], G /= none] ++ [none]).

-spec service(term(), avps(), group(), ocs_diameter_config:config()) -> map().
service(Type, Avps, Default, Config) ->
    ocs_diameter_table:refuse(service, Avps, [?MSCC]),
    Group = case ocs_diameter_avp:value('Rating-Group', Avps) of
                none -> Default;
                Own -> Own
            end,
    units(Type, Avps, Group, [?MSCC], Config).

%% The members of a service. A termination asks for nothing, so what it wants is left out.
-spec units(term(), avps(), group(), ocs_diameter_avp:path(), ocs_diameter_config:config()) ->
          map().
units(Type, Avps, Group, Path, #{units := Units}) ->
    Unit = maps:get(Group, Units, unknown),
    Used = ocs_diameter_units:used(ocs_diameter_avp:list(?USU, Avps), Unit, Path ++ [?USU]),
    maps:from_list(
      [{<<"Rating-Group">>, Group} || Group /= none]
      ++ [{<<"Requested-Service-Unit">>,
           ocs_diameter_units:requested(R, Unit, Path ++ [?RSU])}
          || R <- ocs_diameter_avp:list(?RSU, Avps), Type /= ?TERMINATION]
      ++ [{<<"Used-Service-Unit">>, Used} || Used /= []]).

%% A refund names money, beside no service or in one.
-spec refund(avps(), map()) -> map().
refund(Ccr, Head) ->
    Units = case {ocs_diameter_avp:list(?RSU, Ccr), ocs_diameter_avp:list(?MSCC, Ccr)} of
                {[Beside], []} -> [Beside];
                {[], [Service]} -> ocs_diameter_avp:list(?RSU, Service);
                {[], []} -> [];
                {[], _} -> throw({refuse, 5009, [?MSCC]});
                {_, _} -> throw({refuse, 5008, [?RSU]})
            end,
    maps:merge(Head#{<<"Requested-Action">> => ?REFUND},
               maps:from_list([{<<"Requested-Service-Unit">>, ocs_diameter_units:money(U)}
                               || U <- Units])).
