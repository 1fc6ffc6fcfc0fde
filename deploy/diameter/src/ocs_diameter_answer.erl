%% From the office's answer to the AVPs of a Credit-Control-Answer. Called for each answered CCR by
%% ocs_diameter_handler.
-module(ocs_diameter_answer).

-export([avps/3, paths/1]).

-define(MSCC, 'Multiple-Services-Credit-Control').
-define(RSU, 'Requested-Service-Unit').
-define(USU, 'Used-Service-Unit').
-define(INITIAL, 1).

-type avps() :: ocs_diameter_avp:avps().

%% The AVPs of a CCA that the office's answer decides, without those that every CCA has.
-spec avps(ocs_diameter_request:plan(), map(), ocs_diameter_config:config()) -> avps().
avps(#{type := Type, form := Form, ids := Ids}, #{<<"Result-Code">> := Code} = Answer, Config) ->
    Services = [service(S, Config)
                || S <- maps:get(<<"Multiple-Services-Credit-Control">>, Answer, [])],
    Common = maps:merge(opening(Type, Code, Config), event(Answer)),
    case {Form, Services} of
        {command, [Service]} ->
            beside(Common, Service);
        _ ->
            Common#{'Result-Code' => Code, ?MSCC => with_ids(Services, Ids)}
    end.

%% What an accepted initial request is told of failures (RFC 8506 5.7, 8.14).
-spec opening(term(), pos_integer(), ocs_diameter_config:config()) -> avps().
opening(?INITIAL, 2001, #{failure_handling := Handling}) ->
    #{'CC-Session-Failover' => [1], 'Credit-Control-Failure-Handling' => [Handling]};
opening(_, _, _) ->
    #{}.

-spec event(map()) -> avps().
event(Answer) ->
    maps:from_list([{'Check-Balance-Result', [V]} || #{<<"Check-Balance-Result">> := V} <- [Answer]]
                   ++ [{'Cost-Information', [cost(V)]}
                       || #{<<"Cost-Information">> := V} <- [Answer]]).

-spec cost(map()) -> avps().
cost(#{<<"Currency-Code">> := Currency,
       <<"Unit-Value">> := #{<<"Exponent">> := Exponent, <<"Value-Digits">> := Digits}}) ->
    #{'Unit-Value' => #{'Value-Digits' => Digits, 'Exponent' => [Exponent]},
      'Currency-Code' => Currency}.

%% Units beside no service: the service's code is the command's.
-spec beside(avps(), avps()) -> avps().
beside(Common, #{'Result-Code' := [Code]} = Service) ->
    Units = maps:with(['Granted-Service-Unit', 'Validity-Time', 'Final-Unit-Indication'], Service),
    maps:merge(Common, Units#{'Result-Code' => Code}).

-spec with_ids([avps()], [[non_neg_integer()]]) -> [avps()].
with_ids([], _) ->
    [];
with_ids(Services, Ids) ->
    [case I of
         [] -> S;
         _ -> S#{'Service-Identifier' => I}
     end || {S, I} <- lists:zip(Services, Ids)].

-spec service(map(), ocs_diameter_config:config()) -> avps().
service(#{<<"Rating-Group">> := Group, <<"Result-Code">> := Code} = Service, #{hints := Hints}) ->
    maps:from_list(
      [{'Rating-Group', [Group]}, {'Result-Code', [Code]}]
      ++ [{'Granted-Service-Unit', [units(U)]} || #{<<"Granted-Service-Unit">> := U} <- [Service]]
      ++ [{'Validity-Time', [V]} || #{<<"Validity-Time">> := V} <- [Service]]
      ++ [{'Final-Unit-Indication', [final(F)]}
          || #{<<"Final-Unit-Indication">> := F} <- [Service]]
      ++ [Hint || #{<<"Granted-Service-Unit">> := U, <<"Validity-Time">> := _} <- [Service],
                  Hint <- hints(U, maps:get(Group, Hints, #{}))]).

-spec units(map()) -> avps().
units(Units) ->
    maps:from_list(
      [{'CC-Time', [V]} || #{<<"CC-Time">> := V} <- [Units]]
      ++ [{'CC-Total-Octets', [V]} || #{<<"CC-Total-Octets">> := V} <- [Units]]
      ++ [{'CC-Service-Specific-Units', [V]} || #{<<"CC-Service-Specific-Units">> := V} <- [Units]]
      ++ [{'Tariff-Time-Change', [time(V)]} || #{<<"Tariff-Time-Change">> := V} <- [Units]]).

%% The office counts seconds since 1970. The encoder takes the date and counts them since 1900,
%% modulo 2^32 from 2036 on (RFC 6733 4.3.1).
-spec time(non_neg_integer()) -> calendar:datetime().
time(Seconds) ->
    calendar:system_time_to_universal_time(Seconds, second).

%% When a gateway should come back before a grant is used up (TS 32.299 7.2): by configuration of
%% its group, a threshold only below what is granted.
-spec hints(map(), ocs_diameter_config:hints()) -> [{atom(), [non_neg_integer()]}].
hints(Units, Hints) ->
    Names = [{<<"CC-Time">>, 'Time-Quota-Threshold'},
             {<<"CC-Total-Octets">>, 'Volume-Quota-Threshold'},
             {<<"CC-Service-Specific-Units">>, 'Unit-Quota-Threshold'}],
    [{'Quota-Holding-Time', [T]} || #{holding_time := T} <- [Hints]]
        ++ [{Name, [T]} || #{threshold := T} <- [Hints],
                           {Member, Name} <- Names,
                           T < maps:get(Member, Units, 0)].

-spec final(map()) -> avps().
final(#{<<"Final-Unit-Action">> := Action} = Final) ->
    maps:from_list(
      [{'Final-Unit-Action', Action}]
      ++ [{'Redirect-Server', [#{'Redirect-Address-Type' => T, 'Redirect-Server-Address' => A}]}
          || #{<<"Redirect-Server">> := #{<<"Redirect-Address-Type">> := T,
                                          <<"Redirect-Server-Address">> := A}} <- [Final]]).

%% Where the member that the office names as its fault may stand in a CCR: the first of these paths
%% that the request has is the AVP at fault.
-spec paths(binary()) -> [ocs_diameter_avp:path()].
paths(Name) ->
    Member = binary_to_existing_atom(Name),
    case Member of
        'Subscription-Id-Type' -> [['Subscription-Id', Member]];
        'Subscription-Id-Data' -> [['Subscription-Id', Member]];
        'Rating-Group' -> [[?MSCC, Member]];
        ?RSU -> [[?MSCC, Member], [Member]];
        ?USU -> [[?MSCC, Member], [Member]];
        'CC-Money' -> money([Member]);
        'Unit-Value' -> money(['CC-Money', Member]);
        'Currency-Code' -> money(['CC-Money', Member]);
        'Value-Digits' -> money(['CC-Money', 'Unit-Value', Member]);
        'Exponent' -> money(['CC-Money', 'Unit-Value', Member]);
        _ -> [[Member]]
    end.

-spec money(ocs_diameter_avp:path()) -> [ocs_diameter_avp:path()].
money(Path) ->
    [[?RSU | Path], [?MSCC, ?RSU | Path]].
