%% Units of a service, from AVPs to the office's members. Gateways name every unit that they
%% measure; what is taken is the kind of the group. Called for each service by ocs_diameter_request.
-module(ocs_diameter_units).

-export([requested/3, used/3, money/1]).
-export_type([kind/0]).

-type kind() :: time | octets | events.
-type amounts() :: #{kind() => non_neg_integer()}.
-type avps() :: ocs_diameter_avp:avps().

%% Requested-Service-Unit at Path, of a group of this kind. A unit that is 0 asks for no amount, so
%% the group's slice is wanted, as if it weren't there.
-spec requested(avps(), kind() | unknown, ocs_diameter_avp:path()) -> map().
requested(Avps, Unit, Path) ->
    ocs_diameter_table:refuse(requested, Avps, Path),
    Amounts = maps:filter(fun(_, A) -> A > 0 end, amounts(Avps)),
    case chosen(Unit, [Amounts]) of
        none -> #{};
        Kind -> #{member(Kind) => maps:get(Kind, Amounts)}
    end.

%% The parts of Used-Service-Unit at Path. The amounts of one Tariff-Change-Usage are added up,
%% which prices them as one report (the law of cutting). A part without an amount reports a reason
%% alone, and is left out.
-spec used([avps()], kind() | unknown, ocs_diameter_avp:path()) -> [map()].
used(Parts, Unit, Path) ->
    lists:foreach(fun(P) -> ocs_diameter_table:refuse(used, P, Path) end, Parts),
    Tagged = [{ocs_diameter_avp:value('Tariff-Change-Usage', P), amounts(P)} || P <- Parts],
    case chosen(Unit, [Amounts || {_, Amounts} <- Tagged]) of
        none -> [];
        Kind -> [part(Tag, member(Kind), Sum) || {Tag, Sum} <- sums(Kind, Tagged)]
    end.

-spec sums(kind(), [{term(), amounts()}]) -> [{term(), non_neg_integer()}].
sums(Kind, Tagged) ->
    Add = fun({Tag, #{Kind := A}}, Sums) -> maps:update_with(Tag, fun(B) -> A + B end, A, Sums);
             (_, Sums) -> Sums
          end,
    lists:sort(maps:to_list(lists:foldl(Add, #{}, Tagged))).

-spec part(none | non_neg_integer(), binary(), non_neg_integer()) -> map().
part(none, Member, Sum) ->
    #{Member => Sum};
part(Tag, Member, Sum) ->
    #{Member => Sum, <<"Tariff-Change-Usage">> => Tag}.

-spec amounts(avps()) -> amounts().
amounts(Avps) ->
    maps:from_list([{time, V} || V <- ocs_diameter_avp:list('CC-Time', Avps)]
                   ++ [{events, V} || V <- ocs_diameter_avp:list('CC-Service-Specific-Units', Avps)]
                   ++ [{octets, V} || V <- octets(Avps)]).

%% Octets of both directions, or their sum where the total isn't there.
-spec octets(avps()) -> [non_neg_integer()].
octets(Avps) ->
    case {ocs_diameter_avp:list('CC-Total-Octets', Avps),
          ocs_diameter_avp:list('CC-Input-Octets', Avps)
          ++ ocs_diameter_avp:list('CC-Output-Octets', Avps)} of
        {[Total], _} -> [Total];
        {[], []} -> [];
        {[], Ways} -> [lists:sum(Ways)]
    end.

%% The group's own kind where an amount has it. Otherwise the office is shown another one and
%% refuses it: 5004 for units of another kind, 5031 for a group without a tariff. So a list of
%% groups that is behind the tariff book changes no price.
-spec chosen(kind() | unknown, [amounts()]) -> kind() | none.
chosen(Unit, Amounts) ->
    case [K || K <- [Unit, octets, time, events],
               lists:any(fun(A) -> is_map_key(K, A) end, Amounts)] of
        [Kind | _] -> Kind;
        [] -> none
    end.

-spec member(kind()) -> binary().
member(time) -> <<"CC-Time">>;
member(octets) -> <<"CC-Total-Octets">>;
member(events) -> <<"CC-Service-Specific-Units">>.

%% The money of a refund: the members that are there, which the office judges.
-spec money(avps()) -> map().
money(Requested) ->
    members([{'CC-Money', fun(M) ->
                members([{'Unit-Value', fun(V) ->
                            members([{'Value-Digits', fun same/1}, {'Exponent', fun same/1}], V)
                          end},
                         {'Currency-Code', fun same/1}], M)
              end}], Requested).

-spec members([{atom(), fun((term()) -> term())}], avps()) -> map().
members(Names, Avps) ->
    maps:from_list([{atom_to_binary(Name), Of(Value)}
                    || {Name, Of} <- Names, Value <- ocs_diameter_avp:list(Name, Avps)]).

-spec same(T) -> T.
same(Value) -> Value.
