%% The account that a request is for: the number in its Subscription-Ids. Called for each CCR by
%% ocs_diameter_request; a case more costs a clause of number/2.
-module(ocs_diameter_subscriber).

-export([account/2]).
-export_type([kind/0]).

-type kind() :: e164 | imsi | sip | tel.

%% Kinds are tried in the order of the configuration. Two numbers of one kind that differ name no
%% account: 5009. No Subscription-Id at all is 5005, none with a number 5004.
-spec account(ocs_diameter_avp:avps(), [kind()]) -> binary().
account(Ccr, Kinds) ->
    Ids = ocs_diameter_avp:list('Subscription-Id', Ccr),
    Ids == [] andalso throw({refuse, 5005, ['Subscription-Id']}),
    case [Numbers || Kind <- Kinds, Numbers <- [numbers(Kind, Ids)], Numbers /= []] of
        [[Number] | _] -> Number;
        [_ | _] -> throw({refuse, 5009, ['Subscription-Id']});
        [] -> throw({refuse, 5004, ['Subscription-Id']})
    end.

-spec numbers(kind(), [map()]) -> [binary()].
numbers(Kind, Ids) ->
    lists:usort([Digits || #{'Subscription-Id-Type' := Type, 'Subscription-Id-Data' := Data} <- Ids,
                           ocs_diameter_avp:is_shown(Data), Digits <- number(Kind, Type, Data)]).

%% The number that an id of this type has as that kind: one or none.
-spec number(kind(), non_neg_integer(), binary()) -> [binary()].
number(e164, 0, Data) ->
    digits(Data);
number(imsi, 1, Data) ->
    digits(Data);
number(sip, 2, Data) ->
    case string:lowercase(Data) of
        <<"sip:", Rest/binary>> -> user(Rest);
        <<"sips:", Rest/binary>> -> user(Rest);
        _ -> []
    end;
number(tel, 2, Data) ->
    case string:lowercase(Data) of
        <<"tel:", Rest/binary>> -> telephone(Rest);
        _ -> []
    end;
number(_, _, _) ->
    [].

%% The user part of a SIP URI that is a telephone number (RFC 3261 19.1.6); a password is left out.
-spec user(binary()) -> [binary()].
user(Rest) ->
    case binary:split(Rest, <<"@">>) of
        [User, _Host] -> telephone(hd(binary:split(User, <<":">>)));
        _ -> []
    end.

%% A number of RFC 3966. Visual separators say nothing. A local number needs its context, which the
%% office doesn't have.
-spec telephone(binary()) -> [binary()].
telephone(Text) ->
    [Number | Parameters] = binary:split(Text, <<";">>, [global]),
    case [P || <<"phone-context", _/binary>> = P <- Parameters] of
        [] -> digits(<< <<C>> || <<C>> <= Number, not lists:member(C, "-.()") >>);
        _ -> []
    end.

%% 1 to 15 digits, as the office has account numbers; a plus sign before them is left out.
-spec digits(binary()) -> [binary()].
digits(<<"+", Rest/binary>>) ->
    digits(Rest);
digits(Data) when byte_size(Data) >= 1, byte_size(Data) =< 15 ->
    [Data || lists:all(fun(C) -> C >= $0 andalso C =< $9 end, binary_to_list(Data))];
digits(_) ->
    [].
