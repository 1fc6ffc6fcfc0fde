%% The AVPs of a decoded group. The decoder (decode_format map) gives an AVP that the grammar asks
%% for as a value, any other as a list. Used by the modules of the mapping.
-module(ocs_diameter_avp).

-export([value/2, list/2, is_shown/1]).
-export_type([avps/0, path/0]).

-type avps() :: #{atom() => term()}.
%% Where an AVP stands: the names of its groups from the command on, and its own.
-type path() :: [atom()].

%% The value of an AVP that may come once; `none' where it isn't there, all values where a grammar
%% lets it come more than once.
-spec value(atom(), avps()) -> term().
value(Name, Avps) ->
    case Avps of
        #{Name := [Value]} -> Value;
        #{Name := []} -> none;
        #{Name := Value} -> Value;
        _ -> none
    end.

%% All values of an AVP, in their order.
-spec list(atom(), avps()) -> [term()].
list(Name, Avps) ->
    case Avps of
        #{Name := Values} when is_list(Values) -> Values;
        #{Name := Value} -> [Value];
        _ -> []
    end.

%% Whether a text has printable bytes of ASCII alone, without a space.
-spec is_shown(binary()) -> boolean().
is_shown(<<C, Rest/binary>>) -> C >= 16#21 andalso C =< 16#7E andalso is_shown(Rest);
is_shown(<<>>) -> true.
