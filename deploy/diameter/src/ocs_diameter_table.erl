%% What becomes of each AVP of a request, by the place where it stands: mapping.json, read once at
%% the start. The page and the tests read the same file.
%%   pass    handed to the office under its own name
%%   bridge  read by the bridge: it decides what is asked or how it is answered
%%   ignore  let through unread, since no price depends on it
%%   5001    refused with Failed-AVP, since a price may depend on it and the office doesn't know it
%% An AVP that isn't in the table is 5001 with its M flag and ignored without, by the decoder.
%% A request costs one look for each refused AVP of a place, and nothing for the others.
-module(ocs_diameter_table).

-export([load/1, refuse/3]).
-export_type([place/0]).

-type place() :: command | service | requested | used.
%% A refused AVP, and the value that is let through all the same.
-type refused() :: {atom(), none | term()}.

%% Reads the table of this file.
-spec load(file:name_all()) -> ok | {error, term()}.
load(File) ->
    case file:read_file(File) of
        {ok, Text} ->
            Rows = jiffy:decode(Text, [return_maps]),
            Places = [command, service, requested, used],
            persistent_term:put(?MODULE, maps:from_list([{P, refused(P, Rows)} || P <- Places]));
        {error, Reason} ->
            {error, {mapping, File, Reason}}
    end.

-spec refused(place(), [map()]) -> [refused()].
refused(Place, Rows) ->
    [{binary_to_atom(Name), maps:get(<<"unless">>, Row, none)}
     || #{<<"place">> := P, <<"rule">> := <<"5001">>, <<"avps">> := Names} = Row <- Rows,
        binary_to_atom(P) == Place,
        Name <- Names].

%% Throws {refuse, 5001, Path} for the first refused AVP of these, which stand at Path.
-spec refuse(place(), ocs_diameter_avp:avps(), ocs_diameter_avp:path()) -> ok.
refuse(Place, Avps, Path) ->
    #{Place := Refused} = persistent_term:get(?MODULE),
    case [Name || {Name, Unless} <- Refused,
                  Value <- [ocs_diameter_avp:value(Name, Avps)],
                  Value =/= none, Value =/= Unless] of
        [] -> ok;
        [Name | _] -> throw({refuse, 5001, Path ++ [Name]})
    end.
