%% The two ends of a connection, as its capabilities exchange has named them.
-module(ocs_diameter_caps).

-export([host/1, origin/1]).

-include_lib("diameter/include/diameter.hrl").

%% The name of the other end.
-spec host(#diameter_caps{}) -> unicode:chardata().
host(#diameter_caps{origin_host = {_, Host}}) -> Host.

-spec origin(#diameter_caps{}) -> ocs_diameter_avp:avps().
origin(#diameter_caps{origin_host = {Host, _}, origin_realm = {Realm, _},
                      origin_state_id = {StateId, _}}) ->
    #{'Origin-Host' => Host, 'Origin-Realm' => Realm, 'Origin-State-Id' => StateId}.
