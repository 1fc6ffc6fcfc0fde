%% Milliseconds of the monotonic clock, which every time limit here is reckoned by: a clock that is
%% set moves none of them.
-module(ocs_diameter_clock).

-export([ms/0, left/1]).

-spec ms() -> integer().
ms() ->
    erlang:monotonic_time(millisecond).

%% Milliseconds until this moment, at least 0.
-spec left(integer()) -> non_neg_integer().
left(Until) ->
    max(0, Until - ms()).
