%% The OTP application and its supervisor. What is below an ended process is started again with it;
%% the service is stopped first, and asks the office to the end.
-module(ocs_diameter_app).
-behaviour(application).
-behaviour(supervisor).

-export([start/2, stop/1, init/1]).

-spec start(term(), term()) -> {ok, pid()} | {error, term()}.
start(_, _) ->
    ocs_diameter_signal:install(),
    supervisor:start_link({local, ?MODULE}, ?MODULE, []).

-spec stop(term()) -> ok.
stop(_) ->
    ok.

-spec init([]) -> {ok, {supervisor:sup_flags(), [supervisor:child_spec()]}}.
init([]) ->
    ocs_diameter_metrics:init(),
    Watch = case maps:get(watch, ocs_diameter_config:get()) of
                off -> [];
                Address -> [#{id => watch, start => {ocs_diameter_watch, start_link, [Address]},
                              type => supervisor, shutdown => infinity}]
            end,
    {ok, {#{strategy => rest_for_one, intensity => 5, period => 10},
          [#{id => log, start => {ocs_diameter_log, start_link, []}},
           #{id => pool, start => {ocs_diameter_pool, start_link, []}},
           #{id => reauth, start => {ocs_diameter_reauth, start_link, []}},
           #{id => service, start => {ocs_diameter_service, start_link, []}, shutdown => 70000}
          ] ++ Watch}}.
