%% SIGHUP reads the configuration, the groups and the revocation lists again (systemctl reload).
%% SIGTERM stays OTP's: it stops the application in order.
-module(ocs_diameter_signal).
-behaviour(gen_event).

-export([install/0]).
-export([init/1, handle_event/2, handle_call/2]).

-include_lib("kernel/include/logger.hrl").

-spec install() -> ok.
install() ->
    ok = os:set_signal(sighup, handle),
    _ = gen_event:delete_handler(erl_signal_server, ?MODULE, []),
    ok = gen_event:add_handler(erl_signal_server, ?MODULE, []).

-spec init([]) -> {ok, []}.
init([]) ->
    {ok, []}.

-spec handle_event(term(), []) -> {ok, []}.
handle_event(sighup, State) ->
    case ocs_diameter_config:reload() of
        ok -> ?LOG_NOTICE("configuration read again, ~p connections ended by revocation",
                          [ocs_diameter_tls:end_revoked()]);
        {error, Fault} -> ?LOG_ERROR("configuration not read: ~s; the one before holds",
                                     [ocs_diameter_config:told(Fault)])
    end,
    {ok, State};
handle_event(_, State) ->
    {ok, State}.

-spec handle_call(term(), []) -> {ok, ok, []}.
handle_call(_, State) ->
    {ok, ok, State}.
