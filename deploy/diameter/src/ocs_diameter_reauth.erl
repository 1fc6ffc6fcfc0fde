%% Re-Auth-Request at a top-up (RFC 8506 5.5): a gateway whose subscriber is at a final unit, or was
%% denied one for want of money, is told to ask again once the account has got something.
%%
%% What is remembered is a row for each session that is at a final unit, in this bridge's memory. It
%% may be lost without harm: then the subscriber goes on at the session's next update, as without
%% this module. note/4 is called for each answered CCR and costs a look into a table; credited/1 is
%% called by ocs_diameter_watch.
-module(ocs_diameter_reauth).
-behaviour(gen_server).

-export([start_link/0, note/4, credited/1, remembered/0]).
-export([init/1, handle_call/3, handle_cast/2, handle_info/2]).

-include_lib("diameter/include/diameter.hrl").

%% OTP's messages are ['NAME' | Map].
-dialyzer(no_improper_lists).

-define(SERVICE, ocs).
-define(CREDITS, ocs_diameter_credits).
-define(AUTHORIZE_ONLY, 0).
-define(ANSWER_MS, 5000).
%% A row lives for two of the longest validity times; a credit is looked back at for a minute.
-define(ROW_MS, 86400000).
-define(CREDIT_MS, 60000).

-type row() :: #{peer := term(), host := binary(), realm := binary(),
                 groups := [non_neg_integer()], noted := integer()}.

-spec start_link() -> {ok, pid()} | {error, term()}.
start_link() ->
    gen_server:start_link({local, ?MODULE}, ?MODULE, [], []).

%% Remembers or forgets the session of this request by the office's answer to it.
-spec note(binary(), ocs_diameter_avp:avps(), map(), {term(), #diameter_caps{}}) -> ok.
note(Account, #{'Session-Id' := Session, 'CC-Request-Type' := Type} = Ccr, Answer, {Peer, _}) ->
    Key = {Account, Session},
    Before = [Row || {_, Row} <- ets:lookup(?MODULE, Key)],
    case groups(Before, Answer) of
        [_ | _] = Groups when Type == 1; Type == 2 ->
            remember(Key, #{peer => Peer, host => one('Origin-Host', Ccr),
                            realm => one('Origin-Realm', Ccr), groups => Groups,
                            noted => ocs_diameter_clock:ms()});
        _ ->
            Before == [] orelse ets:delete(?MODULE, Key),
            ok
    end.

%% The groups at a final unit: those of before that this answer doesn't name, and its own.
-spec groups([row()], map()) -> [non_neg_integer()].
groups(Before, #{<<"Multiple-Services-Credit-Control">> := Services}) ->
    Named = [G || #{<<"Rating-Group">> := G} <- Services],
    Final = [G || #{<<"Rating-Group">> := G} = S <- Services,
                  is_map_key(<<"Final-Unit-Indication">>, S)
                      orelse maps:get(<<"Result-Code">>, S) == 4012],
    lists:usort(Final ++ [G || #{groups := Groups} <- Before, G <- Groups -- Named]);
groups(Before, #{<<"Result-Code">> := 5004}) ->
    [G || #{groups := Groups} <- Before, G <- Groups];
groups(_, _) ->
    [].

%% An Origin-Host may come twice.
-spec one(atom(), ocs_diameter_avp:avps()) -> binary().
one(Name, Avps) ->
    iolist_to_binary(hd(ocs_diameter_avp:list(Name, Avps))).

%% A credit that came while the office was asked may be missing in its answer, so the gateway is
%% told once more, behind its answer.
-spec remember({binary(), binary()}, row()) -> ok.
remember({Account, _} = Key, Row) ->
    #{sessions_at_final_units := Most} = ocs_diameter_config:get(),
    case ets:info(?MODULE, size) < Most of
        true ->
            ets:insert(?MODULE, {Key, Row}),
            #{came := Came} = ocs_diameter_order:context(),
            Late = [At || {_, At} <- ets:lookup(?CREDITS, Account), At >= Came],
            _ = [spawn(fun() -> timer:sleep(200), send(Key, Row) end) || _ <- Late],
            ok;
        false ->
            ocs_diameter_metrics:count({reauth, forgotten})
    end.

%% The account has got something: its gateways are told. How many sessions that are.
-spec credited(binary()) -> non_neg_integer().
credited(Account) ->
    ets:insert(?CREDITS, {Account, ocs_diameter_clock:ms()}),
    Rows = ets:match_object(?MODULE, {{Account, '_'}, '_'}),
    lists:foreach(fun({Key, Row}) -> spawn(fun() -> send(Key, Row) end) end, Rows),
    length(Rows).

%% How many sessions are remembered.
-spec remembered() -> non_neg_integer().
remembered() ->
    ets:info(?MODULE, size).

%% Through the connection that had the session's last request, else through one to its host.
-spec send({binary(), binary()}, row()) -> term().
send({Account, Session} = Key, #{peer := Peer, host := Host} = Row) ->
    Since = ocs_diameter_clock:ms(),
    Request = ['RAR' | request(Session, Row)],
    Options = [{timeout, ?ANSWER_MS}],
    Result = case diameter:call(?SERVICE, ro, Request, [{peer, Peer} | Options]) of
                 {error, _} ->
                     diameter:call(?SERVICE, ro, Request,
                                   [{filter, {all, [host, realm]}} | Options]);
                 First ->
                     First
             end,
    Code = case Result of
               N when is_integer(N) -> N;
               {error, Reason} when is_atom(Reason) -> Reason;
               Reason when is_atom(Reason) -> Reason;
               _ -> fault
           end,
    Code == 5002 andalso ets:delete(?MODULE, Key),
    ocs_diameter_metrics:count({reauth, Code}),
    ocs_diameter_log:line(#{what => <<"RAR">>, who => Host, account => Account, session => Session,
                            code => Code, took => ocs_diameter_clock:ms() - Since}).

%% A request for one rating group names it; without one it is for all of the session.
-spec request(binary(), row()) -> ocs_diameter_avp:avps().
request(Session, #{host := Host, realm := Realm, groups := Groups}) ->
    Whole = #{'Session-Id' => Session, 'Destination-Host' => Host, 'Destination-Realm' => Realm,
              'Auth-Application-Id' => 4, 'Re-Auth-Request-Type' => ?AUTHORIZE_ONLY},
    case Groups of
        [Group] -> Whole#{'Rating-Group' => [Group]};
        _ -> Whole
    end.

%% ------------------------------------------------------------------------------------------------
%% The owner of the tables
%% ------------------------------------------------------------------------------------------------
-spec init([]) -> {ok, []}.
init([]) ->
    ?MODULE = ets:new(?MODULE, [named_table, public, ordered_set, {write_concurrency, true}]),
    ?CREDITS = ets:new(?CREDITS, [named_table, public, set]),
    {ok, _} = timer:send_interval(?CREDIT_MS, sweep),
    {ok, []}.

-spec handle_call(term(), term(), []) -> {reply, nok, []}.
handle_call(_, _, State) ->
    {reply, nok, State}.

-spec handle_cast(term(), []) -> {noreply, []}.
handle_cast(_, State) ->
    {noreply, State}.

-spec handle_info(term(), []) -> {noreply, []}.
handle_info(sweep, State) ->
    Now = ocs_diameter_clock:ms(),
    ets:select_delete(?CREDITS, [{{'_', '$1'}, [{'<', '$1', Now - ?CREDIT_MS}], [true]}]),
    ets:select_delete(?MODULE, [{{'_', #{noted => '$1'}}, [{'<', '$1', Now - ?ROW_MS}], [true]}]),
    {noreply, State};
handle_info(_, State) ->
    {noreply, State}.
