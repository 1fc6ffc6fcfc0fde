%% The conversation with the office for one request: mostly one question. Called for each CCR by
%% ocs_diameter_handler, with the function that asks; a kind more costs a clause of ask/3.
-module(ocs_diameter_ask).

-export([ask/3]).
-export_type([kind/0, question/0, answer/0, asking/0]).

%%   plain     the request, once
%%   open      an initial request without a service: is the account there?
%%   may_open  an update that reports nothing: it opens the session where nobody has
%%   ending    a termination that reports nothing: there may be no session to end
-type kind() :: plain | open | may_open | ending.
%% A body for /ccr, or the balance of an account.
-type question() :: {ccr, map()} | {balance, binary()}.
%% {protocol, 3004}: nothing was done. {protocol, 3002}: it may have been done.
-type answer() :: {ok, map()} | {protocol, 3002 | 3004}.
-type asking() :: fun((question()) -> answer()).

%% Opening is how an account is looked up for `open': by a check of the balance, which leaves no
%% record and doesn't see a bar, or by the balance, which lists every bucket and does.
-spec ask(ocs_diameter_request:plan(), check | balance, asking()) -> answer().
ask(#{kind := open, body := Body}, check, Ask) ->
    case Ask({ccr, Body}) of
        {ok, #{<<"Result-Code">> := Code}} when Code == 2001; Code == 5031 ->
            {ok, #{<<"Result-Code">> => 2001}};
        Other ->
            Other
    end;
ask(#{kind := open, body := #{<<"Subscription-Id">> := Id}}, balance, Ask) ->
    case Ask({balance, maps:get(<<"Subscription-Id-Data">>, Id)}) of
        {ok, #{<<"Barred">> := false}} -> {ok, #{<<"Result-Code">> => 2001}};
        {ok, #{<<"Barred">> := true}} -> {ok, #{<<"Result-Code">> => 4010}};
        {ok, #{<<"Refusal">> := <<"O2">>}} -> {ok, #{<<"Result-Code">> => 5030}};
        Other -> Other
    end;
%% An update of a session that the office doesn't know may be the first request for a service of a
%% session that was opened without one. It opens the session under its own number. Where the office
%% has that key as an initial request already this is a repeat, and gets the first answer. In all
%% other cases the answer is the one to the update.
ask(#{kind := may_open, body := Body}, _, Ask) ->
    Update = Ask({ccr, Body}),
    case is_unknown(Update) andalso Ask({ccr, Body#{<<"CC-Request-Type">> := 1}}) of
        false -> Update;
        {ok, #{<<"Failed-AVP">> := _}} -> Update;
        Initial -> Initial
    end;
ask(#{kind := ending, body := Body}, _, Ask) ->
    case Ask({ccr, Body}) of
        {ok, #{<<"Result-Code">> := 5002} = Answer} -> {ok, Answer#{<<"Result-Code">> => 2001}};
        Other -> Other
    end;
ask(#{kind := plain, body := Body}, _, Ask) ->
    Ask({ccr, Body}).

-spec is_unknown(answer()) -> boolean().
is_unknown({ok, #{<<"Result-Code">> := 5002}}) -> true;
is_unknown({ok, #{<<"Result-Code">> := 5004, <<"Failed-AVP">> := Name}}) ->
    Name == <<"CC-Request-Number">>;
is_unknown(_) -> false.
