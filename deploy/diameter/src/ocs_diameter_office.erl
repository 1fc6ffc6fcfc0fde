%% A question to the office, asked until it is answered or time is over. Called by
%% ocs_diameter_handler.
-module(ocs_diameter_office).

-export([ask/2]).
-export_type([reply/0, seen/0]).

%% {answered, Status, Body}: the office's word. busy: it asked for the same again until time was
%% over, and nothing was done. open: no answer came in time, so it may have been done.
-type reply() :: {answered, pos_integer(), binary()} | busy | open.
%% What the last answer's head said: its status, X-Request-Id and Office-Shard.
-type seen() :: #{status := non_neg_integer(), id := binary(), shard := binary()}.

%% Asks until there is an answer or the deadline, which is milliseconds of the monotonic clock. What
%% may be sent again is sent again: the office's key makes the same bytes safe.
-spec ask(ocs_diameter_ask:question(), integer()) -> {reply(), seen()}.
ask(Question, Deadline) ->
    #{office := Office, queue_time := Queue} = ocs_diameter_config:get(),
    Seen = #{status => 0, id => <<"-">>, shard => <<"-">>},
    tries(Office, request(Question, Office), Deadline, Queue, open, Seen).

-spec request(ocs_diameter_ask:question(), ocs_diameter_config:office()) -> iodata().
request({ccr, Members}, Office) ->
    Body = jiffy:encode(Members),
    [<<"POST /ccr HTTP/1.1\r\nHost: ">>, host(Office),
     <<"\r\nContent-Type: application/json\r\nContent-Length: ">>,
     integer_to_binary(iolist_size(Body)), <<"\r\n\r\n">>, Body];
request({balance, Account}, Office) ->
    [<<"GET /accounts/">>, Account, <<" HTTP/1.1\r\nHost: ">>, host(Office), <<"\r\n\r\n">>].

-spec host(ocs_diameter_config:office()) -> iodata().
host({local, _}) ->
    <<"localhost">>;
host(Address) ->
    ocs_diameter_address:text(Address).

%% Last is what is told if time runs out between two tries.
-spec tries(ocs_diameter_config:office(), iodata(), integer(), non_neg_integer(), busy | open,
            seen()) -> {reply(), seen()}.
tries(Office, Request, Deadline, Queue, Last, Seen) ->
    case ocs_diameter_clock:left(Deadline) of
        0 ->
            {Last, Seen};
        _ ->
            Outcome = ocs_diameter_http:once(Office, Request, Deadline),
            ocs_diameter_metrics:count({office, status(Outcome)}),
            Now = seen(Outcome, Seen),
            case judged(Outcome, Deadline, Queue) of
                {again, Told, Pause} ->
                    timer:sleep(min(Pause, ocs_diameter_clock:left(Deadline))),
                    tries(Office, Request, Deadline, Queue, Told, Now);
                Reply ->
                    {Reply, Now}
            end
    end.

%% What an outcome says: the reply, or what is told if there is no other one until the deadline. A
%% request that HAProxy turned away is sent again only where it can wait for its turn once more:
%% what would be in the queue at the deadline could slip into a shard's socket behind our back.
-spec judged(ocs_diameter_http:outcome(), integer(), non_neg_integer()) ->
          reply() | {again, busy | open, 0..200}.
judged({answer, Status, _, Body, _}, Deadline, Queue) ->
    HasTime = ocs_diameter_clock:left(Deadline) >= Queue + 200,
    case told(Status) of
        answered -> {answered, Status, Body};
        Told when HasTime -> {again, Told, 200};
        Told -> Told
    end;
%% A kept connection that the other end had closed, as it may between two requests: at once anew.
judged(closed, _, _) ->
    {again, open, 0};
judged(_, _, _) ->
    {again, open, 50}.

-spec told(pos_integer()) -> answered | busy | open.
told(Status) when Status == 503; Status == 429; Status == 408 -> busy;
told(Status) when Status == 502; Status == 504 -> open;
told(_) -> answered.

-spec seen(ocs_diameter_http:outcome(), seen()) -> seen().
seen({answer, Status, Fields, _, _}, _) ->
    #{status => Status, id => maps:get(<<"X-Request-Id">>, Fields, <<"-">>),
      shard => maps:get(<<"Office-Shard">>, Fields, <<"-">>)};
seen(_, Seen) ->
    Seen.

-spec status(ocs_diameter_http:outcome()) -> pos_integer() | unsent | closed | broken.
status({answer, Status, _, _, _}) -> Status;
status(Other) -> Other.
