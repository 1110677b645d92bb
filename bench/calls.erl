%% A service that answers calls: calls:main([CALLS, ROUNDS]). The messages are those of calls.hm.
-module(calls).
-export([main/1]).

main([Calls, Rounds]) ->
    io:format("~w~n", [rounds(list_to_integer(Rounds), list_to_integer(Calls), 0)]),
    halt(0).

rounds(0, _, All) ->
    All;
rounds(Rounds, Calls, All) ->
    Service = spawn(fun doubler/0),
    [spawn(fun client/0) ! {job, Calls, Service, self()} || _ <- lists:seq(1, 8)],
    rounds(Rounds - 1, Calls, totals(8, All)).

totals(0, All) ->
    All;
totals(Clients, All) ->
    receive {total, Sum} -> totals(Clients - 1, All + Sum) end.

doubler() ->
    receive
        {ask, Client, Call, Number} ->
            Client ! {Call, Number * 2},
            doubler()
    end.

client() ->
    receive {job, Calls, Service, Main} -> Main ! {total, calls(1, Calls, Service, 0)} end.

calls(K, Calls, _, Sum) when K > Calls ->
    Sum;
calls(K, Calls, Service, Sum) ->
    Call = make_ref(),
    Service ! {ask, self(), Call, K},
    receive {Call, Twice} -> calls(K + 1, Calls, Service, Sum + Twice) end.
