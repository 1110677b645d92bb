%% Eight senders to one receiver: senders:main([MESSAGES, ROUNDS]). The messages are those of senders.hm.
-module(senders).
-export([main/1]).

main([Messages, Rounds]) ->
    io:format("~w~n", [rounds(list_to_integer(Rounds), list_to_integer(Messages), 0)]),
    halt(0).

rounds(0, _, All) ->
    All;
rounds(Rounds, Messages, All) ->
    Receiver = spawn(fun receiver/0),
    Receiver ! {task, Messages, self()},
    [spawn(fun sender/0) ! {job, Who, Messages, Receiver} || Who <- lists:seq(1, 8)],
    receive {total, Sum} -> rounds(Rounds - 1, Messages, All + Sum) end.

sender() ->
    receive {job, Who, Messages, Receiver} -> send(1, Who, Messages, Receiver) end.

send(K, _, Messages, _) when K > Messages ->
    ok;
send(K, Who, Messages, Receiver) ->
    Receiver ! {item, Who, K},
    send(K + 1, Who, Messages, Receiver).

receiver() ->
    receive {task, Messages, Main} -> Main ! {total, sum(8 * Messages, 0)} end.

sum(0, Sum) ->
    Sum;
sum(Left, Sum) ->
    receive {item, _, Number} -> sum(Left - 1, Sum + Number) end.
