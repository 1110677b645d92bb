%% The ring of the nodes given: ring:main([NODES, HOPS]). The messages are those of the program that `hermes make` prints.
-module(ring).
-export([main/1]).

main([NodesText, HopsText]) ->
    Nodes = list_to_integer(NodesText),
    First = spawn(fun start/0),
    {Next, Last} = nodes(1, Nodes, First, First),
    First ! {start, Next, self()},
    %% The node that sends to the first one ends last.
    Ended = monitor(process, Last),
    First ! list_to_integer(HopsText),
    receive {'DOWN', Ended, process, Last, normal} -> ok end,
    receive Text when is_list(Text) -> io:format("~s~n", [Text]) end,
    halt(0).

%% Makes the other nodes, each with the one before as its next; gives the one made last and the one made first.
nodes(Nodes, Nodes, Next, Last) ->
    {Next, Last};
nodes(K, Nodes, Next, Last) ->
    Node = spawn(fun start/0),
    Node ! {start, Next, self()},
    case K of
        1 -> nodes(2, Nodes, Node, Node);
        _ -> nodes(K + 1, Nodes, Node, Last)
    end.

start() ->
    receive {start, Next, Out} -> turn(Next, Out) end.

turn(Next, Out) ->
    receive
        0 ->
            Out ! "token home",
            Next ! -1;
        N when N < 0 ->
            Next ! N - 1;
        N ->
            Next ! N - 1,
            turn(Next, Out)
    end.
