% %% Records calls of four processes on public tables of ETS, as described in docs/YOUR-SET.md under "By hand". Writes 5
% recordings
%% into this folder: `erlc ets_run.erl && erl -noshell -run ets_run main SEED`.
-module(ets_run).
-export([main/1]).

-define(CALLS, 2000).
-define(KEYS, 4).

main([Seed]) ->
    [record(5 * list_to_integer(Seed) + Run, integer_to_list(Run) ++ ".calls") || Run <- lists:seq(1, 5)],
    halt().

record(Seed, File) ->
    Table = ets:new(set, [set, public, {write_concurrency, true}, {read_concurrency, true}]),
    Tickets = atomics:new(1, []),
    Me = self(),
    Threads = [spawn_link(fun() -> thread(Me, Table, Tickets, Seed, Thread) end) || Thread <- [0, 1, 2, 3]],
    [receive {ready, Thread} -> ok end || Thread <- Threads],
    [Thread ! go || Thread <- Threads],
    Calls = lists:sort(lists:append([receive {done, Thread, Made} -> Made end || Thread <- Threads])),
    Keys = [Key || Key <- lists:seq(0, ?KEYS - 1), ets:member(Table, Key)],
    Lines = ["listset-calls 1\n", [line(Call) || Call <- Calls], [io_lib:format("key ~b~n", [Key]) || Key <- Keys], "end\n"],
    ok = file:write_file(File, Lines),
    ets:delete(Table).

thread(Me, Table, Tickets, Seed, Thread) ->
    rand:seed(exsss, {Seed, Thread, 1}),
    Me ! {ready, self()},
    receive go -> ok end,
    Me ! {done, self(), [call(Table, Tickets, Thread) || _ <- lists:seq(1, ?CALLS)]}.

call(Table, Tickets, Thread) ->
    Key = rand:uniform(?KEYS) - 1,
    Word = lists:nth(rand:uniform(3), [add, remove, contains]),
    Begin = atomics:add_get(Tickets, 1, 1),
    Reply = reply(Word, Table, Key),
    {Begin, atomics:add_get(Tickets, 1, 1), Thread, Word, Key, Reply}.

reply(add, Table, Key) -> ets:insert_new(Table, {Key});
reply(remove, Table, Key) -> ets:take(Table, Key) =/= [];
reply(contains, Table, Key) -> ets:member(Table, Key).

line({Begin, End, Thread, Word, Key, Reply}) ->
    io_lib:format("call ~b ~s ~b ~b ~b ~s~n", [Thread, Word, Key, Begin, End, Reply]).
