%% The family sum_puts of bench/run in Erlang: two workers put numbers into a buffer, which keeps their sum.
%%
%% A call is a process of its own. A cog is a process too, which has a token: it gives the token and the fields of its
%% object to one task at a time, in the order in which they asked, and takes both back. A future is the process of its
%% task, which tells its caller when it ends. A worker that awaits a put lets its cog go, and takes it again when the
%% put has ended.
%%
%% usage: erlc buffer.erl, and then: erl +S 1 -noinput -run buffer main NUMBER     puts so many numbers, prints the sum
-module(buffer).
-export([main/1]).

main([Puts]) ->
    Count = list_to_integer(Puts),
    Buffer = new_cog(0),
    %% (where the puts are odd, the first worker has one more)
    Runs = [call(new_cog({}), fun(Cog, Fields) -> run(Cog, Fields, Buffer, 0, Share) end)
            || Share <- [(Count + 1) div 2, Count div 2]],
    lists:foreach(fun await/1, Runs),
    io:format("~w~n", [take(Buffer)]),
    halt().

%% What a worker does from its put with the number I on, which ends at Count. It has its own fields at the end.
run(_Cog, Fields, _Buffer, Count, Count) ->
    Fields;
run(Cog, Fields, Buffer, I, Count) ->
    Future = call(Buffer, fun(_, Sum) -> Sum + I end),
    give_back(Cog, Fields),
    await(Future),
    run(Cog, take(Cog), Buffer, I + 1, Count).

%% The future of a new task, which takes this cog, does this with the fields there, and gives the cog back.
call(Cog, Do) ->
    Caller = self(),
    spawn(fun() ->
        give_back(Cog, Do(Cog, take(Cog))),
        Caller ! {ended, self()}
    end).

%% Waits until the task of a future has ended.
await(Future) ->
    receive {ended, Future} -> ok end.

%% Waits for the token of a cog, with which come the fields of its object.
take(Cog) ->
    Cog ! {take, self()},
    receive {token, Cog, Fields} -> Fields end.

%% Gives the token of a cog back, with the fields as they are now.
give_back(Cog, Fields) ->
    Cog ! {back, Fields},
    ok.

%% A cog with one object, whose fields are these.
new_cog(Fields) ->
    spawn(fun() -> cog(Fields) end).

%% What a cog does: it gives its token to the next task that asks, and waits until it comes back.
cog(Fields) ->
    receive
        {take, Task} -> Task ! {token, self(), Fields}
    end,
    receive
        {back, New} -> cog(New)
    end.
