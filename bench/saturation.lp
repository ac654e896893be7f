% The facts of a program for gringo: the rules of docs/ANALYSIS.md (Facts) at depth 1, for the statements that the
% generated classes have. comparison.sh writes the input:
%
%   method(C, B), main(B)      the body of the method of a class, and that of the main block
%   implements(C, I)           the objects of a class are let in where interface I is
%   field(C, F, I)             a field of a class is of interface I, or of another type
%   slot(B, S, I)              so is a slot of a body; and result(B, I) the result
%   assign(B, P, S)            `x = e` at place P, where x is slot S
%   make(B, P, S, C)           `x = new cog C(es)`
%   send(B, P, S, I)           `x = e!m(es)`, where e is of interface I
%   get(B, P, S, R)            `x = y.get`, where y is slot R
%   return(B, P)               `return e`
%   value(P, X), receiver(P, X), argument(P, N, X)    what an expression at place P reads: slot(S) or field(F)
%
% Each `new` makes a cog, and each class has one method. So a sign is a place, and a kind is main or a sign. The facts
% are live, holds, holds_field and gives. What a kind does is in tables by its name, which are made first: with a join
% of bodies in the rules themselves gringo took the square of the number of classes.

lets_in(I, object(P)) :- make(_, P, _, C), implements(C, I).

% what each kind does, should it be live
body(main, B) :- main(B).
body(P, B) :- make(_, P, _, C), method(C, B).
slot_of(K, S, I) :- body(K, B), slot(B, S, I).
assigns(K, X, S, I) :- body(K, B), assign(B, P, S), value(P, X), slot(B, S, I).
makes(K, P, S) :- body(K, B), make(B, P, S, _).
fills(K, X, P, N, I) :- body(K, B), make(B, P, _, C), argument(P, N, X), field(C, N, I).
sends(K, X, P, S, I) :- body(K, B), send(B, P, S, I), receiver(P, X).
passes(K, X, P, N) :- body(K, B), send(B, P, _, _), argument(P, N, X).
gets(K, R, S, I) :- body(K, B), get(B, P, S, R), slot(B, S, I).
returns(K, X, I) :- body(K, B), return(B, P), value(P, X), result(B, I).

% what an expression of a live kind gives (the slots of others hold nothing)
atom(K, slot(S), A) :- holds(K, S, A).
atom(K, field(F), A) :- live(K), holds_field(K, F, A).

live(main).
% x = e
holds(K, S, A) :- atom(K, X, A), assigns(K, X, S, I), lets_in(I, A).
% x = new cog C(es)
holds(K, S, object(P)) :- live(K), makes(K, P, S).
holds_field(P, N, A) :- atom(K, X, A), fills(K, X, P, N, I), lets_in(I, A).
% x = e!m(es)
receives(K, P, S, O) :- atom(K, X, object(O)), sends(K, X, P, S, I), lets_in(I, object(O)).
passed(K, P, N, A) :- atom(K, X, A), passes(K, X, P, N).
live(O) :- receives(_, _, _, O).
holds(O, N, A) :- receives(K, P, _, O), passed(K, P, N, A), slot_of(O, N, I), lets_in(I, A).
holds(K, S, future(P, O)) :- receives(K, P, S, O).
% x = y.get
holds(K, S, A) :- atom(K, slot(R), future(_, T)), gets(K, R, S, I), gives(T, A), lets_in(I, A).
% return e
gives(K, A) :- atom(K, X, A), returns(K, X, I), lets_in(I, A).

#show live/1.
#show holds/3.
#show holds_field/3.
#show gives/2.
