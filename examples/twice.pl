% Broken by the predicate itself: `twice` promises a list, and its first clause forgets to end it.
% Run twice([a,b],Ys).
:- module(twice,[twice/2]).
:- pred twice(Xs,Ys) : list(Xs) => list(Ys).
twice([],_).
twice([X|Xs],[X,X|Ys]) :- twice(Xs,Ys).
