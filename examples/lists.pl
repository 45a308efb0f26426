% Lists: joined, reversed, and their members.
:- module(lists,[joined/3,reversed/2,member/2]).

joined([],Ys,Ys).
joined([X|Xs],Ys,[X|Zs]) :- joined(Xs,Ys,Zs).

reversed([],[]).
reversed([X|Xs],Ys) :- reversed(Xs,Zs), joined(Zs,[X],Ys).

member(X,[X|_]).
member(X,[_|Ys]) :- member(X,Ys).
