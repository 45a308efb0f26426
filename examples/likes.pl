% Facts that are written with an operator of the file's own.
% Run X likes jam, then both(ada,ben,What).
:- module(likes,[likes/2,both/3]).
:- op(700,xfx,likes).
:- pred both(X,Y,Z) : (atm(X), atm(Y)) => atm(Z).
ada likes tea.
ben likes tea.
ben likes jam.
both(X,Y,Z) :- X likes Z, Y likes Z.
