:- module(given,[q/1]).
:- pred q(X) => nnegint(X).
q(1).
q(2).
q(-3).
