% A family: who descends from whom.
:- module(family,[ancestor/2,siblings/2]).

parent(ada,ben).
parent(ada,cleo).
parent(ben,dora).
parent(dora,emil).

ancestor(X,Y) :- parent(X,Y).
ancestor(X,Z) :- parent(X,Y), ancestor(Y,Z).

siblings(X,Y) :- parent(P,X), parent(P,Y), X \== Y.
