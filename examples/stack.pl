% Keeps all its assertions: a stack is a list, an item is an atom or a number, and what is taken off was put on.
% Run pushed_and_popped(a,7,X).
:- module(stack,[push/3,pop/3,pushed_and_popped/3]).
:- pred push(X,Old,New) : (constant(X), list(Old)) => list(New).
push(X,Old,[X|Old]).
:- pred pop(Old,X,New) : list(Old) => (constant(X), list(New)).
pop([X|New],X,New).
:- pred pushed_and_popped(X,Y,Z) : (constant(X), constant(Y)) => constant(Z).
pushed_and_popped(X,Y,Z) :- push(X,[],S), push(Y,S,T), pop(T,_,U), pop(U,Z,[]).
