% Two files: orders.pl takes prices and the type of goods from prices.pl, and length/2 from a library.
% Run total([pen,book],T), then total([pen,chair],T), then total(pen,T).
:- module(orders,[total/2],[assertions,regtypes]).
:- use_module(prices).
:- use_module(library(lists),[length/2]).
:- entry total(Items,T) : list(Items).
:- pred total(Items,T) : list(Items,item) => nnegint(T).
total(Items,T) :- sum(Items,0,S), length(Items,N), T is S + N.

% The prices of items, added to a sum; each item costs one more, for wrapping.
sum([],S,S).
sum([X|Xs],S,T) :- price(X,P), U is S + P, sum(Xs,U,T).
