% Prices of goods, for orders.pl: a predicate and a type for others.
:- module(prices,[price/2,item/1],[assertions,regtypes]).
:- regtype item/1.
item(pen).
item(book).
item(lamp).
:- pred price(X,P) : item(X) => nnegint(P) + (not_fails, is_det).
price(pen,2).
price(book,15).
price(lamp,40).
