% Broken by a caller: `zip` asks for two lists, and `zip_with_new` gives it a list and a variable.
% Run zip([a,b],[1,2],Zs), then zip_with_new([a,b],Zs).
:- module(zip,[zip/3,zip_with_new/2]).
:- pred zip(Xs,Ys,Zs) : (list(Xs), list(Ys)) => list(Zs).
zip([],[],[]).
zip([X|Xs],[Y|Ys],[pair(X,Y)|Zs]) :- zip(Xs,Ys,Zs).
zip_with_new(Xs,Zs) :- zip(Xs,Ys,Zs).
