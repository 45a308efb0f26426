:- module(keys,[p/2,q/2]).
p(a,1).
p(7,2).
p(f(a),3).
p(_,4).
p(a,5) :- !.
p(f(a,b),6).
p(7,7).
p(a,8).
q(X,N) :- Y = X, p(Y,N).
