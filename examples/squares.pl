% Arithmetic and output: the squares of the numbers from one to another.
% Run squares(1,3), then squares(1,a).
:- module(squares,[squares/2]).
squares(N,M) :- N > M, !.
squares(N,M) :- S is N * N, write(N), write(' '), write(S), nl, K is N + 1, squares(K,M).
