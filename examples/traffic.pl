% Functions: F := E is a predicate with one argument more, and ~G stands for the result of G.
% Run steps(red,4,X), then steps(blue,1,X).
:- module(traffic,[light/1,after/2,steps/3],[fsyntax,assertions,regtypes]).
:- regtype light/1.
light := red | green | yellow.
:- pred after(X,Y) : light(X) => light(Y) + (not_fails, is_det).
after(red) := green.
after(green) := yellow.
after(yellow) := red.
:- pred steps(X,N,Y) : (light(X), nnegint(N)) => light(Y).
steps(X,N) := N > 0 ? ~steps(~after(X),~less(N)) | X.
less(N,M) :- M is N - 1.
