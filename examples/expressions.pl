% Expressions, swapped at their outermost operator.
% Run swapped(2 * x - (y - 1),E).
:- module(expressions,[swapped/2]).
:- pred swapped(E,S) : struct(E) => struct(S).
swapped(A + B,B + A).
swapped(A - B,- (B - A)).
swapped(A * B,B * A).
