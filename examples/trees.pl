% A type of one's own: search trees of numbers.
% Run inserted([2,1,3],T), then sorted(node(node(leaf,1,leaf),2,leaf),Ns), then sorted(node(leaf,a,leaf),Ns).
:- module(trees,[tree/1,inserted/2,sorted/2],[assertions,regtypes]).
:- regtype tree/1.
tree(leaf).
tree(node(L,N,R)) :- tree(L), int(N), tree(R).
:- pred insert(N,Old,New) : (int(N), tree(Old)) => tree(New) + (not_fails, is_det).
insert(N,leaf,node(leaf,N,leaf)).
insert(N,node(L,M,R),node(K,M,R)) :- N < M, !, insert(N,L,K).
insert(N,node(L,M,R),node(L,M,S)) :- N > M, !, insert(N,R,S).
insert(N,node(L,N,R),node(L,N,R)).
:- pred inserted(Ns,T) : list(Ns,int) => tree(T).
inserted(Ns,T) :- inserted(Ns,leaf,T).
inserted([],T,T).
inserted([N|Ns],S,T) :- insert(N,S,U), inserted(Ns,U,T).
:- pred sorted(T,Ns) : tree(T) => list(Ns,int).
sorted(T,Ns) :- sorted(T,[],Ns).
sorted(leaf,Ns,Ns).
sorted(node(L,N,R),Ms,Ns) :- sorted(R,Ms,Ks), sorted(L,[N|Ks],Ns).
