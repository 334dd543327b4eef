% Documents 01 and 02 for one accepted station file, declared and not computed. facts.awk gives its lines as facts:
% plain(A,B), signal(E,A,B), turnout(E,Stem,Straight,Diverted), file(E,State), stands(Train,Section); shown(List,Place,Train,Section) of its key.
% An answer is a setting: it gives each element a state, and all else follows. Where no element is open there is one answer, the verdict.

% "State 0 is open; an element with another state in the file is fixed." "A setting gives each element 1 or 2 and keeps the fixed ones."
open(E) :- file(E,0).
setting(E,X) :- file(E,X), not open(E).
1 { setting(E,1); setting(E,2) } 1 :- open(E).
question :- open(_). verdict :- not question.

% "An L or P line stands over the ordered pair (from, to). A D line stands over four: stem to each leg and each leg to stem."
leg(E,1,Stem,Straight) :- turnout(E,Stem,Straight,_). leg(E,2,Stem,Diverted) :- turnout(E,Stem,_,Diverted).
joins(E,X,Stem,Leg) :- leg(E,X,Stem,Leg).
joins(E,X,Leg,Stem) :- leg(E,X,Stem,Leg).
over(E,A,B) :- signal(E,A,B). over(E,A,B) :- joins(E,_,A,B).

% "A move from a to b is permitted when a P line has it, or a signal over it is at 1, or a turnout at 1 joins stem and straight leg (both ways),
% or a turnout at 2 joins stem and diverted leg (both ways)." Under a signal and a turnout it is "permitted exactly when both permit it" (02, item 3).
permits(E,A,B) :- signal(E,A,B), setting(E,1).
permits(E,A,B) :- joins(E,X,A,B), setting(E,X).
permitted(A,B) :- plain(A,B).
permitted(A,B) :- over(_,A,B), permits(E,A,B) : over(E,A,B).

% "A train's permitted paths are the paths from its own section; its reach is every section where one of them ends." Of a train in several
% sections "a path of it may start in any of them" (02, item 2).
reach(T,S) :- stands(T,S).
reach(T,B) :- reach(T,A), permitted(A,B).

% "The situation is dangerous when two trains with different numbers have reaches that share a section; otherwise it is safe."
meets(I,J) :- reach(I,S), reach(J,S), I < J.
danger :- meets(_,_).

% "Train j is the lowest for which trains 1 to j are already dangerous. Train i is the first earlier train whose reach shares a section with its
% own. The meeting section is the lowest number in both reaches."
second(J) :- verdict, danger, J = #min { K : meets(_,K) }.
first(I) :- second(J), I = #min { K : meets(K,J) }.
meeting(S) :- first(I), second(J), S = #min { M : reach(I,M), reach(J,M) }.

% "Each verdict carries two counts over trains 1 to j (over all trains when safe): entries is the number of sections in those reaches, added up;
% looks is, added up likewise, the number of permitted moves leaving a section of the reach."
counted(T) :- verdict, stands(T,_), T <= J : second(J).
entries(N) :- verdict, N = #count { T,S : counted(T), reach(T,S) }.
looks(N) :- verdict, N = #count { T,A,B : counted(T), reach(T,A), permitted(A,B) }.

% What is wrong with list 1, "a path of train i from its section to the meeting section", or 2, "one of train j; neither path has a section twice".
names(1,I) :- first(I). names(2,J) :- second(J).
fault(L,none) :- names(L,_), not shown(L,1,_,_).
fault(L,train(T)) :- shown(L,_,T,_), not names(L,T).
fault(L,start(S)) :- shown(L,1,T,S), not stands(T,S).
fault(L,step(A,B)) :- shown(L,K,_,A), shown(L,K+1,_,B), not permitted(A,B).
fault(L,end(S)) :- shown(L,K,_,S), not shown(L,K+1,_,_), not meeting(S).
fault(L,twice(S)) :- shown(L,K,_,S), shown(L,M,_,S), K < M.

% "The answer holds the number of safe ones." "An open signal adds to the proceed count when at 1; an open turnout never does." "The safe setting with
% the highest count is chosen; among equals", of two "the one with 1 at the lowest element number where they differ".
:- question, danger.
proceed(N) :- question, N = #count { E : signal(E,_,_), open(E), setting(E,1) }.
#maximize { N@1 : proceed(N) }.
#maximize { 1@-E : open(E), setting(E,1) }.
#show danger/0. #show entries/1. #show looks/1. #show meeting/1. #show names/2. #show fault/2. #show proceed/1. #show setting/2.
