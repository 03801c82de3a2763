% Five actors are paid from their first of n scenes to their last. In which order are the scenes shot so that they cost little?
% Decisions: the scene of each time.
include "all_different.mzn";
int: n;
int: actors = 5;
array[1..actors] of int: pay = [3, 2, 4, 1, 2];
array[1..n] of int: days = [1 + (s * 3) mod 3 | s in 1..n];
array[1..actors, 1..n] of 0..1: plays = array2d(1..actors, 1..n, [bool2int((a * 5 + s * s + 2 * a * s) mod 7 < 3) | a in 1..actors, s in 1..n]);

array[1..n] of var 1..n: scene;
array[1..actors, 0..n] of var 0..n: played;
var 0..100000: cost;
constraint all_different(scene);
constraint forall(a in 1..actors) (
  played[a, 0] = 0 /\ forall(t in 1..n) (played[a, t] = played[a, t - 1] + [plays[a, s] | s in 1..n][scene[t]]));
constraint cost = sum(t in 1..n, a in 1..actors) (
  pay[a] * bool2int(played[a, t] > 0 /\ played[a, t - 1] < sum(s in 1..n) (plays[a, s])) * days[scene[t]]);

solve :: int_search(scene, input_order, indomain_min, complete) minimize cost;
