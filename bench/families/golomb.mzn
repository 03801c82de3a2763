% How short is a ruler of n marks whose distances all differ? Decisions: each mark.
include "all_different.mzn";
int: n;
var 0..n * n: length;
array[1..n] of var 0..n * n: mark;
array[int] of var 1..n * n: distance = [mark[j] - mark[i] | i, j in 1..n where i < j];
constraint mark[1] = 0 /\ mark[n] = length /\ forall(i in 1..n - 1) (mark[i] < mark[i + 1]);
constraint all_different(distance);
constraint distance[1] < distance[n * (n - 1) div 2];

solve :: int_search(mark, input_order, indomain_min, complete) minimize length;
