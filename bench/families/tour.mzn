% How short is a round trip through n towns? Decisions: the town of each time. The way back and forth differs.
include "all_different.mzn";
int: n;
array[1..n, 1..n] of int: way = array2d(1..n, 1..n, [if i = j then 0 else 10 + (i * 17 + j * 31 + i * j * 7) mod 60 endif | i, j in 1..n]);

array[0..n] of var 1..n: town;
array[1..n] of var 0..70: leg;
var 0..70 * n: total;
constraint total = sum(leg);
constraint town[0] = 1 /\ town[n] = 1 /\ all_different([town[t] | t in 1..n]);
constraint forall(t in 1..n) (leg[t] = [way[i, j] | i, j in 1..n][(town[t - 1] - 1) * n + town[t]]);

solve :: int_search([town[t] | t in 1..n - 1], input_order, indomain_min, complete) minimize total;
