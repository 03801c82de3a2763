% Each of n customers has ordered some of the n products. A customer's stack is open from the first of them that is made to the last.
% In which order are the products made so that few stacks are open at once? Decisions: the product of each time.
include "all_different.mzn";
int: n;
array[1..n, 1..n] of 0..1: ordered = array2d(1..n, 1..n, [bool2int((c * 5 + p * p * 3 + c * p * c) mod 7 < 2) | c in 1..n, p in 1..n]);

array[1..n] of var 1..n: made;
array[1..n, 0..n] of var 0..n: done;
var 0..n: most;
constraint all_different(made);
constraint forall(c in 1..n) (done[c, 0] = 0 /\ forall(t in 1..n) (done[c, t] = done[c, t - 1] + [ordered[c, p] | p in 1..n][made[t]]));
constraint forall(t in 1..n) (
  sum(c in 1..n) (bool2int(done[c, t - 1] < sum(p in 1..n) (ordered[c, p]) /\ done[c, t] > 0)) <= most);

solve :: int_search(made, input_order, indomain_min, complete) minimize most;
