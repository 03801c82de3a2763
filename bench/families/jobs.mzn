% How soon can n jobs of a task on each of five machines end? Every second job passes them the other way round. Decisions: which of two
% tasks is first; the starts; the end.
int: n;
int: m = 5;
array[1..n, 1..m] of int: machine = array2d(1..n, 1..m, [1 + (k * (if j mod 2 = 0 then 1 else m - 1 endif) + j div 2) mod m | j in 1..n, k in 1..m]);
array[1..n, 1..m] of int: length_of = array2d(1..n, 1..m, [1 + (j * 7 + k * 11 + j * k * 3) mod 9 | j in 1..n, k in 1..m]);
int: all = sum(length_of);

array[1..n, 1..m] of var 0..all: start;
var 0..all: end;
constraint forall(j in 1..n) (
  forall(k in 1..m - 1) (start[j, k] + length_of[j, k] <= start[j, k + 1]) /\ start[j, m] + length_of[j, m] <= end);
array[int] of var bool: first = [
  start[i, k] + length_of[i, k] <= start[j, l]
  | i, j in 1..n, k, l in 1..m where i < j /\ machine[i, k] = machine[j, l]];
constraint forall(i, j in 1..n, k, l in 1..m where i < j /\ machine[i, k] = machine[j, l]) (
  start[i, k] + length_of[i, k] <= start[j, l] \/ start[j, l] + length_of[j, l] <= start[i, k]);

solve :: seq_search([
  bool_search(first, input_order, indomain_max, complete),
  int_search([start[j, k] | j in 1..n, k in 1..m] ++ [end], input_order, indomain_min, complete)]) minimize end;
