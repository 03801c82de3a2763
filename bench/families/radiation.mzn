% How is a field of n by n intensities made of rectangles in each row that are open to the beam? First little beam time, then few
% patterns. Decisions: the beam time, how often each strength is used, the rows.
int: n;
int: strongest = 6;
array[1..n, 1..n] of int: wanted = array2d(1..n, 1..n, [(i * i + 2 * i * j + 3 * j + 1) mod (strongest + 1) | i in 1..n, j in 1..n]);
int: all = sum(i in 1..n) (max(j in 1..n) (wanted[i, j]) * n);

var 0..all: time;
var 0..n * n: patterns;
array[1..strongest] of var 0..n * n: uses;
array[1..n, 1..n, 1..strongest] of var 0..n * n: part;
var 0..(n * n + 1) * (all + 1): total;
constraint total = (n * n + 1) * time + patterns;
constraint time = sum(b in 1..strongest) (b * uses[b]) /\ patterns = sum(b in 1..strongest) (uses[b]);
constraint forall(i in 1..n, j in 1..n) (sum(b in 1..strongest) (b * part[i, j, b]) = wanted[i, j]);
constraint forall(i in 1..n, b in 1..strongest) (
  part[i, 1, b] + sum(j in 2..n) (max(part[i, j, b] - part[i, j - 1, b], 0)) <= uses[b]);

solve :: seq_search([
  int_search([time, patterns], input_order, indomain_min, complete),
  int_search(uses, input_order, indomain_min, complete),
  int_search([part[i, j, b] | i in 1..n, b in 1..strongest, j in 1..n], input_order, indomain_min, complete)]) minimize total;
