% In which order do n cars of six kinds come to stations that can take only some of so many in a row? How few slots stand empty?
% Decisions: the kind of the car in each slot.
int: n;
int: kinds = 6;
int: slots = n + 4;
array[1..3] of int: most = [1, 2, 1];
array[1..3] of int: window = [2, 3, 3];
array[0..kinds, 1..3] of 0..1: needs = array2d(0..kinds, 1..3, [0, 0, 0, 1, 0, 1, 0, 1, 0, 1, 1, 0, 0, 0, 1, 0, 1, 1, 1, 0, 0]);
array[1..kinds] of int: count = [n div kinds + bool2int(k <= n mod kinds) | k in 1..kinds];

array[1..slots] of var 0..kinds: car;
var n..slots: last;
constraint forall(k in 1..kinds) (sum(s in 1..slots) (bool2int(car[s] = k)) = count[k]);
constraint forall(o in 1..3, s in 1..slots - window[o] + 1) (
  sum(t in s..s + window[o] - 1) ([needs[k, o] | k in 0..kinds][car[t] + 1]) <= most[o]);
constraint forall(s in 1..slots) (car[s] > 0 -> s <= last);

solve :: int_search(car ++ [last], input_order, indomain_max, complete) minimize last;
