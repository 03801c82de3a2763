% The program has propagators for the greatest and the least of a list, and for a clause with a flag; without these the first two
% become chains, and the third becomes clauses.
predicate array_int_maximum(var int: m, array[int] of var int: x);

predicate array_int_minimum(var int: m, array[int] of var int: x);

predicate bool_clause_reif(array[int] of var bool: as, array[int] of var bool: bs, var bool: b);

% Models with floats aren't in the program's reach, but the library has to compile.
predicate array_float_maximum(var float: m, array[int] of var float: x) =
  let {
    int: l = min(index_set(x));
    int: u = max(index_set(x));
    array[l..u] of var lb_array(x)..ub_array(x): y;
  } in y[l] = x[l] /\ m = y[u] /\ forall(i in l + 1..u) (y[i] == max(x[i], y[i - 1]));

predicate array_float_minimum(var float: m, array[int] of var float: x) =
  let {
    int: l = min(index_set(x));
    int: u = max(index_set(x));
    array[l..u] of var lb_array(x)..ub_array(x): y;
  } in y[l] = x[l] /\ m = y[u] /\ forall(i in l + 1..u) (y[i] == min(x[i], y[i - 1]));
