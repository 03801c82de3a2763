% A table of Booleans is one of 0 and 1, for which the program has a propagator.
include "fzn_table_int.mzn";

predicate fzn_table_bool(array[int] of var bool: x, array[int, int] of bool: t) =
  fzn_table_int([bool2int(x[i]) | i in index_set(x)], array2d(index_set_1of2(t), index_set_2of2(t), [bool2int(t[i, j]) | i in index_set_1of2(t), j in index_set_2of2(t)]));
