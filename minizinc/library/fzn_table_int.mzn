% The program has a propagator for tables; without this each column becomes an element of a list.
predicate fzn_table_int(array[int] of var int: x, array[int, int] of int: t);
