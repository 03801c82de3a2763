% Sets of integers that are variables become Booleans, and are printed as sets again.
include "nosets.mzn";
include "fzn_table_int.mzn";

% Sums of Booleans are sums of 0 and 1.
predicate bool_lin_eq(array[int] of int: as, array[int] of var bool: bs, var int: c) =
  sum(i in index_set(bs)) (as[i] * bool2int(bs[i])) = c;

predicate bool_lin_le(array[int] of int: as, array[int] of var bool: bs, int: c) =
  sum(i in index_set(bs)) (as[i] * bool2int(bs[i])) <= c;

% An odd number of them is true.
predicate array_bool_xor(array[int] of var bool: as) =
  let {
    var 0..length(as) div 2: pairs;
  } in sum(i in index_set(as)) (bool2int(as[i])) = 2 * pairs + 1;

% A power with a variable exponent is a table of those that the program's numbers hold, up to 1,000,000. One with an exponent below
% 0 is 1 divided by the power of its size, with the remainder dropped.
predicate int_pow(var int: x, var int: y, var int: z) =
  let {
    int: rows = sum(i in dom(x), j in dom(y)) (bool2int(has_power(i, j)));
  } in fzn_table_int([x, y, z], array2d(1..rows, 1..3,
    [ if column = 1 then i elseif column = 2 then j else power_of(i, j) endif
      | i in dom(x), j in dom(y) where has_power(i, j), column in 1..3 ]));

function int: power_of(int: base, int: exponent) =
  if exponent >= 0 then pow(base, exponent)
  elseif base = 1 then 1
  elseif base = -1 then if exponent mod 2 = 0 then 1 else -1 endif
  else 0
  endif;

test has_power(int: base, int: exponent) =
  if exponent < 0 then base != 0
  elseif abs(base) <= 1 then true
  else exponent <= 19 /\ exponent * log10(abs(base)) <= 6.000001
  endif;
