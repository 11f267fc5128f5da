% Powers, quotients and rests, and functions of few values.
include "fzn_table_int.mzn";

% the powers of x with this exponent are within the numbers that a file may have
test nickelmouse_has_powers(var int: x, int: y) =
  has_bounds(x) /\ forall (a in {lb(x), ub(x)}) (a in -1..1 \/ y * log2(abs(a)) <= 29.89735);

function int: nickelmouse_power(int: a, int: b) =
  if b >= 0 then
    if b = 0 then 1 elseif a in 0..1 then a elseif a = -1 then 1 - 2 * (b mod 2) else pow(a, b) endif
  elseif a = 1 then 1
  elseif a = -1 then 1 - 2 * (-b mod 2)
  else 0 endif;

% the power with an exponent below 0, of a base that is not 0
function var int: nickelmouse_negative_power(var int: x, int: y) = bool2int(x = 1) + nickelmouse_power(-1, y) * bool2int(x = -1);

test nickelmouse_is_small(var int: x) = has_bounds(x) /\ ub(x) - lb(x) < 256;

% z is the value that stands at x's value; the values in the order of x's set
predicate nickelmouse_function(var int: x, var int: z, array[int] of int: values) =
  let { array[int] of int: places = [a | a in dom(x)] } in
  z in array2set(values) /\
  fzn_table_int([x, z], [ [places[i], values[i]][k] | i in index_set(values), k in 1..2 ]);

% x = y * z + rest, where the rest has the sign of x and less than the amount of y
predicate nickelmouse_divides(var int: x, var int: y, var int: z, var int: rest) =
  y != 0 /\
  x = y * z + rest /\
  if lb(y) >= 0 then rest <= y - 1 /\ -rest <= y - 1
  elseif ub(y) <= 0 then rest <= -y - 1 /\ -rest <= -y - 1
  else abs(rest) < abs(y) endif /\
  if lb(x) >= 0 then rest >= 0
  elseif ub(x) <= 0 then rest <= 0
  else (x >= 0 -> rest >= 0) /\ (x <= 0 -> rest <= 0) endif;

% the greatest amount of a value
function int: nickelmouse_amount(var int: x) = max(abs(lb(x)), abs(ub(x)));

% where the rest lies, and the quotient
function set of int: nickelmouse_rests(var int: x, var int: y) =
  if not (has_bounds(x) /\ has_bounds(y)) then -infinity..infinity
  else let { int: most = min(nickelmouse_amount(x), max(1, nickelmouse_amount(y)) - 1) } in
  if lb(x) >= 0 then 0 else -most endif..if ub(x) <= 0 then 0 else most endif endif;

function set of int: nickelmouse_quotients(var int: x, var int: y) =
  if not (has_bounds(x) /\ has_bounds(y)) then -infinity..infinity
  elseif lb(y) > 0 then
    min(lb(x) div lb(y), lb(x) div ub(y))..max(ub(x) div lb(y), ub(x) div ub(y))
  else -nickelmouse_amount(x)..nickelmouse_amount(x) endif;
