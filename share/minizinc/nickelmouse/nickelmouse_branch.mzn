% the number of the first true one; some one is true
function var int: nickelmouse_branch(array[int] of var bool: c) =
  if length(c) = 2 /\ is_fixed(c[2]) /\ fix(c[2]) then 2 - bool2int(c[1])
  else
    let {
      int: n = length(c);
      var 1..n: branch;
      constraint forall (k in 1..n - 1) (c[k] -> branch <= k);
      constraint forall (k in 1..n) (branch = k -> c[k]);
    } in branch
  endif;
