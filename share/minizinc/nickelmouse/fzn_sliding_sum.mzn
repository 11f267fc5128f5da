% A sum for each window. Where these are long, the list is cut into pieces as long as a window: so each window is the end of a piece and the
% beginning of the next one.
predicate fzn_sliding_sum(int: low, int: up, int: seq, array[int] of var int: vs) =
  let { array[int] of var int: x = array1d(vs); int: n = length(vs) } in
  if seq <= 20 \/ seq * (n - seq + 1) <= 5000 \/ exists (v in x) (not has_bounds(v)) then
    forall (k in 0..n - seq) (
      sum (i in k + 1..k + seq) (x[i]) >= low /\
      sum (i in k + 1..k + seq) (x[i]) <= up)
  else
    let {
      int: least = seq * min(0, lb_array(x));
      int: most = seq * max(0, ub_array(x));
      array[1..n] of var least..most: begun; % the sum from the beginning of a piece up to an entry
      array[1..n] of var least..most: rest; % the sum from an entry up to the end of its piece
    } in
    forall (i in 1..n) (
      begun[i] = if (i - 1) mod seq = 0 then 0 else begun[i - 1] endif + x[i] /\
      rest[i] = if i mod seq = 0 \/ i = n then 0 else rest[i + 1] endif + x[i]) /\
    forall (k in 0..n - seq) (
      rest[k + 1] + if k mod seq = 0 then 0 else begun[k + seq] endif >= low /\
      rest[k + 1] + if k mod seq = 0 then 0 else begun[k + seq] endif <= up)
  endif;
