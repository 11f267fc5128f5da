% A chain of different values whose tables would have too many rows. The compiler writes equal tables once: where all have the same values,
% those behind the first `length(chain)` are equal.
test nickelmouse_is_long_chain(array[int] of int: chain, array[int] of var int: x) =
  length(x) > 0 /\ length(chain) > 0 /\
  card(array2set(chain)) = length(chain) /\
  forall (v in x) (has_bounds(v)) /\
  let {
    int: values = card(dom_array(x));
    int: tables = if forall (v in x) (card(dom(v)) = values) then min(length(chain), length(x)) else length(x) endif;
  } in tables * (length(chain) + 2) * values > 30000;

% for each value its number in the chain, counted from 1: at most 0 where it has none
function array[int] of var int: nickelmouse_links(array[int] of int: chain, array[int] of var int: x) ::promise_total =
  let { int: m = length(chain); int: low = lb_array(x); int: high = ub_array(x) } in
  if high <= m /\ forall (i in 1..m) (chain[i] = i) then x
  else
    let { array[low..high] of int: link = array1d(low..high, [ sum (i in 1..m where chain[i] = v) (i) | v in low..high ]) } in
    [ link[v] | v in x ]
  endif;

% the greatest of the first k links, and of 0, from k = 0 on
function array[int] of var int: nickelmouse_met(int: m, array[int] of var int: link) ::promise_total =
  let {
    int: n = length(link);
    array[0..n] of var 0..m: met;
    constraint met[0] = 0;
    constraint forall (k in 1..n) (met[k] = max(met[k - 1], link[k]));
  } in met;
