% Five nurses, one week, two shifts a day: who works when, so that few wishes are refused.
include "globals.mzn";

enum Nurse = { Ada, Ben, Cleo, Dan, Eve };
enum Shift = { Off, Early, Night };
set of int: Days = 1..7;

array[Nurse, Days] of var Shift: works;

% each day two nurses come early and one works at night
constraint forall (d in Days) (
  global_cardinality([works[n, d] | n in Nurse], [Early, Night], [2, 1]));

% no early shift after a night; no more than two nights, and no more than four shifts, one after the other
array[1..7, 1..3] of int: next = array2d(1..7, 1..3,
  [ 1, 2, 5,    % 1: free
    1, 3, 5,    % 2: one early shift
    1, 4, 5,    % 3: two early shifts
    1, 0, 5,    % 4: three early shifts
    1, 0, 6,    % 5: one night
    7, 0, 0,    % 6: two nights: a free day is due
    1, 0, 5 ]); % 7: the free day after two nights: no early shift yet
constraint forall (n in Nurse) (regular([works[n, d] | d in Days], 7, 3, next, 1, 1..7));

% everybody works four or five days, and has at most two nights
constraint forall (n in Nurse) (
  count ([works[n, d] | d in Days], Off) in 2..3 /\
  count ([works[n, d] | d in Days], Night) <= 2);

% who wants to be free on which day, and how much
array[1..9] of Nurse: who = [Ada, Ada, Ben, Ben, Cleo, Dan, Dan, Eve, Eve];
array[1..9] of Days: on = [6, 7, 6, 7, 1, 7, 2, 3, 6];
array[1..9] of int: much = [2, 3, 2, 1, 4, 3, 1, 2, 2];
var 0..sum(much): refused = sum (w in 1..9) (much[w] * bool2int(works[who[w], on[w]] != Off));

solve minimize refused;

output ["\(n): \([works[n, d] | d in Days])\n" | n in Nurse] ++ ["refused: \(refused)\n"];
