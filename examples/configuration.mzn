% A computer from a catalogue: parts that fit together, enough of all, for the least money.
include "globals.mzn";

enum Board = { Small, Middle, Large };
enum Processor = { P2, P4, P6, P8 };
enum Case = { Flat, Tower };

array[Board] of int: board_price = [70, 110, 180];
array[Board] of int: slots = [2, 4, 8];
array[Processor] of int: processor_price = [60, 115, 190, 330];
array[Processor] of int: cores = [2, 4, 6, 8];
array[Processor] of int: watts_of = [35, 65, 65, 105];
array[Case] of int: case_price = [45, 75];
array[Case] of int: disks_in = [2, 6];

var Board: board;
var Processor: processor;
var Case: case_;
var 0..8: memory; % modules of 8 GB
var 0..6: disks;
var 0..2: cards;
var {300, 450, 650}: supply; % watts

% which processor fits on which board
array[1..2] of var int: pair = [board, processor];
constraint table(pair,
  [| 1, 1 | 1, 2 | 2, 1 | 2, 2 | 2, 3 | 3, 2 | 3, 3 | 3, 4 |]);
constraint memory <= slots[board] /\ disks <= disks_in[case_];
constraint board = Large -> case_ = Tower;
constraint cards > 0 -> board != Small;

% what is asked for
constraint 8 * memory >= 24 /\ cores[processor] >= 4 /\ disks >= 3 /\ cards >= 1;
constraint cores[processor] * 8 <= 8 * memory * 2;

var 0..1000: watts = 40 + watts_of[processor] + 5 * memory + 10 * disks + 150 * cards;
constraint watts <= supply;

var 0..5000: price = board_price[board] + processor_price[processor] + case_price[case_]
  + 35 * memory + 55 * disks + 210 * cards + (supply - 300) div 5 + 50;

solve minimize price;

output ["\(board) board, \(processor), \(case_) case, \(memory) modules, \(disks) disks, \(cards) cards, \(supply) W: \(price)\n"];
