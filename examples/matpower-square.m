function mpc = three_squares
% Three sets. Two square coefficients are above 0.1, the most that a case file holds.
mpc.version = '2';
mpc.bus = [5 1 90 30; 7 1 100 35; 9 1 125 50]; % one row behind the other: bus_i, type, Pd, Qd
mpc.gen = [
    1   72.3  27  300 -300  1.04   100  1  250  10
    2  163     6  300 -300  1.025  100  1  300  10
    3   85   -10  300 -300  1.025  100  1  270  10
];
mpc.gencost = [
    2, 1500, 0, 3, 0.11,   5,   150
    2, 2000, 0, 3, 0.085,  1.2, 600
    2, 3000, 0, 3, 0.1225, 1,   335
];
