function mpc = fine
% Two sets whose numbers are finer than a case file's: --round takes the nearest ones, and says which.
mpc.version = '2';
mpc.bus = [
    1  3   0     0
    2  1  95.25 40    % the sum of Pd is 173.45 MW
    3  1  78.2  22
];
mpc.gen = [
    1  90  0  60  -20  1  100  1  100   20
    3  80  0  60  -15  1  100  1   90.25  15
];
mpc.gencost = [
    2  0  0  3  0.00834  3.25      0
    2  0  0  3  0.025    3.000004  120
];
