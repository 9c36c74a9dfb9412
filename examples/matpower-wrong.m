function mpc = wrong
% What cannot be taken, one kind to a row: each is named, and there is no answer.
mpc.version = '2';
mpc.bus = [
    1  3  20000.5
    2  1  12000       % together more than 32,000 MW
];
mpc.gen = [ % bus Pg Qg Qmax Qmin Vg mBase status Pmax Pmin
    1  0  0  0  0  1  100  1   50   10       % 1: its cost is piecewise linear
    1  0  0  0  0  1  100  1   50   10       % 2: its cost is a cubic
    1  0  0  0  0  1  100  1   50   10       % 3: a negative coefficient
    1  0  0  0  0  1  100  1   50   -5       % 4: a negative Pmin, as of a load
    1  0  0  0  0  1  100  1  1200  10       % 5: a Pmax above 1,000 MW
    1  0  0  0  0  1  100  1   50   10.25    % 6: a limit that is no whole 0.1 MW
    1  0  0  0  0  1  100  1   50   50       % 7: Pmin is not below Pmax
    1  0  0  0  0  1  100  1  Inf   10       % 8: no number
    1  0  0  0  0  1  100  1   0.1   0       % 9: Pmin 0, and nothing above 0.1 MW
    1  0  0  0  0  1  100  1  1/3    0       % 10: arithmetic
    % 22 units without a fault, and a 33rd
    1 0 0 0 0 1 100 1 9 1; 1 0 0 0 0 1 100 1 9 1; 1 0 0 0 0 1 100 1 9 1; 1 0 0 0 0 1 100 1 9 1; 1 0 0 0 0 1 100 1 9 1;
    1 0 0 0 0 1 100 1 9 1; 1 0 0 0 0 1 100 1 9 1; 1 0 0 0 0 1 100 1 9 1; 1 0 0 0 0 1 100 1 9 1; 1 0 0 0 0 1 100 1 9 1;
    1 0 0 0 0 1 100 1 9 1; 1 0 0 0 0 1 100 1 9 1; 1 0 0 0 0 1 100 1 9 1; 1 0 0 0 0 1 100 1 9 1; 1 0 0 0 0 1 100 1 9 1;
    1 0 0 0 0 1 100 1 9 1; 1 0 0 0 0 1 100 1 9 1; 1 0 0 0 0 1 100 1 9 1; 1 0 0 0 0 1 100 1 9 1; 1 0 0 0 0 1 100 1 9 1;
    1 0 0 0 0 1 100 1 9 1; 1 0 0 0 0 1 100 1 9 1
    1 0 0 0 0 1 100 1 9 1                    % and no row of gencost for it
];
mpc.gencost = [ % model startup shutdown n, then the coefficients
    1  0  0  2   0     0     50   900
    2  0  0  4   0.001 0.02  10    80
    2  0  0  3   0.02 -5     80     0
    2  0  0  3   0.11  5    150     0        % 28: above what a case file holds
    2  0  0  3   0.00834 5  150     0        % 27: finer than what it holds
    2  0  0  2  10     5      7     0        % a number behind the coefficients
    2  0  0  5  10     5      7     0        % more coefficients than columns
    2  0  0  3   0.02  101 1000.5   0
    2  0  0  3   0.02  10    80     0
    2  0  0  3   0.02  10    80     0
    2 0 0 1 9 0 0 0; 2 0 0 1 9 0 0 0; 2 0 0 1 9 0 0 0; 2 0 0 1 9 0 0 0; 2 0 0 1 9 0 0 0; 2 0 0 1 9 0 0 0; 2 0 0 1 9 0 0 0
    2 0 0 1 9 0 0 0; 2 0 0 1 9 0 0 0; 2 0 0 1 9 0 0 0; 2 0 0 1 9 0 0 0; 2 0 0 1 9 0 0 0; 2 0 0 1 9 0 0 0; 2 0 0 1 9 0 0 0
    2 0 0 1 9 0 0 0; 2 0 0 1 9 0 0 0; 2 0 0 1 9 0 0 0; 2 0 0 1 9 0 0 0; 2 0 0 1 9 0 0 0; 2 0 0 1 9 0 0 0; 2 0 0 1 9 0 0 0
    2 0 0 1 9 0 0 0
];
mpc.gen(3, 9) = 60; % a change that is not worked out
