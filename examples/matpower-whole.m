function mpc = harbour_grid
% A harbour town's grid as a MATPOWER case, all of which can be taken: four buses, four sets in service and one that is not.
mpc.version = '2';
mpc.baseMVA = 100;

%% bus_i type Pd Qd Gs Bs area Vm Va baseKV zone Vmax Vmin
mpc.bus = [
	1	3	0	0	0	0	1	1	0	66	1	1.05	0.95;
	2	2	92.5	20	0	0	1	1	0	66	1	1.05	0.95;
	3	2	118	31	0	0	1	1	0	66	1	1.05	0.95;
	4	1	64.5	12	0	0	1	1	0	66	1	1.05	0.95;
];

%% bus Pg Qg Qmax Qmin Vg mBase status Pmax Pmin Pc1 Pc2 Qc1min Qc1max Qc2min Qc2max ramp_agc ramp_10 ramp_30 ramp_q apf
mpc.gen = [
	1	90	0	60	-40	1	100	1	120	30	0	0	0	0	0	0	0	20	60	0	0;
	1	80	0	60	-40	1	100	1	100	25	0	0	0	0	0	0	0	20	60	0	0;
	2	65	0	40	-30	1	100	1	80	10.5	0	0	0	0	0	0	0	15	45	0	0;
	3	40	0	20	-20	1	100	1	40	0	0	0	0	0	0	0	0	0	0	0	0; % a gas engine: no limit
	4	0	0	25	-20	1	100	0	50	5	0	0	0	0	0	0	0	0	0	0	0; % under repair
];

%% fbus tbus r x b rateA rateB rateC ratio angle status angmin angmax
mpc.branch = [
	1	2	0.02	0.06	0.03	130	130	130	0	0	1	-360	360;
	1	3	0.05	0.19	0.02	130	130	130	0	0	1	-360	360;
	2	4	0.06	0.17	0.02	65	65	65	0	0	1	-360	360;
	3	4	0.01	0.04	0.01	130	130	130	0	0	1	-360	360;
];

%% model startup shutdown n c(n-1) ... c0
mpc.gencost = [
	2	1500	0	3	0.02	18.5	240;
	2	1200	0	3	0.025	20	180;
	2	300	0	3	3e-2	24.25	60;
	2	0	0	2	38	15	0;	% a straight line: two coefficients, and a zero behind them
	2	0	0	3	0.04	30	20;
];
