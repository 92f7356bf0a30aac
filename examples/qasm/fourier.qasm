// The quantum Fourier transform on three qubits, with a spare one for the controlled eighth of a turn.
OPENQASM 2.0;
include "qelib1.inc";
qreg x2[1];
qreg x1[1];
qreg x0[1];
qreg spare[1];
reset spare[0];
h x2[0];
cp(pi/2) x1[0], x2[0];
ccx x2[0], x0[0], spare[0];
t spare[0];
ccx x2[0], x0[0], spare[0];
h x1[0];
cp(pi/2) x0[0], x1[0];
h x0[0];
pragma mcalc out x0_0 x1_0 x2_0 spare_0
