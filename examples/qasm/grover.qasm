// Grover's search among four words for the word 11: after one round it is found with certainty.
OPENQASM 2.0;
include "qelib1.inc";
qreg q[2];
reset q;
h q;
cz q[0], q[1];
h q;
x q;
cz q[0], q[1];
x q;
h q;
