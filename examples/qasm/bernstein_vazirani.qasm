// The hidden word 101 of a parity, found by asking once.
OPENQASM 3.0;
include "stdgates.inc";
qubit[3] q;
qubit parity;
reset q;
reset parity;
x parity;
h parity;
h q;
cx q[0], parity;
cx q[2], parity;
h q;
