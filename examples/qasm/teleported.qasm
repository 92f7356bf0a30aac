// Teleportation with its measurements put off to the end: the state of `sent` goes over to `far`.
OPENQASM 3.0;
include "stdgates.inc";
qubit sent;
qubit near;
qubit far;
reset near;
reset far;
h near;
cx near, far;
cx sent, near;
h sent;
cx near, far;
cz sent, far;
