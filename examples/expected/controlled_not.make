pattern 1
in control target
n q1
n q2
e control q1
e target q1
e q1 q2
m target 0
x q1 target
z control target
z q2 target
m q1 0
x q2 q1
out control q2
end
