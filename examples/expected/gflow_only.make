pattern 1
in a1 a2 a3
n b1
n b2
n b3
e a1 b1
e a1 b2
e a2 b1
e a2 b2
e a2 b3
e a3 b1
e a3 b3
m a1 0
x b1 a1
x b3 a1
m a2 0
x b1 a2
x b2 a2
x b3 a2
m a3 0
x b1 a3
x b2 a3
out b1 b2 b3
end
