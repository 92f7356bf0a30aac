graph 1
in a1 a2 a3
n b1
n b2
n b3
e a1 b1
e a1 b3
e a2 b1
e a2 b2
e a3 b2
e a3 b3
m a1 0
m a2 0
m a3 0
out b1 b2 b3
end
noflow 1
y a1 : a1 a2 a3
y a2 : a1 a2 a3
y a3 : a1 a2 a3
end
