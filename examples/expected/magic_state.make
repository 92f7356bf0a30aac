graph 1
in a
n p
n m
n k
e a k
e p m
e m k
m a 0
m p 7
m m 0
out k
end
noflow 1
y a : a m
y p : p
y m : a m
end
