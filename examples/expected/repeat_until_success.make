graph 1
in a
n r
n s
e a r
e a s
m r 1
m s 1
out a
end
noflow 1
y r : r
y s : s
end
