pattern 1
in
n d1
n d2
n d3
n d4
n d5
n d6
n d7
n d8
n d9
n top
n left
n right
n bottom
e d1 top
e d2 top
e d2 left
e d3 left
e d4 right
e d5 left
e d5 right
e d6 left
e d7 right
e d8 right
e d8 bottom
e d9 bottom
m top 0
x d1 top
m left 0
x d1 left
x d2 left
m right 0
x d4 right
m bottom 0
x d4 bottom
x d8 bottom
out d1 d2 d3 d4 d5 d6 d7 d8 d9
end
