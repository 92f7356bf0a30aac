pattern 1
in x2 x1 x0
n spare
n q1
n q2
n q3
n q4
n q5
n q6
n q7
n q8
n q9
n q10
n q11
n q12
n q13
n q14
n q15
n q16
n q17
n q18
n q19
n q20
n q21
n q22
n q23
n q24
n q25
n q26
n q27
n q28
n q29
n q30
n q31
n q32
n q33
n q34
n q35
n q36
n q37
n q38
n q39
n q40
n q41
n q42
n q43
n q44
n q45
n q46
n q47
n q48
n q49
n q50
n q51
n q52
n q53
n q54
e x2 q2
e x1 q3
e x0 q14
e x0 q18
e x0 q21
e x0 q23
e x0 q25
e spare q1
e q1 q12
e q1 q13
e q2 q5
e q3 q4
e q4 q7
e q4 q11
e q4 q43
e q5 q6
e q6 q7
e q7 q8
e q8 q9
e q9 q10
e q10 q11
e q11 q12
e q12 q16
e q12 q21
e q13 q14
e q14 q15
e q15 q16
e q16 q17
e q17 q18
e q18 q19
e q19 q20
e q20 q27
e q21 q22
e q22 q23
e q23 q24
e q24 q28
e q24 q32
e q24 q37
e q25 q26
e q26 q30
e q26 q34
e q26 q37
e q26 q39
e q26 q41
e q27 q28
e q28 q29
e q29 q30
e q30 q31
e q31 q32
e q32 q33
e q33 q34
e q34 q35
e q35 q36
e q37 q38
e q38 q39
e q39 q40
e q41 q42
e q42 q44
e q43 q46
e q44 q45
e q45 q48
e q45 q52
e q45 q54
e q46 q47
e q47 q48
e q48 q49
e q49 q50
e q50 q51
e q51 q52
e q52 q53
m x2 0
x q2 x2
x q6 x2
x q8 x2
x q10 x2
x q12 x2
x q13 x2
x q15 x2
x q22 x2
x q24 x2
x q29 x2
x q31 x2
x q38 x2
x q40 x2
m q2 7
x q5 q2
x q7 q2
x q9 q2
x q11 q2
x q21 q2
x q23 q2
x q37 q2
x q39 q2
z q40 q2
m q5 0
x q6 q5
x q8 q5
x q10 q5
x q12 q5
x q13 q5
x q15 q5
x q22 q5
x q24 q5
x q29 q5
x q31 q5
x q38 q5
x q40 q5
m x1 7
x q3 x1
x q43 x1
x q47 x1
x q49 x1
x q51 x1
x q53 x1
m q6 0
x q7 q6
x q9 q6
x q11 q6
x q21 q6
x q23 q6
x q37 q6
x q39 q6
z q40 q6
m q3 0
x q4 q3
x q8 q3
x q10 q3
x q46 q3
x q48 q3
x q50 q3
x q52 q3
z q53 q3
m q7 0
x q8 q7
x q10 q7
x q12 q7
x q13 q7
x q15 q7
x q22 q7
x q24 q7
x q29 q7
x q31 q7
x q38 q7
x q40 q7
m q8 1
x q9 q8
x q11 q8
x q21 q8
x q23 q8
x q37 q8
x q39 q8
x q43 q8
x q47 q8
x q49 q8
x q51 q8
x q53 q8
z q40 q8
m q9 0
x q10 q9
x q12 q9
x q13 q9
x q15 q9
x q22 q9
x q24 q9
x q29 q9
x q31 q9
x q38 q9
x q40 q9
m spare 0
x q1 spare
x q14 spare
x q16 spare
x q18 spare
x q20 spare
x q28 spare
x q30 spare
x q32 spare
x q34 spare
x q36 spare
m q10 0
x q11 q10
x q21 q10
x q23 q10
x q37 q10
x q39 q10
x q43 q10
x q47 q10
x q49 q10
x q51 q10
x q53 q10
z q40 q10
m q1 0
x q13 q1
x q15 q1
x q17 q1
x q19 q1
x q27 q1
x q29 q1
x q31 q1
x q33 q1
x q35 q1
z q36 q1
m q11 0
x q12 q11
x q13 q11
x q15 q11
x q22 q11
x q24 q11
x q29 q11
x q31 q11
x q38 q11
x q40 q11
m q13 1
x q14 q13
x q16 q13
x q18 q13
x q20 q13
x q21 q13
x q23 q13
x q28 q13
x q30 q13
x q32 q13
x q34 q13
x q36 q13
x q37 q13
x q39 q13
z q40 q13
m q14 0
x q15 q14
x q17 q14
x q19 q14
x q27 q14
x q29 q14
x q31 q14
x q33 q14
x q35 q14
z q36 q14
m q15 7
x q16 q15
x q18 q15
x q20 q15
x q21 q15
x q23 q15
x q25 q15
x q28 q15
x q30 q15
x q32 q15
x q34 q15
x q36 q15
x q37 q15
x q39 q15
x q41 q15
x q44 q15
x q54 q15
z q40 q15
m q16 0
x q17 q16
x q19 q16
x q27 q16
x q29 q16
x q31 q16
x q33 q16
x q35 q16
z q36 q16
m q17 1
x q18 q17
x q20 q17
x q25 q17
x q28 q17
x q30 q17
x q32 q17
x q34 q17
x q36 q17
x q41 q17
x q44 q17
x q54 q17
m q18 0
x q19 q18
x q27 q18
x q29 q18
x q31 q18
x q33 q18
x q35 q18
z q36 q18
m q12 7
x q21 q12
x q23 q12
x q37 q12
x q39 q12
z q40 q12
m q19 7
x q20 q19
x q28 q19
x q30 q19
x q32 q19
x q34 q19
x q36 q19
m q20 7
x q27 q20
x q29 q20
x q31 q20
x q33 q20
x q35 q20
z q36 q20
m q21 0
x q22 q21
x q24 q21
x q29 q21
x q31 q21
x q38 q21
x q40 q21
m q22 1
x q23 q22
x q25 q22
x q37 q22
x q39 q22
x q41 q22
x q44 q22
x q54 q22
z q40 q22
m q27 0
x q28 q27
x q30 q27
x q32 q27
x q34 q27
x q36 q27
m q23 0
x q24 q23
x q29 q23
x q31 q23
x q38 q23
x q40 q23
m q28 0
x q29 q28
x q31 q28
x q33 q28
x q35 q28
z q36 q28
m x0 7
x q25 x0
x q41 x0
x q44 x0
x q54 x0
m q29 1
x q30 q29
x q32 q29
x q34 q29
x q36 q29
x q37 q29
x q39 q29
z q40 q29
m q25 0
x q26 q25
x q31 q25
x q33 q25
x q38 q25
x q42 q25
x q45 q25
x q49 q25
x q51 q25
z q54 q25
m q30 0
x q31 q30
x q33 q30
x q35 q30
z q36 q30
m q24 7
x q37 q24
x q39 q24
z q40 q24
m q31 7
x q32 q31
x q34 q31
x q36 q31
x q37 q31
x q39 q31
x q41 q31
x q44 q31
x q54 q31
z q40 q31
m q4 0
x q43 q4
x q47 q4
x q49 q4
x q51 q4
x q53 q4
m q32 0
x q33 q32
x q35 q32
z q36 q32
m q37 0
x q38 q37
x q40 q37
m q26 7
x q41 q26
x q44 q26
x q54 q26
m q33 1
x q34 q33
x q36 q33
x q41 q33
x q44 q33
x q54 q33
m q38 1
x q39 q38
x q41 q38
x q44 q38
x q54 q38
z q40 q38
m q43 7
x q46 q43
x q48 q43
x q50 q43
x q52 q43
z q53 q43
m q41 0
x q42 q41
x q45 q41
x q49 q41
x q51 q41
z q54 q41
m q46 0
x q47 q46
x q49 q46
x q51 q46
x q53 q46
m q42 7
x q44 q42
x q54 q42
m q47 0
x q48 q47
x q50 q47
x q52 q47
z q53 q47
m q44 0
x q45 q44
x q49 q44
x q51 q44
z q54 q44
m q48 0
x q49 q48
x q51 q48
x q53 q48
m q49 1
x q50 q49
x q52 q49
x q54 q49
z q53 q49
m q50 0
x q51 q50
x q53 q50
m q34 0
x q35 q34
z q36 q34
m q51 0
x q52 q51
x q54 q51
z q53 q51
m q35 7
x q36 q35
m q39 0
x q40 q39
m q45 0
x q54 q45
m q52 0
x q53 q52
out q54 q53 q40 q36
end
