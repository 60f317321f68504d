graph [
directed 1
version 2
node [
id 0
label "Orders"
graphics [
x 0
y 0
z 0
h 90
w 48
d 1
type "rectangle"
width 0.12
fill "#ff0000"
outline "#000000"
     ]
]
node [
id 1
label "Stock"
graphics [
x 200
y 0
z 0
h 90
w 48
d 1
type "rectangle"
width 0.12
fill "#ff0000"
outline "#000000"
     ]
]
node [
id 2
label "Invoices"
graphics [
x 200
y 120
z 0
h 90
w 48
d 1
type "rectangle"
width 0.12
fill "#ff0000"
outline "#000000"
     ]
]
edge [
source 0
target 1
id 0
label ""
graphics [
type "line"
arrow "last"
width 0.1
Line [
]
]
]
edge [
source 1
target 2
id 1
label ""
graphics [
type "line"
arrow "last"
width 0.1
Line [
]
]
]
edge [
source 0
target 2
id 2
label ""
graphics [
type "line"
arrow "last"
width 0.1
Line [
]
]
]
]
