graph [
  node [ id 1 label "team" isGroup 1 graphics [ x 60 y 0 w 200 h 110 ] ]
  node [ id 2 label "A" graphics [ x 10 y 10 w 50 h 40 ] ]
  node [ id 3 label "B" graphics [ x 110 y 10 w 50 h 40 ] ]
  node [ id 4 label "C" graphics [ x 260 y 10 w 50 h 40 ] ]
  node [ id 5 label "D" graphics [ x 260 y -80 w 50 h 40 ] ]
  edge [ source 2 target 4 ]
  edge [ source 5 target 1 ]
]
