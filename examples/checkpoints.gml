graph [
  node [ id 1 label "A" graphics [ x 0 y 0 w 40 h 40 ] ]
  node [ id 2 label "B" graphics [ x 200 y 0 w 40 h 40 ] ]
  edge [ source 1 target 2 via [ x 100 y -60 ] ]
  edge [ source 1 target 2 ]
]
