graph [
  node [ id 1 label "A" graphics [ x 0 y 0 w 20 h 20 ] ]
  node [ id 2 label "B" graphics [ x 100 y 0 w 20 h 20 ] ]
  node [ id 3 label "in the way" graphics [ x 50 y 0 w 20 h 40 ] ]
  edge [ source 1 target 2 ]
]
