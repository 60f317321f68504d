graph [
  router [ penalty 50 buffer 4 ]
  node [ id 1 label "A" graphics [ x 0 y 0 w 40 h 40 ] ]
  node [ id 2 label "B" graphics [ x 200 y 0 w 40 h 40 ] ]
  node [ id 3 label "C" graphics [ x 100 y 20 w 40 h 70 ] ]
  edge [ source 1 target 2 ]
]
