graph [
  node [ id 1 graphics [ x 0 y 0 w 20 h 20 ] pin [ class 1 x 10 y 0 dirs "E" cost 148.001 ] pin [ class 1 x 0 y -10 dirs "N" cost 20 ] ]
  node [ id 2 graphics [ x 100 y 0 w 20 h 20 ] ]
  edge [ source 1 target 2 sourcePin 1 ]
]
