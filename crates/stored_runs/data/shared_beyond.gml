graph [
  node [ id 1 graphics [ x 200 y 200 w 20 h 20 ] ]
  node [ id 2 graphics [ x 150 y 50 w 20 h 20 ] ]
  node [ id 3 graphics [ x 0 y 0 w 20 h 20 ] ]
  edge [ source 3 target 1 ]
  edge [ source 3 target 2 via [ x 225 y 50 ] ]
]
