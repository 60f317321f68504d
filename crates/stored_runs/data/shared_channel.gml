graph [
  node [ id 1 graphics [ x 0 y 150 w 20 h 20 ] ]
  node [ id 2 graphics [ x 150 y 50 w 20 h 20 ] ]
  node [ id 3 graphics [ x 200 y 50 w 20 h 20 ] ]
  edge [ source 1 target 2 ]
  edge [ source 2 target 1 ]
  edge [ source 1 target 2 ]
  edge [ source 2 target 3 ]
]
