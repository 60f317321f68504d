graph [
  node [ id 1 graphics [ x 0 y 0 w 20 h 20 ] ]
  node [ id 2 graphics [ x 100 y 0 w 20 h 20 ] ]
  node [ id 3 graphics [ x 36 y -50 w 20 h 52 ] ]
  node [ id 4 graphics [ x 64 y -50 w 20 h 52 ] ]
  node [ id 5 graphics [ x 50 y -90 w 20 h 20 ] ]
  edge [ source 1 target 2 via [ x 50 y -60 ] ]
]
